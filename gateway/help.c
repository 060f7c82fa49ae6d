/* What --help prints. */
#include "help.h"

#include <stdio.h>

static const char COMMANDS[] =
    "selkavorn replay [options] FILE\n"
    "selkavorn sell --quantity N --instrument ID [options] FILE\n"
    "selkavorn buy --quantity N --instrument ID [options] FILE\n"
    "selkavorn snapshot --instrument ID --sender NAME --target NAME [options] FILE\n"
    "selkavorn salvage [options] FILE\n"
    "\n"
    "replay feeds a recording of one channel to a fresh board. It prints a line for\n"
    "each message, and then the quotes of all instruments, each with its date: the\n"
    "sending time of the last message that was counted. sell feeds it likewise, and\n"
    "prints what selling a lot down the bids would bring, place by place, and what is\n"
    "left; buy, what buying it up the offers would cost. Both are dated as a quote\n"
    "is. They know no fees, and nothing is traded. snapshot feeds it likewise, and\n"
    "writes the book of one instrument as a snapshot message (W). salvage feeds\n"
    "nothing: it tells where the whole messages of a damaged recording stand, and\n"
    "which bytes between them are passed over.\n"
    "\n"
    "FILE holds messages end to end, - is standard input: the incremental stream,\n"
    "and the snapshots (W) of its snapshot stream if they are not in a file of their\n"
    "own. Unless it is salvaged it must not hold the heartbeats of the snapshot\n"
    "stream: their numbers would be counted.\n"
    "\n"
    "The exchange sends no snapshot of an empty book. At the end of a whole loop of\n"
    "snapshots (34 = 1, 2 and so on to 911, each once and in order) an instrument\n"
    "that waits and that the loop does not name starts from an empty book as of the\n"
    "loop's lowest 369, if that is in the queue's reach. So does one that the channel\n"
    "does not have.\n";

static const char OPTIONS[] =
    "\n"
    "replay, sell, buy and snapshot:\n"
    "  --depth order|price    kind of the channel; order unless given\n"
    "  --snapshots FILE       a recording of the snapshot stream: its snapshots are\n"
    "                         fed by their times, its other messages left out\n"
    "  --resets open|pass     at a sequence reset (35=4), also one that was lost,\n"
    "                         open the board afresh, or not; open unless given\n"
    "  --silence SECONDS      take a longer silence before the very next number for a\n"
    "                         lost reset, 1 to 86400; none is unless given\n"
    "replay, sell and buy:\n"
    "  --now MOMENT           when the quotes or the lot are to be used, in UTC, as\n"
    "                         20250103-13:00:00 or 20250103-13:00:00.000; unless\n"
    "                         given, the last moment in the recording\n"
    "  --limit SECONDS        give no quote or lot that is older than this at that\n"
    "                         moment, 0 to 86400; 30 unless given\n"
    "  --csv, --json          print the quotes or the lot alone, for a program\n"
    "replay:\n"
    "  --instruments ID[=NAME][,ID[=NAME]..]\n"
    "                         1 to 16 SecurityIDs to follow; unless given, those\n"
    "                         that the recording names, which is then read twice\n"
    "  --quote                print no line for each message\n"
    "sell and buy:\n"
    "  --quantity N           units of the lot, as tag 271 counts, 1 to 999999999\n"
    "sell, buy and snapshot:\n"
    "  --instrument ID        the instrument's SecurityID\n"
    "snapshot:\n"
    "  --sender NAME          tag 49, 1 to 16 bytes\n"
    "  --target NAME          tag 56, likewise\n"
    "  --number K, --of M     tags 34 and 911, 1 to 16; M is 16 and K is M unless\n"
    "                         given. 1 of 1 is a whole loop: what it does not name\n"
    "                         is taken for empty\n"
    "  --time MOMENT          tag 52; unless given, the heard moment\n"
    "salvage:\n"
    "  --keep OUT             write the whole messages end to end to a new file\n"
    "  --overwrite            replace OUT where it is there\n"
    "  --totals               print the totals alone\n"
    "  --csv                  print a row for each piece and no totals, for a program\n"
    "\n"
    "  -h, --help             print this\n"
    "  --version              print the version\n"
    "An option's value may also follow a =, as in --limit=10. -- ends the options.\n";

static const char STATUSES[] =
    "\n"
    "The computer's clock is never read. For quotes to sell by, give the present:\n"
    "  --now $(date -u +%Y%m%d-%H:%M:%S)\n"
    "\n"
    "Exit status:\n"
    "  0  a quote is given of one instrument at least; the lot is given, also where\n"
    "     units are left; the snapshot is written; or the recording is salvaged, and\n"
    "     no byte was passed over\n"
    "  1  the output, or OUT, could not be written\n"
    "  2  bad use, also where more than 16 instruments are named to choose from\n"
    "  3  a file could not be read, holds no message, or names no instrument\n"
    "  4  no quote or no lot could be given, or no snapshot written\n"
    "  5  none is given: a sequence reset was lost, and --resets is pass\n"
    "  6  the recording is salvaged, and bytes were passed over\n";

void print_help(void)
{
    fputs(COMMANDS, stdout);
    fputs(OPTIONS, stdout);
    fputs(STATUSES, stdout);
}

/* What the command line asks for, and the exit statuses of the program. */
#ifndef REQUEST_H
#define REQUEST_H

#include <stdbool.h>
#include <stddef.h>
#include <stdint.h>

#include "selkavorn.h"

enum { NAME_TEXT = 33 }; /* a name of 32 bytes and its zero byte fit */

enum command {
    COMMAND_REPLAY = 1,
    COMMAND_SNAPSHOT = 2,
    COMMAND_SALVAGE = 4,
    COMMAND_SELL = 8,
    COMMAND_BUY = 16
};

/* The forms in which quotes, lots or pieces are printed; pieces are not as JSON. */
enum form { FORM_TABLE, FORM_CSV, FORM_JSON };

/* What selkavorn_write takes for a snapshot. */
struct writing {
    const char *sender, *target;
    const char *time; /* or NULL for the heard moment */
    uint64_t number, of;
};

struct request {
    enum command command;
    const char *path;      /* of the recording, or "-" for standard input */
    const char *snapshots; /* of a recording of the snapshot stream, or "-", or NULL */
    const char *now;       /* the moment of the quotes, or NULL for the latest in the recording */
    uint64_t depth;        /* of enum selkavorn_depth */
    uint64_t limit_s;      /* the age of a quote that is still good */
    uint64_t quantity;     /* the units of a lot; 0 where they are not given */
    uint64_t silence_s;    /* a longer silence is taken for a lost reset; 0: none is */
    enum form form;
    bool quote_only;  /* no line for each message */
    bool pass_resets; /* a sequence reset, seen or lost, does not open the board afresh */
    bool totals_only; /* no line for each piece */
    const char *keep; /* a file for the whole messages, or NULL */
    bool overwrite;   /* it may be there already */
    struct writing writing;
    uint64_t ids[SELKAVORN_MOST_INSTRUMENTS];
    char names[SELKAVORN_MOST_INSTRUMENTS][NAME_TEXT]; /* beside each; "" where none is given */
    size_t ids_n;
};

enum status {
    STATUS_GOOD = 0,       /* done: a quote or lot is given, a snapshot written, all salvaged */
    STATUS_OUTPUT = 1,     /* the output could not be written */
    STATUS_USE = 2,        /* bad use */
    STATUS_FILE = 3,       /* a file could not be read, holds no message, or names no instrument */
    STATUS_NO_QUOTE = 4,   /* no quote of any instrument, lot or snapshot could be given */
    STATUS_LOST_RESET = 5, /* none is given: a sequence reset was lost */
    STATUS_DAMAGED = 6     /* bytes of the recording were passed over by a salvage */
};

/* Reads the command line; ends the program where it is bad. */
void read_command(struct request *request, int argc, char **argv);

/* Says what is wrong with the command line, and ends. */
_Noreturn void bad_use(const char *what, const char *word);

#endif

/* Selkavorn 3.1: keeps the order books of one exchange channel and gives dated quotes.
 *
 * This is the header of the books. Its functions are proved, and stand in libselkavorn.a (x86-64
 * Linux), as do those of selkavorn_lots.h, which say what a quantity brings down a book.
 * What follows is enough to use them; docs/RULES.md has every rule to the last byte, in sections
 * whose names are given here in quotes.
 *
 * Words
 *   message    one FIX 4.4 message in tag=value bytes, from its 8= to the SOH (byte 1) of its 10=.
 *   number     tag 34 of a message of the incremental stream: 1, 2, 3 and so on. Only snapshots
 *              (35=W) are not numbered here: their 34 counts them within their own loop.
 *   counted    a message is counted when its number is above H: it then becomes H, and its sending
 *              time (52) the heard moment. A message that is refused is never counted.
 *   H          the last counted number; 0 until one is. The books stand as of message H.
 *   old        a number at most H: it came before, or came late, and changes nothing.
 *   gap        a number above H + 1: messages between were lost, so every book may be wrong. All
 *              books are emptied and all instruments wait.
 *   followed   an instrument that was named at opening. Entries for others are passed over.
 *   Live       the book is the exchange's as of message H, if the duties below are kept, what is
 *              supposed of whole loops is so, and the exchange's own stream does not break it.
 *   Waiting    the book is empty and is not to be used; it waits for a snapshot, or for a whole
 *              loop that does not name it.
 *   broken     an entry did not fit its side (no such place, or no room among 20): the instrument
 *              is emptied and waits, with a reason. Others are not touched by that.
 *   snapshot   a W message: the book of one instrument as of the number S in its tag 369.
 *   loop       W messages in a row with 34 = 1, 2 and so on up to 911, and one 911 throughout. It
 *              is whole when the last of them has come. It names the instruments in their tags 48.
 *   queue      while any instrument waits, entries are kept, at most 256, so that a snapshot that
 *              is older than H can be brought up to H. If they would be more, they are let go.
 *   B          the queue holds everything from B + 1 to H. A snapshot serves if S is in B to H.
 *   place      one line of a side, 1 the best; a side holds at most 20.
 *   recording  bytes that were recorded end to end, with holes and damaged bytes among them.
 *
 * What is read ("Frame", "Fields")
 *   35=X  changes of the books: 34, 52, 268, and entries of 279, 269, 48, 22, 207, 270, 271, 37 or
 *         346, 272, 273, 290.
 *   35=W  a snapshot: 34, 52, 48, 22, 207, 369, 911, 268, and entries without 279, 48, 22, 207.
 *   35=0, f, y, B  carry a number and a time: 34 and 52.
 *   Entries with 269 = 0 are bids, 1 offers, J (in X) an empty book; other kinds, as trades, and
 *   other tags are passed over. Other types are refused (13) and not counted: if such a message has
 *   a number of the incremental stream, the next one shows a gap.
 *   A J with 48 and 22, and 207 if it stands, is of one instrument, as bids and offers are. One
 *   without 48, 22 and 207 is of all that are followed: at that point of the message it empties the
 *   book of each that is Live, which stays Live. One that is Waiting stays as it is. In the queue
 *   such a J is one entry. It joins if any waits when its message is counted (after a gap all do),
 *   also where that has no other entry, and replay applies it to whichever instrument takes a
 *   snapshot with S below its number. A J without 48 that has 22 or 207 is refused (14), as is a
 *   bid or offer without 48.
 *   A price (270) is a minus or nothing, 1 to 9 digits, then nothing or a point and 1 to 8 digits.
 *
 * Instruments with no snapshot ("A whole loop")
 *   The exchange sends no snapshot of an empty book. So at the end of a whole loop each followed
 *   instrument that waits and that the loop does not name takes an empty snapshot, with S the
 *   lowest 369 of the loop, if S is in B to H: the queued entries above S are applied to an empty
 *   book, and it is Live. If one does not fit it stays Waiting, with the reason. If S is not in B
 *   to H nothing changes, and it waits for the next whole loop.
 *   Every W that is answered 4 to 10 is in the row, whether its instrument is followed and it is
 *   taken or not. One that does not go on with the loop drops it, and begins another if its own 34
 *   is 1; with 911 = 1 that is whole at once. A W that is answered 11 to 14 is not in the row.
 *   Messages of other types may lie between, and a gap drops no loop; selkavorn_open does. The
 *   answer is that of the W itself; the number of Waiting instruments beside it is the one after
 *   all this.
 *   It is supposed that an instrument which a whole loop does not name had an empty book as of the
 *   lowest 369 of that loop. The library cannot see whether that is so: see duties 8 and 9.
 *
 * The store
 *   All books live in one run of 64-bit numbers that the caller lends to every call: the store. It
 *   has at least SELKAVORN_STORE_NUMBERS numbers. Its contents are the library's alone: read and
 *   change them only by these calls. Numbers beyond the first SELKAVORN_STORE_NUMBERS are never
 *   read or written. A store holds no address, so a copy of a store is a store of its own. Nothing
 *   is kept outside it: the library allocates nothing and has no variables. A store that was
 *   damaged, or that another version wrote in another layout, is refused (17) until it is opened
 *   afresh; versions before 3.0 have another layout.
 *
 * Duties of the caller
 *   1. Feed the incremental stream whole, in the order in which it comes, and the W messages of its
 *      snapshot stream, at any point between them. One call takes one message. A message with a
 *      number that comes again, as from a second line, does no harm; for a W see duty 8.
 *   2. Do not feed the other messages of the snapshot stream, its heartbeats (35=0) above all, nor
 *      any other stream: their numbers (34) would be counted as those of the incremental stream.
 *   3. After a sequence reset (35=4) on the incremental stream its numbers start anew: call
 *      selkavorn_open again before the next message, and feed no snapshot that was sent before the
 *      reset. The library does not know the type and answers it with SELKAVORN_TYPE. Without a new
 *      opening the new messages are old until their numbers pass H, and the books are then wrong.
 *   4. Watch for a reset that was lost. The evidence: a message that is answered SELKAVORN_OLD
 *      whose sending time (52) is later than the heard moment that selkavorn_board gives. A true
 *      repeat carries the time that it had, which is no later. On that evidence use no quote of
 *      this store any more: open it afresh, and let snapshots recover the books.
 *   5. Use a store from one thread at a time. Different stores have nothing in common.
 *   6. Lend runs that do not overlap: store, message, recording, SecurityIDs, names, moments and
 *      output. Only runs that a call does not write may share bytes. A run of numbers starts at a
 *      multiple of 8 bytes. Each run has at least as many elements as its count says.
 *   7. Take "now" from a clock that is right, in the time zone of tag 52, which is UTC. The age of
 *      a quote is no better than that clock.
 *   8. Feed the W messages of the snapshot stream as one line brings them: all of them, duty 9
 *      apart, each once, in the order in which they come. One that is left out, comes again or
 *      comes late drops the loop that runs, and an instrument with no snapshot waits for the next
 *      whole one; or, where its 34 is the next, that loop goes on with it, and is then made of the
 *      parts of two (duty 9). Where two lines bring the same snapshots, feed those of one.
 *   9. See that a whole loop is the exchange's, since what it does not name is taken for empty.
 *      Follow instruments of this channel alone: another is never named, and goes Live with an
 *      empty book. Feed no W of another maker in a loop of the exchange's: 34 = 1 with 911 = 1 is a
 *      whole loop by itself, and 34 = 911 = m ends one of m of which the others have come
 *      (selkavorn_write writes what its k and m say). And where as many W messages are lost in a
 *      row as a loop has, or a multiple, the parts of two loops make one whole one: if they were
 *      sent (52) further apart than those of a loop are, feed none up to the next with 34 = 1.
 *
 * Arguments
 *   A run is a pointer and a count of its elements: of numbers for a run of uint64_t, of bytes for
 *   a run of uint8_t. Where the count is 0 the pointer is not followed and may be NULL.
 *   A SecurityID (tag 48) is a number of 1 to 18 digits, at least 1.
 *   A moment is a run of bytes shaped as tag 52: YYYYMMDD-HH:MM:SS with or without .sss; a
 *   Gregorian date, years 0000 to 9999, hours to 23, minutes to 59, seconds to 60. No zero byte
 *   ends it.
 *
 * Age ("Quote and writing")
 *   The age of a quote is now less the heard moment, in milliseconds: days apart times 86,400,000
 *   plus times of day apart, each as written, a second of 60 included. It is never taken from a
 *   snapshot's time. A quote is given for ages of 0 to the limit, both included.
 *
 * What a call costs
 *   Every call on a store but selkavorn_open reads its first 7,168 numbers once, to see that they
 *   are sound; selkavorn_open writes them once. A feed then takes time by the length of its
 *   message, a J of all by how many are followed, a W that is taken by the length of the queue too,
 *   and one that ends a loop as much again for each instrument that takes an empty snapshot.
 *   selkavorn_salvage takes time by the bytes that it walks. At most 20,632 bytes of stack were
 *   used in any call that was measured, a feed of 64 entries; the budget is 24,576. docs/BENCH.md
 *   has times.
 *
 * Answers
 *   Every call answers a number of enum selkavorn_answer; selkavorn_feed and selkavorn_write put a
 *   second number above it (SELKAVORN_ANSWER, SELKAVORN_WAITING_COUNT, SELKAVORN_LENGTH).
 *   Checks run in this order: 17, 18, 11 to 14, then the rest in the order of the enum.
 *   selkavorn_lots.h has one more 18, of its own place in that order.
 *   What each does to the store:
 *     0 of selkavorn_open, and 0, 1, 3, 4 and 10 of selkavorn_feed change it, as they say.
 *     5 to 9 refuse a snapshot, and its own instrument stays as it was. The store remembers that
 *     the W came in its loop, or dropped or began one. Where it ends a whole loop, the Waiting
 *     instruments that the loop does not name change as said above, and if none waits then the
 *     queue is emptied and B becomes H. All else stays.
 *     Any other number but 0 is a refusal: store and output are left as they were, to the last
 *     number and byte.
 *
 * In short (examples/minimal.c is a whole program)
 *   static uint64_t store[SELKAVORN_STORE_NUMBERS];
 *   uint64_t ids[] = {3809512}, quote[SELKAVORN_QUOTE_NUMBERS];
 *   if (selkavorn_open(store, SELKAVORN_STORE_NUMBERS, SELKAVORN_ORDER_DEPTH, ids, 1)) stop();
 *   while (next_message(&bytes, &length))
 *       answered = selkavorn_feed(store, SELKAVORN_STORE_NUMBERS, bytes, length);
 *   if (selkavorn_quote(store, SELKAVORN_STORE_NUMBERS, 3809512, now, 21, 30, quote, 17) == 0)
 *       use(quote);
 */
#ifndef SELKAVORN_H
#define SELKAVORN_H

#include <stddef.h>
#include <stdint.h>

#ifdef __cplusplus
extern "C" {
#endif

/* The version: of this header and of the archive that it came with. The first number changes when a
 * program that was right may have to change, the second when something is added, the third when
 * the archive changed and nothing here did.
 *
 * From 3.0 to 3.1
 *   A J without 48, 22 and 207 is read, and empties every book at that point of its message; before
 *   it was 14. One without 48 that has 22 or 207 is 14 as before.
 *   A store of 3.0 is read by 3.1. A store whose queue holds such a J is 17 to 3.0.
 *
 * From 2.0 to 3.0
 *   Compile anew: code built with the 2.0 header takes prices and sums for ten times what they are.
 *   Prices and sums are hundred-millionths, and were ten-millionths: use SELKAVORN_PRICE_UNIT, and
 *   multiply by 10 what was saved as a number.
 *   A price has up to 17 digits, and up to 19 bytes as text.
 *   A lot is 35 beyond -92,233,720,368.54.. and 92,233,720,368.54.., a tenth of the bounds before.
 *   A writing may need 4,307 bytes, and is then 25 in 4,267.
 *   A store of before is 17 until it is opened afresh, and then waits for snapshots. */
#define SELKAVORN_VERSION_MAJOR 3
#define SELKAVORN_VERSION_MINOR 1
#define SELKAVORN_VERSION_PATCH 1
#define SELKAVORN_VERSION "3.1.1"

#define SELKAVORN_STORE_NUMBERS 7168     /* numbers that a store has at least */
#define SELKAVORN_QUOTE_NUMBERS 17       /* numbers that a quote writes */
#define SELKAVORN_STATE_NUMBERS 4        /* numbers that a state writes */
#define SELKAVORN_BOARD_NUMBERS 5        /* numbers that a board writes */
#define SELKAVORN_SALVAGE_NUMBERS 5      /* numbers that the walk of a recording needs at least */
#define SELKAVORN_PIECE_NUMBERS 3        /* numbers that each piece of a recording takes */
#define SELKAVORN_MOST_INSTRUMENTS 16    /* instruments that a store follows at most */
#define SELKAVORN_MOST_PLACES 20         /* places that a side holds at most */
#define SELKAVORN_SHORTEST_MESSAGE 26    /* bytes of the shortest message that a walk finds */
#define SELKAVORN_LONGEST_MESSAGE 8192   /* bytes of the longest message that is read */
#define SELKAVORN_SHORTEST_WRITING 104   /* bytes of the shortest message that is written */
#define SELKAVORN_LONGEST_WRITING 4307   /* bytes of the longest message that is written */
#define SELKAVORN_LONGEST_LIMIT_S 86400  /* seconds of the longest limit of a quote */
#define SELKAVORN_PRICE_DECIMALS 8       /* digits behind the point of a price at most */
#define SELKAVORN_PRICE_UNIT 100000000L  /* hundred-millionths in a price of 1, as 64 bits */

/* The depth kinds of a channel. */
enum selkavorn_depth {
    SELKAVORN_ORDER_DEPTH = 0, /* a place is an order, with its id in tag 37 */
    SELKAVORN_PRICE_DEPTH = 1  /* a place is a price, with its number of orders in tag 346 */
};

/* The answer numbers, in the order in which they are checked, and what a caller does on each. */
enum selkavorn_answer {
    /* Counted in order; or a quote, writing, state, board, lot, opening or walk is done. Go on. */
    SELKAVORN_DONE = 0,
    /* Counted after a gap: all wait. Give no quote; go on, and see that snapshots come. */
    SELKAVORN_GAP = 1,
    /* Old: it came before. Go on, but see duty 4. */
    SELKAVORN_OLD = 2,
    /* Counted, and the queue was let go: snapshots older than this message no longer serve. Go on;
     * if it comes often, snapshots are too slow for the stream. */
    SELKAVORN_LET_GO = 3,
    /* A snapshot of an instrument that is not followed. Go on. */
    SELKAVORN_SNAPSHOT_UNFOLLOWED = 5,
    /* A snapshot of an instrument that is Live, which needs none. Go on. */
    SELKAVORN_SNAPSHOT_LIVE = 6,
    /* S is below B: the queue does not reach back to it. Wait for the next loop of snapshots. */
    SELKAVORN_SNAPSHOT_BELOW = 7,
    /* S is above H: messages up to S have yet to come. Wait for the next loop; fed again it would
     * be a W that came again (duty 8). */
    SELKAVORN_SNAPSHOT_ABOVE = 8,
    /* A side of the snapshot has over 20 places. Wait for the next loop. */
    SELKAVORN_SNAPSHOT_OVER = 9,
    /* Taken: the instrument is Live. */
    SELKAVORN_TAKEN = 4,
    /* Snapshot and queue do not fit: the instrument stays Waiting, with the reason. Wait for the
     * next loop. */
    SELKAVORN_REPLAY_BROKE = 10,
    /* Not a message: its chain of fields, tag 8, 9, 35 or 10, or its length. Drop it; if it was a
     * message of the stream, the next one shows a gap. The same holds for 12 to 14. */
    SELKAVORN_FRAME = 11,
    /* Its sum is not what tag 10 says: damaged on the way. */
    SELKAVORN_CHECKSUM = 12,
    /* A type that is not read. See duty 3 for 35=4. */
    SELKAVORN_TYPE = 13,
    /* A field that is missing, stands twice or in the wrong place, or has a value outside its
     * range. */
    SELKAVORN_FIELDS = 14,
    /* The store is short, or its numbers are damaged or of another layout. Open it afresh. */
    SELKAVORN_STORE = 17,
    /* An argument is outside its range, or room for numbers is short: a fault of the caller. */
    SELKAVORN_ARGUMENT = 18,
    /* The instrument is not followed: a fault of the caller, or open with it. */
    SELKAVORN_UNFOLLOWED = 20,
    /* The instrument is Waiting. There is no quote; selkavorn_state says why. */
    SELKAVORN_WAITING = 21,
    /* Nothing was counted yet, so a quote has no date. There is no quote. */
    SELKAVORN_UNHEARD = 22,
    /* Now is before the heard moment: one of the two clocks is wrong. There is no quote. */
    SELKAVORN_AGE_BELOW = 23,
    /* The heard moment is further back than the limit: the line is silent. There is no quote. */
    SELKAVORN_AGE_ABOVE = 24,
    /* The message does not fit the room. Lend SELKAVORN_LONGEST_WRITING bytes. */
    SELKAVORN_OUTPUT = 25,
    /* Of selkavorn_lots.h: a sum does not fit a signed 64-bit number. Ask for a smaller lot. */
    SELKAVORN_SUM_OVER = 35
};

/* The two numbers in what selkavorn_feed and selkavorn_write answer. */
#define SELKAVORN_ANSWER(answered) ((answered) % 256)
#define SELKAVORN_WAITING_COUNT(answered) ((answered) / 256) /* of selkavorn_feed */
#define SELKAVORN_LENGTH(answered) ((answered) / 256)        /* of selkavorn_write */

/* An answer number in words, for a person; what selkavorn_feed and selkavorn_write answer goes
 * through SELKAVORN_ANSWER first. */
static inline const char *selkavorn_answer_text(uint64_t answer)
{
    switch (answer) {
    case SELKAVORN_DONE: return "counted in order";
    case SELKAVORN_GAP: return "gap, counted";
    case SELKAVORN_OLD: return "old, not counted";
    case SELKAVORN_LET_GO: return "counted, queue let go";
    case SELKAVORN_TAKEN: return "snapshot taken";
    case SELKAVORN_SNAPSHOT_UNFOLLOWED: return "snapshot not taken: not followed";
    case SELKAVORN_SNAPSHOT_LIVE: return "snapshot not taken: already Live";
    case SELKAVORN_SNAPSHOT_BELOW: return "snapshot not taken: older than the queue (369 below B)";
    case SELKAVORN_SNAPSHOT_ABOVE: return "snapshot not taken: newer than heard (369 above H)";
    case SELKAVORN_SNAPSHOT_OVER: return "snapshot not taken: a side over 20";
    case SELKAVORN_REPLAY_BROKE: return "snapshot and queue do not fit: still Waiting";
    case SELKAVORN_FRAME: return "refused: frame";
    case SELKAVORN_CHECKSUM: return "refused: checksum";
    case SELKAVORN_TYPE: return "refused: type";
    case SELKAVORN_FIELDS: return "refused: fields";
    case SELKAVORN_STORE: return "refused: store too short or unsound";
    case SELKAVORN_ARGUMENT: return "refused: an argument outside its range";
    case SELKAVORN_UNFOLLOWED: return "not followed";
    case SELKAVORN_WAITING: return "Waiting";
    case SELKAVORN_UNHEARD: return "nothing heard yet";
    case SELKAVORN_AGE_BELOW: return "now is before the heard time";
    case SELKAVORN_AGE_ABOVE: return "too old";
    case SELKAVORN_OUTPUT: return "output too short for the message";
    case SELKAVORN_SUM_OVER: return "a sum does not fit 64 bits";
    default: return "an answer that this version does not know";
    }
}

/* The numbers of a quote, by their places in the output. A side's seven numbers start at
 * SELKAVORN_QUOTE_BID and SELKAVORN_QUOTE_OFFER; all seven are zero where the side is empty. */
enum selkavorn_quote_place {
    SELKAVORN_QUOTE_NUMBER = 0,     /* H */
    SELKAVORN_QUOTE_HEARD_DATE = 1, /* the date of tag 52 of message H, YYYYMMDD */
    SELKAVORN_QUOTE_HEARD_TIME = 2, /* its time of day, HHMMSSmmm; a second of 60 stays 60 */
    SELKAVORN_QUOTE_BID = 3,        /* place 1 of the bids: seven numbers */
    SELKAVORN_QUOTE_OFFER = 10      /* place 1 of the offers: seven numbers */
};
enum selkavorn_side_place {
    SELKAVORN_SIDE_HELD = 0,  /* 1, or 0 where the side is empty */
    SELKAVORN_SIDE_PRICE = 1, /* tag 270 in hundred-millionths: a signed number as its 64 bits,
                               * -99,999,999,999,999,999 to 99,999,999,999,999,999 */
    SELKAVORN_SIDE_SIZE = 2,  /* tag 271 */
    SELKAVORN_SIDE_BY = 3,    /* bytes 1 to 8 of tag 37, low byte first, then zeros; or tag 346 */
    SELKAVORN_SIDE_MORE = 4,  /* bytes 9 to 16 of tag 37, likewise; or 0 */
    SELKAVORN_SIDE_DATE = 5,  /* tag 272, YYYYMMDD */
    SELKAVORN_SIDE_TIME = 6   /* tag 273, HHMMSSmmm */
};

/* The numbers of a state, by their places in the output. */
enum selkavorn_state_place {
    SELKAVORN_STATE_WAITING = 0, /* 1 if the instrument is Waiting, 0 if it is Live */
    SELKAVORN_STATE_REASON = 1,  /* of enum selkavorn_reason */
    SELKAVORN_STATE_BIDS = 2,    /* bids held, 0 to 20 */
    SELKAVORN_STATE_OFFERS = 3   /* offers held, 0 to 20 */
};

/* The numbers of a board, by their places in the output. */
enum selkavorn_board_place {
    SELKAVORN_BOARD_NUMBER = 0,     /* H */
    SELKAVORN_BOARD_HEARD_DATE = 1, /* the date of tag 52 of message H, YYYYMMDD; 0 while H is 0 */
    SELKAVORN_BOARD_HEARD_TIME = 2, /* its time of day, HHMMSSmmm; 0 while H is 0 */
    SELKAVORN_BOARD_COMPLETE = 3,   /* B */
    SELKAVORN_BOARD_MARKS = 4       /* bit i is 1 if instrument i of the opening, from 0, waits */
};

/* The numbers of a walk, by their places in the output: two, then SELKAVORN_PIECE_NUMBERS for each
 * piece. Piece i, from 0, starts at
 * SELKAVORN_SALVAGE_PIECES + SELKAVORN_PIECE_NUMBERS * i. */
enum selkavorn_salvage_place {
    SELKAVORN_SALVAGE_NEXT = 0,  /* the byte to go on at; the recording's length when all is told */
    SELKAVORN_SALVAGE_COUNT = 1, /* how many pieces follow */
    SELKAVORN_SALVAGE_PIECES = 2 /* where they begin */
};
enum selkavorn_piece_place {
    SELKAVORN_PIECE_KIND = 0,  /* of enum selkavorn_piece */
    SELKAVORN_PIECE_START = 1, /* its first byte, from 0, counted from the recording's first */
    SELKAVORN_PIECE_LENGTH = 2 /* its bytes, at least 1 */
};
enum selkavorn_piece {
    SELKAVORN_PIECE_PASSED = 0, /* bytes at none of which a message is taken */
    SELKAVORN_PIECE_MESSAGE = 1 /* a message: fed alone, it is answered neither 11 nor 12 */
};

/* Why an instrument last broke. A gap makes it Waiting and keeps the reason. */
enum selkavorn_reason {
    SELKAVORN_REASON_NONE = 0,   /* after opening, and after a snapshot is taken */
    SELKAVORN_REASON_PLACE = 1,  /* an entry's place was not there */
    SELKAVORN_REASON_NO_ROOM = 2 /* a new entry came to a side of 20 */
};

/* Opens a store: nothing counted, every instrument Waiting with an empty book, no loop that runs.
 *   depth       of enum selkavorn_depth
 *   ids, ids_n  the SecurityIDs to follow: 1 to 16, no two alike
 * Answers 0; 17 if store_n is under SELKAVORN_STORE_NUMBERS; 18 for any other argument.
 * Does not read what the store held. Writes its first SELKAVORN_STORE_NUMBERS numbers, all of
 * them, on 0 alone. */
uint64_t selkavorn_open(uint64_t *store, size_t store_n, uint64_t depth, const uint64_t *ids,
                        size_t ids_n);

/* Feeds one message, from its 8= to the SOH of its 10=.
 * Answers one of 0 to 14 or 17, and how many instruments are Waiting after it (0 with 17):
 *   SELKAVORN_ANSWER(r) and SELKAVORN_WAITING_COUNT(r).
 * A message of no bytes, or of more than SELKAVORN_LONGEST_MESSAGE, is 11. Changes the store on 0,
 * 1, 3, 4 and 10; on 5 to 9 the loop alone, and what its end brings. */
uint64_t selkavorn_feed(uint64_t *store, size_t store_n, const uint8_t *msg, size_t msg_n);

/* Gives place 1 of each side of an instrument, dated.
 *   id          the instrument's SecurityID
 *   now, now_n  the moment at which the quote is to be used
 *   limit_s     the age that is still good, 0 to SELKAVORN_LONGEST_LIMIT_S seconds
 *   out, out_n  room for at least SELKAVORN_QUOTE_NUMBERS numbers (shorter is 18)
 * Answers 0; 17; 18; 20; 21; 22; 23 if now is before the heard time; 24 if it is more than limit_s
 * after it. Writes the first SELKAVORN_QUOTE_NUMBERS numbers of out on 0 alone, and never those
 * beyond. The store is only read. */
uint64_t selkavorn_quote(const uint64_t *store, size_t store_n, uint64_t id, const uint8_t *now,
                         size_t now_n, uint64_t limit_s, uint64_t *out, size_t out_n);

/* Writes an instrument's book as a snapshot message (W) with 369 = H.
 *   id                the instrument's SecurityID
 *   sender, sender_n  tag 49: 1 to 16 bytes, each 33 to 126
 *   target, target_n  tag 56: likewise
 *   k, m              tags 34 and 911: 1 <= k <= m <= 16
 *   time, time_n      tag 52: a moment
 *   out, out_n        room for the message; SELKAVORN_LONGEST_WRITING is always enough
 * Answers 0; 17; 18; 20; 21; 25, and the message's length (0 unless done):
 *   SELKAVORN_ANSWER(r) and SELKAVORN_LENGTH(r).
 * Writes that many bytes of out on 0 alone, and never those beyond. The store is only read.
 * With k = m = 1 the message is a whole loop by itself: on a board that is fed it, all else that
 * waits is taken for empty, if H as it is written lies in B to H there (duty 9). With k = m above
 * 1 it is none by itself and begins none; it ends one of m of which the others have come. */
uint64_t selkavorn_write(const uint64_t *store, size_t store_n, uint64_t id, const uint8_t *sender,
                         size_t sender_n, const uint8_t *target, size_t target_n, uint64_t k,
                         uint64_t m, const uint8_t *time, size_t time_n, uint8_t *out,
                         size_t out_n);

/* Says whether an instrument is Waiting and why, and how many places it holds.
 *   out, out_n  room for at least SELKAVORN_STATE_NUMBERS numbers (shorter is 18)
 * Answers 0; 17; 18; 20. Writes the first SELKAVORN_STATE_NUMBERS numbers of out on 0 alone, and
 * never those beyond. The store is only read. It is no quote: it has no date. */
uint64_t selkavorn_state(const uint64_t *store, size_t store_n, uint64_t id, uint64_t *out,
                         size_t out_n);

/* Says what a store has counted: H, the heard moment, B, and which instruments wait.
 *   out, out_n  room for at least SELKAVORN_BOARD_NUMBERS numbers (shorter is 18)
 * Answers 0; 17; 18. Writes the first SELKAVORN_BOARD_NUMBERS numbers of out on 0 alone, and never
 * those beyond. The store is only read. It is no quote: it has no price. */
uint64_t selkavorn_board(const uint64_t *store, size_t store_n, uint64_t *out, size_t out_n);

/* Walks a recording from a byte on and gives its pieces, in order: each whole message, and each run
 * of bytes that was passed over ("Recordings").
 *   rec, rec_n  the recording, of any length
 *   from        the byte to start at, 0 to rec_n
 *   out, out_n  room for the numbers of enum selkavorn_salvage_place; at least
 *               SELKAVORN_SALVAGE_NUMBERS of them (shorter is 18), which hold one piece
 * A message is taken at a byte if some stretch from there on would be answered neither 11 nor 12;
 * there is at most one, the one that tag 9 names. Otherwise that byte is passed over, and bytes
 * that are passed over one after another are one run. A message within a message is not looked for.
 * The pieces from `from` to the end cover every byte once.
 * Answers 0; 18 if from is above rec_n or the room is short. Writes two numbers and as many pieces
 * as fit on 0 alone, and none of out beyond them. No piece is cut: where the room is short, call
 * again with from = out[SELKAVORN_SALVAGE_NEXT], and the pieces of all calls are those of one. That
 * number is above `from` unless `from` is rec_n.
 * Where only the front of a recording is at hand: a message that was found stays one, and a byte
 * was rightly passed over if SELKAVORN_LONGEST_MESSAGE bytes from it on are at hand, or if those at
 * hand differ from the beginning of every message, 8=FIX.4.4, SOH, 9=. Go on from the first byte of
 * a run of which that is not known, with more behind it, and join the runs that then touch. */
uint64_t selkavorn_salvage(const uint8_t *rec, size_t rec_n, uint64_t from, uint64_t *out,
                           size_t out_n);

#ifdef __cplusplus
}
#endif

#endif

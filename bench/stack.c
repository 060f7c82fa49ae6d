/* stack: how deep each exported call goes on the stack. A call runs on a lent stack that is filled with a pattern; the deepest
 * byte that it overwrote says how far it went. The depth counts from the frame of the function that calls: the few bytes of the
 * call itself and what the C library's memcpy and memset need are included. Writes a table of tab-separated columns: the
 * function, the call, its answer, its depth in bytes. */
#define _GNU_SOURCE
#include <stdarg.h>
#include <stdint.h>
#include <stdio.h>
#include <stdlib.h>
#include <string.h>
#include <ucontext.h>

#include "selkavorn.h"
#include "selkavorn_lots.h"

#define STACK_BYTES (1 << 18)
#define PATTERN 0xA5
#define NOW "20250103-13:00:00.000"
#define FIRST_ID 7
#define OTHER_ID (FIRST_ID + SELKAVORN_MOST_INSTRUMENTS) /* is not followed */
#define MOST_ENTRIES 64
#define QUEUE 256 /* entries that fill the queue */
#define UNITS 5   /* of each place */

static uint8_t lent[STACK_BYTES] __attribute__((aligned(64)));
static uint64_t store[SELKAVORN_STORE_NUMBERS], ids[SELKAVORN_MOST_INSTRUMENTS], numbers[SELKAVORN_QUOTE_NUMBERS];
static uint8_t out[SELKAVORN_LONGEST_WRITING];
static ucontext_t here, there;

/* What the call on the lent stack takes and answers. */
static char message[SELKAVORN_LONGEST_MESSAGE + 64];
static size_t message_bytes, followed, out_bytes = sizeof out;
static const char *now = NOW;
static uint64_t quantity, answered;

static void open_store(void) { answered = selkavorn_open(store, SELKAVORN_STORE_NUMBERS, SELKAVORN_ORDER_DEPTH, ids, followed); }

static void feed(void) { answered = selkavorn_feed(store, SELKAVORN_STORE_NUMBERS, (const uint8_t *)message, message_bytes); }

static void quote(void)
{
    answered = selkavorn_quote(store, SELKAVORN_STORE_NUMBERS, FIRST_ID, (const uint8_t *)now, strlen(now), 30, numbers,
                               SELKAVORN_QUOTE_NUMBERS);
}

static void sell(void)
{
    answered = selkavorn_sell(store, SELKAVORN_STORE_NUMBERS, FIRST_ID, quantity, (const uint8_t *)now, strlen(now), 30, numbers,
                              SELKAVORN_LOT_NUMBERS);
}

static void buy(void)
{
    answered = selkavorn_buy(store, SELKAVORN_STORE_NUMBERS, FIRST_ID, quantity, (const uint8_t *)now, strlen(now), 30, numbers,
                             SELKAVORN_LOT_NUMBERS);
}

static void write_book(void)
{
    static const uint8_t name[] = "ABCDEFGHIJKLMNOP"; /* 16 bytes */
    answered = selkavorn_write(store, SELKAVORN_STORE_NUMBERS, FIRST_ID, name, 16, name, 16, 16, 16, (const uint8_t *)now,
                               strlen(now), out, out_bytes);
}

static void state(void) { answered = selkavorn_state(store, SELKAVORN_STORE_NUMBERS, FIRST_ID, numbers, SELKAVORN_QUOTE_NUMBERS); }

static void summary(void) { answered = selkavorn_board(store, SELKAVORN_STORE_NUMBERS, numbers, SELKAVORN_QUOTE_NUMBERS); }

static uint64_t pieces[SELKAVORN_SALVAGE_PIECES + SELKAVORN_PIECE_NUMBERS * 8];

/* Walks the message as a recording. */
static void salvage(void)
{
    answered = selkavorn_salvage((const uint8_t *)message, message_bytes, 0, pieces, sizeof pieces / sizeof *pieces);
}

static void (*call)(void);
static volatile uintptr_t caller;

static void on_lent_stack(void)
{
    caller = (uintptr_t)__builtin_frame_address(0);
    call();
    caller = (uintptr_t)__builtin_frame_address(0); /* so that the call above is no jump */
}

/* Makes one call on the lent stack and prints how deep it went; the program ends where its answer is another. */
static void show(const char *function, void (*made)(void), const char *what, uint64_t answer)
{
    memset(lent, PATTERN, sizeof lent);
    call = made;
    getcontext(&there);
    there.uc_stack.ss_sp = lent;
    there.uc_stack.ss_size = sizeof lent;
    there.uc_link = &here;
    makecontext(&there, on_lent_stack, 0);
    swapcontext(&here, &there);
    if (SELKAVORN_ANSWER(answered) != answer) {
        fprintf(stderr, "stack: %s, %s: answer %d, not %d\n", function, what, (int)SELKAVORN_ANSWER(answered), (int)answer);
        exit(1);
    }
    size_t untouched = 0;
    while (untouched < sizeof lent && lent[untouched] == PATTERN) untouched++;
    printf("%s\t%s\t%d\t%zu\n", function, what, (int)answer, (size_t)(caller - (uintptr_t)(lent + untouched)));
}

static char fields[SELKAVORN_LONGEST_MESSAGE];

/* Adds to the fields of the next message, which are written with | for SOH. */
static void say(const char *format, ...)
{
    size_t n = strlen(fields);
    va_list values;
    va_start(values, format);
    vsnprintf(fields + n, sizeof fields - n, format, values);
    va_end(values);
}

static void say_values(int place)
{
    say("270=-24.01|271=%d|37=ABCDEFGHIJKLMNOP|272=20250103|273=13:00:00.000|290=%d|", UNITS, place);
}

/* An X of entries with this action, each at the place above the last one's, or all at place 1. */
static void say_x(int number, int entries, int action, int above)
{
    say("35=X|34=%d|52=" NOW "|268=%d|", number, entries);
    for (int i = 0; i < entries; i++) {
        say("279=%d|269=%d|48=%d|22=8|", action, i % 2, FIRST_ID);
        say_values(above ? 1 + i / 2 : 1);
    }
}

/* An X that changes place 20 of both sides to so many units, at such a price, that a large lot's sum does not fit. */
static void say_dear(int number)
{
    say("35=X|34=%d|52=" NOW "|268=2|", number);
    for (int side = 0; side < 2; side++)
        say("279=1|269=%d|48=%d|22=8|270=99999.99|271=%d|37=ABCDEFGHIJKLMNOP|272=20250103|273=13:00:00.000|290=%d|", side, FIRST_ID,
            SELKAVORN_LARGEST_LOT, SELKAVORN_MOST_PLACES);
}

/* An X of 64 entries with this action at place 1 of all sides of 16 instruments in turn. */
static void say_all(int number, int action)
{
    say("35=X|34=%d|52=" NOW "|268=%d|", number, MOST_ENTRIES);
    for (int i = 0; i < MOST_ENTRIES; i++) {
        const int instrument = i % SELKAVORN_MOST_INSTRUMENTS, side = i / SELKAVORN_MOST_INSTRUMENTS % 2;
        say("279=%d|269=%d|48=%d|22=8|", action, side, FIRST_ID + instrument);
        say_values(1);
    }
}

/* An X of empty books of all instruments. */
static void say_empties(int number, int entries)
{
    say("35=X|34=%d|52=" NOW "|268=%d|", number, entries);
    for (int i = 0; i < entries; i++) say("279=0|269=J|");
}

/* A W of 20 bids and 20 offers, with this 34 and 911. */
static void say_w_in_loop(int id, int s, int number, int reports)
{
    say("35=W|34=%d|52=" NOW "|48=%d|22=8|207=BVMF|369=%d|911=%d|268=%d|", number, id, s, reports, 2 * SELKAVORN_MOST_PLACES);
    for (int i = 0; i < 2 * SELKAVORN_MOST_PLACES; i++) {
        say("269=%d|", i / SELKAVORN_MOST_PLACES);
        say_values(1 + i % SELKAVORN_MOST_PLACES);
    }
}

/* One that neither begins nor ends a loop. */
static void say_w(int s) { say_w_in_loop(FIRST_ID, s, 2, 2); }

/* Makes what was said the message, with `more` added to its sum. */
static void make_message(unsigned more)
{
    size_t n = (size_t)sprintf(message, "8=FIX.4.4|9=%zu|%s", strlen(fields), fields);
    unsigned sum = more;
    for (size_t i = 0; i < n; i++) {
        if (message[i] == '|') message[i] = 1;
        sum += (uint8_t)message[i];
    }
    message_bytes = n + (size_t)sprintf(message + n, "10=%03u\1", sum % 256);
    fields[0] = 0;
}

/* Feeds what was said, with `more` added to its sum. */
static void show_feed(const char *what, uint64_t answer, unsigned more)
{
    make_message(more);
    show("feed", feed, what, answer);
}

/* Feeds what was said; so many must wait after it. */
static void show_waiting(const char *what, uint64_t answer, uint64_t waiting)
{
    show_feed(what, answer, 0);
    if (SELKAVORN_WAITING_COUNT(answered) != waiting) {
        fprintf(stderr, "stack: feed, %s: %d wait, not %d\n", what, (int)SELKAVORN_WAITING_COUNT(answered), (int)waiting);
        exit(1);
    }
}

/* Walks what was said as a recording, which must have so many pieces. */
static void show_salvage(const char *what, uint64_t count)
{
    show("salvage", salvage, what, SELKAVORN_DONE);
    if (pieces[SELKAVORN_SALVAGE_COUNT] != count) {
        fprintf(stderr, "stack: salvage, %s: %d pieces, not %d\n", what, (int)pieces[SELKAVORN_SALVAGE_COUNT], (int)count);
        exit(1);
    }
}

/* Sells and buys a lot; one that is done must leave so many units. */
static void show_lot(const char *what, uint64_t units, uint64_t answer, uint64_t left)
{
    static void (*const ways[])(void) = {sell, buy};
    static const char *const names[] = {"sell", "buy"};
    quantity = units;
    for (int way = 0; way < 2; way++) {
        show(names[way], ways[way], what, answer);
        if (answer == SELKAVORN_DONE && numbers[SELKAVORN_LOT_LEFT] != left) {
            fprintf(stderr, "stack: %s, %s: %d units left, not %d\n", names[way], what, (int)numbers[SELKAVORN_LOT_LEFT], (int)left);
            exit(1);
        }
    }
}

/* A store of one instrument: it goes Live, so that none waits, and breaks. */
static void show_one_followed(void)
{
    followed = 1;
    show("open", open_store, "1 instrument", SELKAVORN_DONE);
    message_bytes = 0;
    show("feed", feed, "no bytes", SELKAVORN_FRAME);
    say_w(0);
    show_feed("a snapshot of 40", SELKAVORN_TAKEN, 0);
    say_x(1, 1, 1, 0);
    show_feed("an X of 1", SELKAVORN_DONE, 0);
    say_x(2, MOST_ENTRIES, 1, 0);
    show_feed("an X of 64", SELKAVORN_DONE, 0);
    show("quote", quote, "done", SELKAVORN_DONE);
    show("write", write_book, "40 places", SELKAVORN_DONE);
    show("state", state, "done", SELKAVORN_DONE);
    show("board", summary, "done", SELKAVORN_DONE);
    say_x(3, MOST_ENTRIES, 0, 0);
    show_feed("an X of 64 that breaks", SELKAVORN_DONE, 0);
    say_x(2, MOST_ENTRIES, 1, 0);
    show_feed("an old X of 64", SELKAVORN_OLD, 0);
    say_x(4, MOST_ENTRIES, 1, 0);
    show_feed("a wrong checksum", SELKAVORN_CHECKSUM, 1);
    say("35=0|34=4|52=" NOW "|");
    show_feed("a heartbeat", SELKAVORN_DONE, 0);
}

/* A store of 16, of which one goes Live: the queue is filled, replayed and let go. */
static void show_all_followed(void)
{
    followed = SELKAVORN_MOST_INSTRUMENTS;
    show("open", open_store, "16 instruments", SELKAVORN_DONE);
    say_x(9, MOST_ENTRIES, 1, 0);
    show_feed("a gap with an X of 64", SELKAVORN_GAP, 0);
    say_w(8);
    show_feed("a snapshot with a replay of 64", SELKAVORN_TAKEN, 0);
    for (int number = 10; number <= 12; number++) {
        say_x(number, MOST_ENTRIES, 1, 0);
        show_feed("an X of 64 that joins the queue", SELKAVORN_DONE, 0);
    }
    show("write", write_book, "40 places, others waiting", SELKAVORN_DONE);
    out_bytes = SELKAVORN_LONGEST_WRITING / 2;
    show("write", write_book, "an output too short", SELKAVORN_OUTPUT);
    now = "20250103-13:00:30.001";
    show("quote", quote, "too old", SELKAVORN_AGE_ABOVE);
    say_x(13, MOST_ENTRIES, 1, 0);
    show_feed("an X of 64 that lets the queue go", SELKAVORN_LET_GO, 0);
    say_x(15, MOST_ENTRIES, 0, 1);
    show_feed("a gap with an X of 64 news", SELKAVORN_GAP, 0);
    say_w(14);
    show_feed("a snapshot whose replay breaks", SELKAVORN_REPLAY_BROKE, 0);
    show("state", state, "Waiting", SELKAVORN_DONE);
}

/* Opens a store of 16 and fills its queue, with entries for all alike: X of 64 with these actions, numbered from 1. */
static void fill_queue(const int actions[QUEUE / MOST_ENTRIES])
{
    followed = SELKAVORN_MOST_INSTRUMENTS;
    show("open", open_store, "16 instruments", SELKAVORN_DONE);
    for (int i = 0; i < QUEUE / MOST_ENTRIES; i++) {
        say_all(1 + i, actions[i]);
        show_waiting("an X of 64 that joins the queue", SELKAVORN_DONE, SELKAVORN_MOST_INSTRUMENTS);
    }
}

/* Ends of loops on stores of 16 that all wait, with a full queue: those that the loop does not name take an empty snapshot each, and
 * their entries are replayed. */
static void show_loops(void)
{
    static const int fit[] = {0, 1, 0, 2}, do_not_fit[] = {0, 1, 2, 1};
    const int last = QUEUE / MOST_ENTRIES;
    fill_queue(fit);
    say_w_in_loop(OTHER_ID, 0, 1, 2);
    show_waiting("a snapshot that begins a loop", SELKAVORN_SNAPSHOT_UNFOLLOWED, 16);
    say_w_in_loop(FIRST_ID, last, 2, 2);
    show_waiting("a snapshot that ends a loop, 15 others go Live", SELKAVORN_TAKEN, 0);
    fill_queue(fit);
    say_w_in_loop(OTHER_ID, 0, 1, 1);
    show_waiting("a snapshot that is not taken and ends a loop, 16 go Live", SELKAVORN_SNAPSHOT_UNFOLLOWED, 0);
    fill_queue(fit);
    say_w_in_loop(FIRST_ID, 0, 1, 1);
    show_waiting("a snapshot whose replay breaks and that ends a loop, 15 others go Live", SELKAVORN_REPLAY_BROKE, 1);
    fill_queue(do_not_fit);
    say_w_in_loop(OTHER_ID, 0, 1, 1);
    show_waiting("a snapshot that is not taken and ends a loop, 16 replays break", SELKAVORN_SNAPSHOT_UNFOLLOWED, 16);
    say_w_in_loop(FIRST_ID, last, 1, 1);
    show_waiting("a snapshot that ends a loop, 15 others go Live without a replay", SELKAVORN_TAKEN, 0);
}

/* Empty books of all instruments on a store of 16 that are all Live with 40 places each; and in the queue, where all wait. */
static void show_empties(void)
{
    followed = SELKAVORN_MOST_INSTRUMENTS;
    show("open", open_store, "16 instruments", SELKAVORN_DONE);
    for (int i = 0; i < SELKAVORN_MOST_INSTRUMENTS; i++) {
        say_w_in_loop(FIRST_ID + i, 0, 2, 2);
        show_waiting("a snapshot of 40", SELKAVORN_TAKEN, (uint64_t)(SELKAVORN_MOST_INSTRUMENTS - 1 - i));
    }
    say_empties(1, 1);
    show_waiting("an empty book of all, 640 places", SELKAVORN_DONE, 0);
    say_all(2, 0);
    show_waiting("an X of 64 news", SELKAVORN_DONE, 0);
    say_empties(3, MOST_ENTRIES);
    show_waiting("64 empty books of all", SELKAVORN_DONE, 0);
    say_empties(5, MOST_ENTRIES);
    show_waiting("a gap with 64 empty books of all", SELKAVORN_GAP, SELKAVORN_MOST_INSTRUMENTS);
    for (int number = 6; number <= 8; number++) {
        say_empties(number, MOST_ENTRIES);
        show_waiting("64 empty books of all that join the queue", SELKAVORN_DONE, SELKAVORN_MOST_INSTRUMENTS);
    }
    say_w_in_loop(OTHER_ID, 4, 1, 2);
    show_waiting("a snapshot that begins a loop", SELKAVORN_SNAPSHOT_UNFOLLOWED, SELKAVORN_MOST_INSTRUMENTS);
    say_w_in_loop(FIRST_ID, 4, 2, 2);
    show_waiting("a snapshot that ends a loop, replays of 256 empty books of all", SELKAVORN_TAKEN, 0);
}

/* Lots of one instrument with 20 places on both sides: all of them taken, and refusals, a quote's and those of a lot alone. */
static void show_lots(void)
{
    const uint64_t all = UNITS * SELKAVORN_MOST_PLACES;
    followed = 1;
    show("open", open_store, "1 instrument", SELKAVORN_DONE);
    now = NOW;
    show_lot("Waiting", 1, SELKAVORN_WAITING, 0);
    say_w(0);
    show_feed("a snapshot of 40", SELKAVORN_TAKEN, 0);
    show_lot("nothing heard", 1, SELKAVORN_UNHEARD, 0);
    say_x(1, 1, 1, 0);
    show_feed("an X of 1", SELKAVORN_DONE, 0);
    show_lot("1 unit", 1, SELKAVORN_DONE, 0);
    show_lot("20 places", all, SELKAVORN_DONE, 0);
    show_lot("20 places, the largest lot", SELKAVORN_LARGEST_LOT, SELKAVORN_DONE, SELKAVORN_LARGEST_LOT - all);
    show_lot("no units", 0, SELKAVORN_ARGUMENT, 0);
    say_dear(2);
    show_feed("an X of 2", SELKAVORN_DONE, 0);
    show_lot("a sum that does not fit at place 20", SELKAVORN_LARGEST_LOT, SELKAVORN_SUM_OVER, 0);
    now = "20250103-12:59:59.999";
    show_lot("now too early", all, SELKAVORN_AGE_BELOW, 0);
    now = "20250103-13:00:30.001";
    show_lot("too old", all, SELKAVORN_AGE_ABOVE, 0);
    memset(store, 0xFF, sizeof store);
    show_lot("an unsound store", all, SELKAVORN_STORE, 0);
}

/* Recordings of no bytes, of one message, of a part of it, and of one with a wrong sum. */
static void show_recordings(void)
{
    message_bytes = 0;
    show_salvage("no bytes", 0);
    say_x(1, MOST_ENTRIES, 1, 0);
    make_message(0);
    show_salvage("an X of 64", 1);
    message_bytes--;
    show_salvage("an X of 64 that is cut short", 1);
    say_x(1, MOST_ENTRIES, 1, 0);
    make_message(1);
    show_salvage("an X of 64 with a wrong checksum", 1);
}

int main(void)
{
    for (uint64_t i = 0; i < SELKAVORN_MOST_INSTRUMENTS; i++) ids[i] = FIRST_ID + i;
    show_one_followed();
    show_all_followed();
    show_loops();
    show_empties();
    show_lots();
    show_recordings();
    return 0;
}

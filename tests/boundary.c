/* Tests of the boundary between C and the library.
 *
 * Every answer number is reached. Around every call the lent runs are watched: a refusal must leave
 * store and output as they were, 5 to 9 all but what the loop changes, and nothing may touch the
 * guards around them, what lies beyond a store's 7,168 numbers, or what lies beyond a quote, a lot,
 * a state, a summary, a written message or the pieces of a recording. What a call only reads ends
 * where memory that cannot be read begins. */
#define _DEFAULT_SOURCE /* for MAP_ANONYMOUS */

#include <inttypes.h>
#include <stdarg.h>
#include <stdbool.h>
#include <stdio.h>
#include <stdlib.h>
#include <string.h>
#include <sys/mman.h>

#include "selkavorn_lots.h"

enum {
    GUARD = 65,          /* odd, so that a store starts at an odd multiple of 8 bytes */
    STORE_ROOM = 7300,   /* a store larger than it must be */
    BYTES_ROOM = 4400,   /* more than the longest written message */
    MESSAGE_ROOM = 9000, /* more than the longest message that is read */
    EDGE_ROOM = 1 << 16, /* readable bytes before an edge; a multiple of every usual page */
    MOST_PIECES = 32,    /* of a recording here */
    PIECES_ROOM = SELKAVORN_SALVAGE_PIECES + SELKAVORN_PIECE_NUMBERS * MOST_PIECES
};
_Static_assert(PIECES_ROOM > SELKAVORN_QUOTE_NUMBERS, "the pieces take the most numbers");
#define GUARD_NUMBER UINT64_C(0xA5C3A5C3A5C3A5C3)
#define GUARD_BYTE 0xA5

/* ---- counting ---- */

static unsigned passed, failed;
static const char *group_name = "";
static unsigned passed_before, failed_before; /* the group */
static bool reached[256];                     /* answer numbers */
static bool alone_reached[256];               /* those by which the loop record alone may change */
enum way { SELL, BUY, WAYS };
static bool lot_reached[WAYS][256];           /* answer numbers of selling and of buying */

static void begin(const char *name)
{
    group_name = name;
    passed_before = passed;
    failed_before = failed;
}

static void end(void)
{
    printf("%s: %u passed, %u failed\n", group_name, passed - passed_before,
           failed - failed_before);
}

static void check(bool good, const char *what)
{
    if (good) {
        passed++;
    } else {
        failed++;
        printf("FAILED %s: %s\n", group_name, what);
    }
}

static void check_equal(uint64_t got, uint64_t wanted, const char *what)
{
    if (got != wanted)
        printf("got %" PRIu64 ", wanted %" PRIu64 ": ", got, wanted);
    check(got == wanted, what);
}

/* ---- lent runs ---- */

/* A store between guards, and a copy of it all from before the last call. */
struct board {
    _Alignas(16) uint64_t area[GUARD + STORE_ROOM + GUARD];
    uint64_t before[GUARD + STORE_ROOM + GUARD];
    size_t n; /* numbers that calls are told of */
};

static struct board first, second;
static uint64_t number_area[GUARD + PIECES_ROOM + GUARD];
static uint8_t byte_area[GUARD + BYTES_ROOM + GUARD];
static uint64_t *const numbers = number_area + GUARD;
static uint8_t *const bytes = byte_area + GUARD;

static uint64_t *store_of(struct board *board)
{
    return board->area + GUARD;
}

/* Gives an edge: EDGE_ROOM bytes before it can be used, the bytes from it on cannot be read. */
static uint8_t *make_edge(void)
{
    uint8_t *room = mmap(NULL, 2 * EDGE_ROOM, PROT_READ | PROT_WRITE, MAP_PRIVATE | MAP_ANONYMOUS,
                         -1, 0);
    if (room == MAP_FAILED || mprotect(room + EDGE_ROOM, EDGE_ROOM, PROT_NONE) != 0) {
        perror("memory");
        exit(2);
    }
    return room + EDGE_ROOM;
}

/* What a call only reads is lent as a copy that ends at an edge of its own. */
enum lent { MESSAGE, IDS, SENDER, TARGET, MOMENT, RECORDING, LENT };

static void *lend(enum lent which, const void *run, size_t n)
{
    static uint8_t *edges[LENT];
    if (edges[which] == NULL)
        edges[which] = make_edge();
    return run == NULL ? NULL : memcpy(edges[which] - n, run, n);
}

static const uint8_t *lend_text(enum lent which, const char *text)
{
    return lend(which, text, strlen(text));
}

static void fresh(struct board *board)
{
    for (size_t i = 0; i < sizeof board->area / sizeof *board->area; i++)
        board->area[i] = GUARD_NUMBER;
    board->n = STORE_ROOM;
}

static void clear_outputs(void)
{
    for (size_t i = 0; i < sizeof number_area / sizeof *number_area; i++)
        number_area[i] = GUARD_NUMBER;
    memset(byte_area, GUARD_BYTE, sizeof byte_area);
}

static void before_call(struct board *board)
{
    memcpy(board->before, board->area, sizeof board->area);
    clear_outputs();
}

/* The first `may` numbers of the store may differ from before, the others not. */
static void check_store(const struct board *board, size_t may)
{
    const uint64_t *now = board->area, *old = board->before;
    size_t rest = GUARD + may;
    check(memcmp(now, old, GUARD * sizeof *now) == 0, "guard before the store");
    check(memcmp(now + rest, old + rest, sizeof board->area - rest * sizeof *now) == 0,
          may == 0 ? "store after a refusal" : "beyond the store");
}

/* The loop record in the store: 911, how many W have come, the lowest 369, the names. */
enum { RECORD_AT = 8, RECORD_OF = 0, RECORD_CAME = 1, RECORD_NUMBERS = 4 };

/* Of the store only the loop record may differ from before. */
static void check_record_alone(const struct board *board, const char *what)
{
    const uint64_t *now = board->area + GUARD, *old = board->before + GUARD;
    const size_t rest = RECORD_AT + RECORD_NUMBERS;
    check(memcmp(now, old, RECORD_AT * sizeof *now) == 0 &&
              memcmp(now + rest, old + rest, (STORE_ROOM - rest) * sizeof *now) == 0,
          what);
}

/* The first `wrote` numbers and bytes of the outputs are written, the others not. */
static void check_outputs(size_t wrote_numbers, size_t wrote_bytes)
{
    bool good = true;
    for (size_t i = 0; i < sizeof number_area / sizeof *number_area; i++)
        if (i < GUARD || i >= GUARD + wrote_numbers)
            good = good && number_area[i] == GUARD_NUMBER;
    for (size_t i = 0; i < sizeof byte_area; i++)
        if (i < GUARD || i >= GUARD + wrote_bytes)
            good = good && byte_area[i] == GUARD_BYTE;
    check(good, "outputs and their guards");
}

/* ---- the nine calls, watched ---- */

static uint64_t open_board(struct board *board, uint64_t depth, const uint64_t *ids, size_t ids_n)
{
    before_call(board);
    uint64_t answer = selkavorn_open(store_of(board), board->n, depth,
                                     lend(IDS, ids, ids_n * sizeof *ids), ids_n);
    reached[SELKAVORN_ANSWER(answer)] = true;
    check_store(board, answer == SELKAVORN_DONE ? SELKAVORN_STORE_NUMBERS : 0);
    check_outputs(0, 0);
    return answer;
}

/* Gives a fresh board that follows 7 and 9. */
static void open_fresh(struct board *board, uint64_t depth)
{
    static const uint64_t ids[] = {7, 9};
    fresh(board);
    check_equal(open_board(board, depth, ids, 2), SELKAVORN_DONE, "opening");
}

/* How many fields of a message are this one, which is written with the SOH before it and its own;
 * or begin so, where it is cut. */
static unsigned count_fields(const uint8_t *message, size_t n, const char *field)
{
    const size_t length = strlen(field);
    unsigned count = 0;
    for (size_t i = 0; i + length <= n; i++)
        count += memcmp(message + i, field, length) == 0;
    return count;
}

/* Whether the W that was fed may have ended a whole loop: none runs after it, and before it one ran
 * of which only the last was to come, or it is the only one of its own. */
static bool may_end_loop(const struct board *board, const uint8_t *message, size_t n)
{
    const uint64_t *now = board->area + GUARD + RECORD_AT, *old = board->before + GUARD + RECORD_AT;
    return now[RECORD_OF] == 0 && (old[RECORD_CAME] + 1 == old[RECORD_OF] ||
                                   count_fields(message, n, "\001911=1\001") > 0);
}

static uint64_t feed_bytes(struct board *board, const uint8_t *message, size_t n)
{
    before_call(board);
    uint64_t answered = selkavorn_feed(store_of(board), board->n, lend(MESSAGE, message, n), n);
    uint64_t answer = SELKAVORN_ANSWER(answered);
    bool changes = answer == SELKAVORN_DONE || answer == SELKAVORN_GAP ||
                   (answer >= SELKAVORN_LET_GO && answer <= SELKAVORN_REPLAY_BROKE);
    bool refused = answer >= SELKAVORN_SNAPSHOT_UNFOLLOWED && answer <= SELKAVORN_SNAPSHOT_OVER;
    reached[answer] = true;
    check_store(board, changes ? SELKAVORN_STORE_NUMBERS : 0);
    if (refused && !may_end_loop(board, message, n)) {
        alone_reached[answer] = true;
        check_record_alone(board, "store after 5 to 9");
    }
    check_outputs(0, 0);
    return answered;
}

static uint64_t quote(struct board *board, uint64_t id, const char *now, uint64_t limit_s,
                      size_t room)
{
    before_call(board);
    uint64_t answer = selkavorn_quote(store_of(board), board->n, id, lend_text(MOMENT, now),
                                      strlen(now), limit_s, numbers, room);
    reached[SELKAVORN_ANSWER(answer)] = true;
    check_store(board, 0);
    check_outputs(answer == SELKAVORN_DONE ? SELKAVORN_QUOTE_NUMBERS : 0, 0);
    return answer;
}

/* What a lot is given beside the board. */
struct lot {
    enum way way;
    uint64_t id, quantity;
    const char *now;
    uint64_t limit_s;
    size_t room;
};

/* The shape that selling and buying share. */
typedef uint64_t lot_call(const uint64_t *store, size_t store_n, uint64_t id, uint64_t quantity,
                          const uint8_t *now, size_t now_n, uint64_t limit_s, uint64_t *out,
                          size_t out_n);
static lot_call *const lot_calls[WAYS] = {selkavorn_sell, selkavorn_buy};

static uint64_t take_lot(struct board *board, struct lot lot)
{
    before_call(board);
    uint64_t answer = lot_calls[lot.way](store_of(board), board->n, lot.id, lot.quantity,
                                         lend_text(MOMENT, lot.now), strlen(lot.now), lot.limit_s,
                                         numbers, lot.room);
    reached[SELKAVORN_ANSWER(answer)] = true;
    lot_reached[lot.way][SELKAVORN_ANSWER(answer)] = true;
    check_store(board, 0);
    check_outputs(answer == SELKAVORN_DONE ? SELKAVORN_LOT_NUMBERS : 0, 0);
    return answer;
}

static uint64_t state(struct board *board, uint64_t id, size_t room)
{
    before_call(board);
    uint64_t answer = selkavorn_state(store_of(board), board->n, id, numbers, room);
    reached[SELKAVORN_ANSWER(answer)] = true;
    check_store(board, 0);
    check_outputs(answer == SELKAVORN_DONE ? SELKAVORN_STATE_NUMBERS : 0, 0);
    return answer;
}

static uint64_t summary(struct board *board, size_t room)
{
    before_call(board);
    uint64_t answer = selkavorn_board(store_of(board), board->n, numbers, room);
    reached[SELKAVORN_ANSWER(answer)] = true;
    check_store(board, 0);
    check_outputs(answer == SELKAVORN_DONE ? SELKAVORN_BOARD_NUMBERS : 0, 0);
    return answer;
}

/* What the writer is given beside the board. */
struct writing {
    uint64_t id;
    const char *sender, *target;
    uint64_t k, m;
    const char *time;
    size_t room;
};

static uint64_t write_book(struct board *board, struct writing w)
{
    before_call(board);
    uint64_t answered = selkavorn_write(store_of(board), board->n, w.id,
                                        lend_text(SENDER, w.sender), strlen(w.sender),
                                        lend_text(TARGET, w.target), strlen(w.target), w.k, w.m,
                                        lend_text(MOMENT, w.time), strlen(w.time), bytes, w.room);
    reached[SELKAVORN_ANSWER(answered)] = true;
    check_store(board, 0);
    check_outputs(0, (size_t)SELKAVORN_LENGTH(answered));
    return answered;
}

static uint64_t walk(const uint8_t *recording, size_t n, uint64_t from, size_t room)
{
    const uint8_t *lent = lend(RECORDING, recording, n);
    clear_outputs();
    uint64_t answer = selkavorn_salvage(lent, n, from, numbers, room);
    reached[SELKAVORN_ANSWER(answer)] = true;
    size_t wrote = 0;
    if (answer == SELKAVORN_DONE) {
        uint64_t count = numbers[SELKAVORN_SALVAGE_COUNT];
        check(count <= (room - SELKAVORN_SALVAGE_PIECES) / SELKAVORN_PIECE_NUMBERS, "pieces fit");
        wrote = SELKAVORN_SALVAGE_PIECES + SELKAVORN_PIECE_NUMBERS * (size_t)count;
    }
    check_outputs(wrote, 0);
    check(n == 0 || memcmp(lent, recording, n) == 0, "the recording is only read");
    return answer;
}

/* ---- messages ---- */

static uint8_t message[MESSAGE_ROOM];
static size_t message_n;

static unsigned sum_of(const uint8_t *text, size_t n)
{
    unsigned sum = 0;
    for (size_t i = 0; i < n; i++)
        sum += text[i];
    return sum % 256;
}

/* Makes the message with this body: | stands for SOH, 8 and 9 go before it and 10 after it. */
static void make_list(const char *format, va_list arguments)
{
    char body[MESSAGE_ROOM - 64];
    int n = vsnprintf(body, sizeof body, format, arguments);
    int head = snprintf((char *)message, MESSAGE_ROOM, "8=FIX.4.4|9=%d|", n);
    memcpy(message + head, body, (size_t)n);
    message_n = (size_t)(head + n);
    for (size_t i = 0; i < message_n; i++)
        if (message[i] == '|')
            message[i] = 1;
    message_n += (size_t)snprintf((char *)message + message_n, MESSAGE_ROOM - message_n,
                                  "10=%03u\001", sum_of(message, message_n));
}

static void make(const char *format, ...)
{
    va_list arguments;
    va_start(arguments, format);
    make_list(format, arguments);
    va_end(arguments);
}

/* Feeds the message that was made last. */
static void feed_made(struct board *board, uint64_t answer, uint64_t waiting, const char *what)
{
    check_equal(feed_bytes(board, message, message_n), answer + 256 * waiting, what);
}

/* Makes a message and feeds it. */
static void feed(struct board *board, uint64_t answer, uint64_t waiting, const char *what,
                 const char *format, ...)
{
    va_list arguments;
    va_start(arguments, format);
    make_list(format, arguments);
    va_end(arguments);
    feed_made(board, answer, waiting, what);
}

#define AT "52=20250103-13:00:00.000|"
#define STAMP "272=20250103|273=12:59:58.250|"
#define ENTRY(id, price) "48=" id "|22=8|270=" price "|271=12|37=ORDER-12345|" STAMP
#define ORDER_12 UINT64_C(0x32312D524544524F) /* ORDER-12, low byte first */
#define ORDER_345 UINT64_C(0x353433)          /* 345 */
#define NEW_BID "279=0|269=0|" ENTRY("7", "24.01") "290=1|"
#define NEW_OFFER "279=0|269=1|" ENTRY("7", "-0.5") "290=1|"
#define DELETE_BID "279=2|269=0|48=7|22=8|290=1|"
#define HUNDREDTHS(n) ((n) * SELKAVORN_PRICE_UNIT / 100)
#define HIGHEST_PRICE (1000000000 * SELKAVORN_PRICE_UNIT - 1)
#define HEARTBEAT "35=0|34=%d|" AT
#define TEXT HEARTBEAT "58=%0*d|" /* with a value of the given width */
#define AROUND_TEXT 63            /* bytes around that value where 9 has four digits */
#define EMPTY_W "35=W|34=1|" AT "48=%d|22=8|369=%d|911=2|268=0|" /* one of two: no whole loop */

/* Makes the W numbered `turn` of a loop of `reports`, with that many bids, of either depth kind. */
static void make_turn(uint64_t turn, uint64_t reports, int id, int last, int bids)
{
    char entries[MESSAGE_ROOM / 2] = "";
    size_t n = 0;
    for (int i = 1; i <= bids; i++)
        n += (size_t)snprintf(entries + n, sizeof entries - n,
                              "269=0|270=%d|271=1|37=A%d|346=%d|" STAMP "290=%d|", 100 - i, i, i,
                              i);
    make("35=W|34=%" PRIu64 "|" AT "48=%d|22=8|369=%d|911=%" PRIu64 "|268=%d|%s", turn, id, last,
         reports, bids, entries);
}

/* Makes a snapshot of instrument 7 with that many bids, the first of a loop of two. */
static void make_bids(int last, int bids)
{
    make_turn(1, 2, 7, last, bids);
}

/* Makes an X with that many entries that empty the book of instrument 7. */
static void make_empties(int number, int entries)
{
    char text[MESSAGE_ROOM / 2] = "";
    for (int i = 0; i < entries; i++)
        strcat(text, "279=0|269=J|48=7|22=8|");
    make("35=X|34=%d|" AT "268=%d|%s", number, entries, text);
}

/* ---- recordings ---- */

struct piece {
    uint64_t kind, start, length;
};

/* A recording, and the pieces that a walk of it must find. */
static uint8_t recording[EDGE_ROOM];
static size_t recording_n;
static struct piece pieces[MOST_PIECES];
static size_t pieces_n;

static void clear_recording(void)
{
    recording_n = 0;
    pieces_n = 0;
}

/* Records bytes that must be found as a piece of this kind; runs that touch are one piece. */
static void record(enum selkavorn_piece kind, const void *run, size_t n)
{
    bool joins = kind == SELKAVORN_PIECE_PASSED && pieces_n > 0 &&
                 pieces[pieces_n - 1].kind == SELKAVORN_PIECE_PASSED;
    if (joins)
        pieces[pieces_n - 1].length += n;
    else
        pieces[pieces_n++] = (struct piece){kind, recording_n, n};
    memcpy(recording + recording_n, run, n);
    recording_n += n;
}

/* Records the message that was made last. */
static void record_made(enum selkavorn_piece kind)
{
    record(kind, message, message_n);
}

static void record_text(const char *passed_over)
{
    record(SELKAVORN_PIECE_PASSED, passed_over, strlen(passed_over));
}

/* Compares the pieces of the last walk with those from piece `told` on, of which as many as fit the
 * room must be there; gives how many pieces are then told. */
static size_t check_pieces(size_t told, size_t room, const char *what)
{
    size_t fits = (room - SELKAVORN_SALVAGE_PIECES) / SELKAVORN_PIECE_NUMBERS;
    size_t count = pieces_n - told < fits ? pieces_n - told : fits;
    const struct piece *wanted = pieces + told;
    const uint64_t *got = numbers + SELKAVORN_SALVAGE_PIECES;
    check_equal(numbers[SELKAVORN_SALVAGE_COUNT], count, what);
    for (size_t i = 0; i < count; i++, got += SELKAVORN_PIECE_NUMBERS) {
        check_equal(got[SELKAVORN_PIECE_KIND], wanted[i].kind, what);
        check_equal(got[SELKAVORN_PIECE_START], wanted[i].start, what);
        check_equal(got[SELKAVORN_PIECE_LENGTH], wanted[i].length, what);
    }
    told += count;
    check_equal(numbers[SELKAVORN_SALVAGE_NEXT],
                told < pieces_n ? pieces[told].start : recording_n, what);
    return told;
}

/* Walks the recording with this room, as often as it takes. */
static void check_walks(size_t room, const char *what)
{
    uint64_t from = 0;
    size_t told = 0, before;
    do {
        before = told;
        check_equal(walk(recording, recording_n, from, room), SELKAVORN_DONE, what);
        told = check_pieces(told, room, what);
        from = numbers[SELKAVORN_SALVAGE_NEXT];
    } while (told > before && told < pieces_n);
    check_equal(from, recording_n, what);
}

/* Walks the recording at once. */
static void check_walk(const char *what)
{
    check_equal(walk(recording, recording_n, 0, PIECES_ROOM), SELKAVORN_DONE, what);
    check_pieces(0, PIECES_ROOM, what);
}

/* ---- the groups ---- */

static void test_opening(void)
{
    static const uint64_t ids[17] = {1, 2, 3, 4, 5, 6, 7, 8, 9, 10, 11, 12, 13, 14, 15, 16, 17};
    static const uint64_t twice[] = {7, 9, 7}, zero[] = {7, 0}, long_id[] = {1000000000000000000};
    static const uint64_t longest[] = {999999999999999999};
    begin("opening");
    fresh(&first);
    check((uintptr_t)store_of(&first) % 16 == 8, "the store starts at an odd multiple of 8 bytes");
    check_equal(open_board(&first, 0, ids, 16), SELKAVORN_DONE, "16 instruments");
    check_equal(open_board(&first, 1, longest, 1), SELKAVORN_DONE, "a SecurityID of 18 digits");
    check_equal(open_board(&first, 2, ids, 1), SELKAVORN_ARGUMENT, "another depth");
    check_equal(open_board(&first, UINT64_MAX, ids, 1), SELKAVORN_ARGUMENT, "another depth");
    check_equal(open_board(&first, 0, ids, 17), SELKAVORN_ARGUMENT, "17 instruments");
    check_equal(open_board(&first, 0, ids, 0), SELKAVORN_ARGUMENT, "no instrument");
    check_equal(open_board(&first, 0, NULL, 0), SELKAVORN_ARGUMENT, "no instrument, NULL");
    check_equal(open_board(&first, 0, twice, 3), SELKAVORN_ARGUMENT, "an instrument twice");
    check_equal(open_board(&first, 0, zero, 2), SELKAVORN_ARGUMENT, "SecurityID 0");
    check_equal(open_board(&first, 0, long_id, 1), SELKAVORN_ARGUMENT, "19 digits");
    fresh(&second);
    memset(store_of(&second), 0, SELKAVORN_STORE_NUMBERS * sizeof(uint64_t));
    check_equal(open_board(&second, 1, longest, 1), SELKAVORN_DONE, "on zeros");
    check(memcmp(first.area, second.area, sizeof first.area) == 0, "whatever the store held");
    first.n = SELKAVORN_STORE_NUMBERS;
    check_equal(open_board(&first, 0, ids, 3), SELKAVORN_DONE, "a store of 7,168");
    first.n = SELKAVORN_STORE_NUMBERS - 1;
    check_equal(open_board(&first, 0, ids, 3), SELKAVORN_STORE, "a store of 7,167");
    check_equal(open_board(&first, 2, NULL, 0), SELKAVORN_STORE, "17 before 18");
    check_equal(selkavorn_open(NULL, 0, 0, ids, 3), SELKAVORN_STORE, "no store");
    end();
}

static void test_counting(void)
{
    begin("counting");
    open_fresh(&first, SELKAVORN_ORDER_DEPTH);
    feed(&first, SELKAVORN_DONE, 2, "1 in order", HEARTBEAT, 1);
    feed(&first, SELKAVORN_GAP, 2, "3 is a gap", HEARTBEAT, 3);
    feed(&first, SELKAVORN_OLD, 2, "2 is old", HEARTBEAT, 2);
    feed(&first, SELKAVORN_OLD, 2, "3 again is old", HEARTBEAT, 3);
    feed(&first, SELKAVORN_SNAPSHOT_BELOW, 2, "369 = 1 is below B", EMPTY_W, 7, 1);
    feed(&first, SELKAVORN_SNAPSHOT_ABOVE, 2, "369 = 4 is above H", EMPTY_W, 7, 4);
    feed(&first, SELKAVORN_TAKEN, 1, "369 = 2 is taken", EMPTY_W, 7, 2);
    feed(&first, SELKAVORN_SNAPSHOT_LIVE, 1, "7 is already Live", EMPTY_W, 7, 3);
    feed(&first, SELKAVORN_SNAPSHOT_UNFOLLOWED, 1, "8 is not followed", EMPTY_W, 8, 3);
    make_bids(3, 21);
    feed_made(&first, SELKAVORN_SNAPSHOT_LIVE, 1, "Live comes before a side over 20");
    feed(&first, SELKAVORN_TAKEN, 0, "none waits", EMPTY_W, 9, 3);
    feed(&first, SELKAVORN_GAP, 2, "all wait after a gap", HEARTBEAT, 9);
    make_bids(9, 21);
    feed_made(&first, SELKAVORN_SNAPSHOT_OVER, 2, "21 bids");
    make_bids(9, 20);
    feed_made(&first, SELKAVORN_TAKEN, 1, "20 bids");
    feed(&first, SELKAVORN_DONE, 2, "no room breaks", "35=X|34=10|" AT "268=1|" NEW_BID);
    check_equal(state(&first, 7, SELKAVORN_STATE_NUMBERS), SELKAVORN_DONE, "state");
    check_equal(numbers[SELKAVORN_STATE_REASON], SELKAVORN_REASON_NO_ROOM, "reason 2");
    end();
}

static void test_queue(void)
{
    begin("queue");
    open_fresh(&first, SELKAVORN_ORDER_DEPTH);
    for (int number = 1; number <= 4; number++) {
        make_empties(number, 64);
        feed_made(&first, SELKAVORN_DONE, 2, "64 entries join");
    }
    feed(&first, SELKAVORN_DONE, 2, "256 entries stay", HEARTBEAT, 5);
    make_empties(6, 1);
    feed_made(&first, SELKAVORN_LET_GO, 2, "257 are let go");
    feed(&first, SELKAVORN_SNAPSHOT_BELOW, 2, "B is 6", EMPTY_W, 7, 5);
    feed(&first, SELKAVORN_DONE, 2, "7 is queued", "35=X|34=7|" AT "268=1|" DELETE_BID);
    feed(&first, SELKAVORN_REPLAY_BROKE, 2, "its place is not there", EMPTY_W, 7, 6);
    check_equal(state(&first, 7, SELKAVORN_STATE_NUMBERS), SELKAVORN_DONE, "state");
    check_equal(numbers[SELKAVORN_STATE_WAITING], 1, "still Waiting");
    check_equal(numbers[SELKAVORN_STATE_REASON], SELKAVORN_REASON_PLACE, "reason 1");
    make_bids(6, 2);
    feed_made(&first, SELKAVORN_TAKEN, 1, "with a bid to delete it is taken");
    check_equal(state(&first, 7, SELKAVORN_STATE_NUMBERS), SELKAVORN_DONE, "state");
    check_equal(numbers[SELKAVORN_STATE_WAITING], 0, "Live");
    check_equal(numbers[SELKAVORN_STATE_REASON], SELKAVORN_REASON_NONE, "reason 0");
    check_equal(numbers[SELKAVORN_STATE_BIDS], 1, "one bid");
    check_equal(numbers[SELKAVORN_STATE_OFFERS], 0, "no offer");
    end();
}

static void test_messages(void)
{
    begin("messages");
    open_fresh(&first, SELKAVORN_ORDER_DEPTH);
    check_equal(feed_bytes(&first, NULL, 0), SELKAVORN_FRAME + 2 * 256, "no bytes, NULL");
    make(HEARTBEAT, 1);
    for (size_t n = 0; n < message_n; n++)
        check_equal(feed_bytes(&first, message, n), SELKAVORN_FRAME + 2 * 256, "cut short");
    check_equal(feed_bytes(&first, message, message_n + 1), SELKAVORN_FRAME + 2 * 256, "too long");
    message[message_n - 2] = message[message_n - 2] == '0' ? '1' : '0';
    feed_made(&first, SELKAVORN_CHECKSUM, 2, "another sum");
    feed(&first, SELKAVORN_TYPE, 2, "a sequence reset", "35=4|34=1|" AT "36=1|");
    feed(&first, SELKAVORN_FIELDS, 2, "34 = 0", "35=0|34=0|" AT);
    make(TEXT, 1, SELKAVORN_LONGEST_MESSAGE - AROUND_TEXT, 0);
    check_equal(message_n, SELKAVORN_LONGEST_MESSAGE, "8,192 bytes are made");
    feed_made(&first, SELKAVORN_DONE, 2, "8,192 bytes are read");
    make(TEXT, 2, SELKAVORN_LONGEST_MESSAGE - AROUND_TEXT + 1, 0);
    feed_made(&first, SELKAVORN_FRAME, 2, "8,193 bytes are not");
    end();
}

/* All calls on a store that must be refused. */
static void check_refused_store(const char *what)
{
    struct writing w = {7, "SHED", "YARD", 1, 1, "20250103-13:00:00.000", BYTES_ROOM};
    feed(&first, SELKAVORN_STORE, 0, what, HEARTBEAT, 1);
    check_equal(quote(&first, 7, "20250103-13:00:00", 30, 17), SELKAVORN_STORE, what);
    check_equal(state(&first, 7, 4), SELKAVORN_STORE, what);
    check_equal(summary(&first, 5), SELKAVORN_STORE, what);
    check_equal(write_book(&first, w), SELKAVORN_STORE, what);
    for (enum way way = SELL; way < WAYS; way++) {
        struct lot lot = {way, 7, 1, "20250103-13:00:00", 30, SELKAVORN_LOT_NUMBERS};
        check_equal(take_lot(&first, lot), SELKAVORN_STORE, what);
        lot = (struct lot){way, 0, 0, "", 86401, 0};
        check_equal(take_lot(&first, lot), SELKAVORN_STORE, "17 before 18");
    }
    w.k = 0;
    check_equal(feed_bytes(&first, NULL, 0), SELKAVORN_STORE, "17 before 11");
    check_equal(quote(&first, 0, "", 86401, 0), SELKAVORN_STORE, "17 before 18");
    check_equal(state(&first, 0, 0), SELKAVORN_STORE, "17 before 18");
    check_equal(summary(&first, 0), SELKAVORN_STORE, "17 before 18");
    check_equal(write_book(&first, w), SELKAVORN_STORE, "17 before 18");
}

static void test_store(void)
{
    begin("store");
    open_fresh(&first, SELKAVORN_ORDER_DEPTH);
    first.n = SELKAVORN_STORE_NUMBERS - 1;
    check_refused_store("a store of 7,167");
    first.n = 0;
    check_refused_store("a store of none");
    first.n = STORE_ROOM;
    memset(store_of(&first), 0, STORE_ROOM * sizeof(uint64_t));
    check_refused_store("a store that was never opened");
    open_fresh(&first, SELKAVORN_ORDER_DEPTH);
    bool noticed = true;
    for (size_t i = 0; i < SELKAVORN_STORE_NUMBERS; i++) {
        uint64_t *store = store_of(&first), kept = store[i], out[SELKAVORN_BOARD_NUMBERS];
        store[i] = UINT64_MAX;
        noticed = noticed && selkavorn_feed(store, first.n, NULL, 0) == SELKAVORN_STORE &&
                  selkavorn_state(store, first.n, 7, out, SELKAVORN_STATE_NUMBERS) ==
                      SELKAVORN_STORE &&
                  selkavorn_board(store, first.n, out, SELKAVORN_BOARD_NUMBERS) == SELKAVORN_STORE;
        for (enum way way = SELL; way < WAYS; way++)
            noticed = noticed && lot_calls[way](store, first.n, 7, 1, NULL, 0, 30, out,
                                                SELKAVORN_LOT_NUMBERS) == SELKAVORN_STORE;
        store[i] = kept;
    }
    check(noticed, "each number, when it is out of its range");
    store_of(&first)[SELKAVORN_STORE_NUMBERS] = 1;
    check_equal(state(&first, 7, SELKAVORN_STATE_NUMBERS), SELKAVORN_DONE, "beyond is not read");
    first.n = SELKAVORN_STORE_NUMBERS;
    check_equal(state(&first, 7, SELKAVORN_STATE_NUMBERS), SELKAVORN_DONE, "a store of 7,168");
    check_equal(selkavorn_feed(NULL, 0, NULL, 0), SELKAVORN_STORE, "no store, NULL");
    for (enum way way = SELL; way < WAYS; way++)
        check_equal(lot_calls[way](NULL, 0, 7, 1, NULL, 0, 30, NULL, 0), SELKAVORN_STORE,
                    "a lot, no store, NULL");
    end();
}

/* Makes both sides of 7 Live with one place each at number 1, and 9 Waiting. */
static void open_with_book(struct board *board)
{
    open_fresh(board, SELKAVORN_ORDER_DEPTH);
    feed(board, SELKAVORN_TAKEN, 1, "369 = 0 on a fresh board", EMPTY_W, 7, 0);
    feed(board, SELKAVORN_DONE, 1, "both sides", "35=X|34=1|" AT "268=2|" NEW_BID NEW_OFFER);
}

/* A store of each layout that a version before this one wrote, however sound its numbers are. */
static void test_layouts(void)
{
    enum { LAYOUT_AT = 0, LAYOUT = 4603 };
    static const uint64_t older[] = {4601, 4602}, ids[] = {7, 9};
    begin("stores of other layouts");
    for (size_t i = 0; i < sizeof older / sizeof *older; i++) {
        open_with_book(&first);
        check_equal(store_of(&first)[LAYOUT_AT], LAYOUT, "this layout");
        store_of(&first)[LAYOUT_AT] = older[i];
        check_refused_store("a store of an older layout");
        check_equal(open_board(&first, SELKAVORN_ORDER_DEPTH, ids, 2), SELKAVORN_DONE, "afresh");
        feed(&first, SELKAVORN_DONE, 2, "it is read again", HEARTBEAT, 1);
    }
    open_with_book(&first);
    store_of(&first)[LAYOUT_AT] = LAYOUT + 1;
    check_refused_store("a store of a layout to come");
    end();
}

static const char *const bad_moments[] = {
    "", "20250103", "20250103-13:00", "20250229-13:00:00", "19000229-13:00:00",
    "20250103-24:00:00", "20250103-13:60:00", "20250103-13:00:61", "20250103-13:00:00.",
    "20250103-13:00:00.00", "20250103-13:00:00.0000", "20250103 13:00:00", "20250103-13:00:00Z"};
enum { BAD_MOMENTS = sizeof bad_moments / sizeof *bad_moments };

static void test_quote_arguments(void)
{
    begin("arguments of a quote");
    open_with_book(&first);
    for (size_t i = 0; i < BAD_MOMENTS; i++)
        check_equal(quote(&first, 7, bad_moments[i], 30, 17), SELKAVORN_ARGUMENT, bad_moments[i]);
    check_equal(selkavorn_quote(store_of(&first), first.n, 7, NULL, 0, 30, numbers, 17),
                SELKAVORN_ARGUMENT, "no moment, NULL");
    check_equal(quote(&first, 7, "20250103-13:00:00", 86401, 17), SELKAVORN_ARGUMENT, "limit");
    check_equal(quote(&first, 0, "20250103-13:00:00", 30, 17), SELKAVORN_ARGUMENT, "SecurityID 0");
    check_equal(quote(&first, UINT64_MAX, "20250103-13:00:00", 30, 17), SELKAVORN_ARGUMENT, "id");
    check_equal(quote(&first, 7, "20250103-13:00:00", 30, 16), SELKAVORN_ARGUMENT, "room of 16");
    check_equal(quote(&first, 7, "20250103-13:00:00", 30, 0), SELKAVORN_ARGUMENT, "no room");
    check_equal(selkavorn_quote(store_of(&first), first.n, 7, (const uint8_t *)"20250103-13:00:00",
                                17, 30, NULL, 0),
                SELKAVORN_ARGUMENT, "no room, NULL");
    check_equal(quote(&first, 8, "20250103-13:00:00", 30, 16), SELKAVORN_ARGUMENT, "18 before 20");
    check_equal(state(&first, 7, 3), SELKAVORN_ARGUMENT, "state, room of 3");
    check_equal(state(&first, 0, 4), SELKAVORN_ARGUMENT, "state, SecurityID 0");
    check_equal(selkavorn_state(store_of(&first), first.n, 7, NULL, 0), SELKAVORN_ARGUMENT,
                "state, no room, NULL");
    check_equal(state(&first, 8, 4), SELKAVORN_UNFOLLOWED, "state, not followed");
    check_equal(state(&first, 9, 17), SELKAVORN_DONE, "state, more room");
    end();
}

static void test_quote(void)
{
    static const uint64_t wanted[SELKAVORN_QUOTE_NUMBERS] = {
        1, 20250103, 130000000,
        1, HUNDREDTHS(2401), 12, ORDER_12, ORDER_345, 20250103, 125958250,
        1, (uint64_t)HUNDREDTHS(-50), 12, ORDER_12, ORDER_345, 20250103, 125958250};
    begin("quote");
    open_fresh(&first, SELKAVORN_ORDER_DEPTH);
    check_equal(quote(&first, 8, "20250103-13:00:00", 30, 17), SELKAVORN_UNFOLLOWED, "8");
    check_equal(quote(&first, 7, "20250103-13:00:00", 30, 17), SELKAVORN_WAITING, "7 waits");
    feed(&first, SELKAVORN_TAKEN, 1, "369 = 0", EMPTY_W, 7, 0);
    check_equal(quote(&first, 7, "20250103-13:00:00", 30, 17), SELKAVORN_UNHEARD, "H = 0");
    open_with_book(&first);
    check_equal(quote(&first, 9, "20250103-13:00:00", 30, 17), SELKAVORN_WAITING, "9 waits");
    check_equal(quote(&first, 7, "20250103-12:59:59.999", 30, 17), SELKAVORN_AGE_BELOW, "before");
    check_equal(quote(&first, 7, "20250103-13:00:30.001", 30, 17), SELKAVORN_AGE_ABOVE, "after");
    check_equal(quote(&first, 7, "20250103-13:00:30", 30, 17), SELKAVORN_DONE, "at the limit");
    check_equal(quote(&first, 7, "20250104-13:00:00.000", 86400, 17), SELKAVORN_DONE, "a day");
    check_equal(quote(&first, 7, "20250104-12:59:60.001", 86400, 17), SELKAVORN_AGE_ABOVE, "60 s");
    check_equal(quote(&first, 7, "20250103-13:00:00.000", 0, 20), SELKAVORN_DONE, "more room");
    for (size_t i = 0; i < SELKAVORN_QUOTE_NUMBERS; i++)
        check_equal(numbers[i], wanted[i], "a number of the quote");
    feed(&first, SELKAVORN_DONE, 1, "bid deleted", "35=X|34=2|" AT "268=1|" DELETE_BID);
    check_equal(quote(&first, 7, "20250103-13:00:00", 0, 17), SELKAVORN_DONE, "one side");
    for (size_t i = 0; i < 7; i++)
        check_equal(numbers[SELKAVORN_QUOTE_BID + i], 0, "an empty side is zeros");
    check_equal(numbers[SELKAVORN_QUOTE_OFFER], 1, "the offer is held");
    end();
}

/* A lot of 7 that is good wherever its sums fit. */
static struct lot good_lot(enum way way, uint64_t quantity)
{
    return (struct lot){way, 7, quantity, "20250103-13:00:00", 30, SELKAVORN_LOT_NUMBERS};
}

/* Asks the first board for a lot. */
static void check_lot(struct lot lot, uint64_t answer, const char *what)
{
    check_equal(take_lot(&first, lot), answer, what);
}

/* Asks for a lot that must be given, dated by message 1. */
static void check_given(struct lot lot, int64_t sum, uint64_t left, const char *what)
{
    check_lot(lot, SELKAVORN_DONE, what);
    check_equal(numbers[SELKAVORN_LOT_NUMBER], 1, what);
    check_equal(numbers[SELKAVORN_LOT_HEARD_DATE], 20250103, what);
    check_equal(numbers[SELKAVORN_LOT_HEARD_TIME], 130000000, what);
    check_equal(numbers[SELKAVORN_LOT_SUM], (uint64_t)sum, what);
    check_equal(numbers[SELKAVORN_LOT_LEFT], left, what);
}

static void test_lot_arguments(enum way way)
{
    static const char now[] = "20250103-13:00:00";
    const uint64_t n = SELKAVORN_LOT_NUMBERS;
    begin(way == SELL ? "arguments of selling" : "arguments of buying");
    open_with_book(&first);
    for (size_t i = 0; i < BAD_MOMENTS; i++)
        check_lot((struct lot){way, 7, 1, bad_moments[i], 30, n}, SELKAVORN_ARGUMENT,
                  bad_moments[i]);
    check_equal(lot_calls[way](store_of(&first), first.n, 7, 1, NULL, 0, 30, numbers, n),
                SELKAVORN_ARGUMENT, "no moment, NULL");
    check_lot((struct lot){way, 7, 1, now, 86401, n}, SELKAVORN_ARGUMENT, "limit");
    check_lot((struct lot){way, 7, 1, now, UINT64_MAX, n}, SELKAVORN_ARGUMENT, "limit");
    check_lot((struct lot){way, 0, 1, now, 30, n}, SELKAVORN_ARGUMENT, "SecurityID 0");
    check_lot((struct lot){way, 1000000000000000000, 1, now, 30, n}, SELKAVORN_ARGUMENT, "id");
    check_lot((struct lot){way, UINT64_MAX, 1, now, 30, n}, SELKAVORN_ARGUMENT, "id");
    for (size_t room = 0; room < n; room++)
        check_lot((struct lot){way, 7, 1, now, 30, room}, SELKAVORN_ARGUMENT, "too little room");
    check_equal(lot_calls[way](store_of(&first), first.n, 7, 1, (const uint8_t *)now, 17, 30, NULL,
                               0),
                SELKAVORN_ARGUMENT, "no room, NULL");
    check_lot(good_lot(way, 0), SELKAVORN_ARGUMENT, "no quantity");
    check_lot(good_lot(way, SELKAVORN_LARGEST_LOT + 1), SELKAVORN_ARGUMENT, "1,000,000,000");
    check_lot(good_lot(way, UINT64_C(1) << 32 | 1), SELKAVORN_ARGUMENT, "1 above 32 bits");
    check_lot(good_lot(way, UINT64_MAX), SELKAVORN_ARGUMENT, "the largest number");
    check_lot(good_lot(way, 1), SELKAVORN_DONE, "one unit");
    check_lot(good_lot(way, SELKAVORN_LARGEST_LOT), SELKAVORN_DONE, "999,999,999");
    check_lot((struct lot){way, 7, 1, now, 30, 17}, SELKAVORN_DONE, "more room");
    end();
}

/* What a quote refuses comes before the quantity, and 18 of the room before that. */
static void test_lot_order(enum way way)
{
    static const uint64_t quantities[] = {1, 0, SELKAVORN_LARGEST_LOT + 1, UINT64_MAX};
    static const char now[] = "20250103-13:00:00", early[] = "20250103-12:59:59.999",
                      late[] = "20250103-13:00:30.001";
    const size_t n = SELKAVORN_LOT_NUMBERS;
    begin(way == SELL ? "order of checks in selling" : "order of checks in buying");
    for (size_t i = 0; i < sizeof quantities / sizeof *quantities; i++) {
        const uint64_t q = quantities[i];
        open_fresh(&first, SELKAVORN_ORDER_DEPTH);
        check_lot((struct lot){way, 8, q, now, 30, n}, SELKAVORN_UNFOLLOWED, "8");
        check_lot((struct lot){way, 7, q, now, 30, n}, SELKAVORN_WAITING, "7 waits");
        check_lot((struct lot){way, 8, q, now, 30, n - 1}, SELKAVORN_ARGUMENT, "18 before 20");
        check_lot((struct lot){way, 7, q, now, 86401, n}, SELKAVORN_ARGUMENT, "18 before 21");
        feed(&first, SELKAVORN_TAKEN, 1, "369 = 0", EMPTY_W, 7, 0);
        check_lot((struct lot){way, 7, q, now, 30, n}, SELKAVORN_UNHEARD, "H = 0");
        check_lot((struct lot){way, 7, q, now, 30, 0}, SELKAVORN_ARGUMENT, "18 before 22");
        open_with_book(&first);
        check_lot((struct lot){way, 9, q, now, 30, n}, SELKAVORN_WAITING, "9 waits");
        check_lot((struct lot){way, 7, q, early, 30, n}, SELKAVORN_AGE_BELOW, "before");
        check_lot((struct lot){way, 7, q, late, 30, n}, SELKAVORN_AGE_ABOVE, "after");
        check_lot((struct lot){way, 7, q, early, 30, n - 1}, SELKAVORN_ARGUMENT, "18 before 23");
        check_lot((struct lot){way, 7, q, late, 30, n - 1}, SELKAVORN_ARGUMENT, "18 before 24");
        check_lot((struct lot){way, 7, q, "20250103-13:00:30", 30, n},
                  q == 1 ? SELKAVORN_DONE : SELKAVORN_ARGUMENT, "at the limit");
    }
    end();
}

/* A place of a book: price and size. */
struct row {
    const char *price;
    uint64_t size;
};
enum { MOST_ROWS = 3 };
typedef struct row rows[MOST_ROWS]; /* a side; a row without a price ends it */

/* Adds the entries of a side to those of a snapshot; gives how many bytes there are then. */
static size_t add_side(char *entries, size_t n, size_t room, int side, const struct row *row)
{
    for (int i = 0; i < MOST_ROWS && row[i].price != NULL; i++)
        n += (size_t)snprintf(entries + n, room - n,
                              "269=%d|270=%s|271=%" PRIu64 "|37=A%d|346=1|" STAMP "290=%d|", side,
                              row[i].price, row[i].size, i + 1, i + 1);
    return n;
}

static int count_rows(const struct row *row)
{
    int n = 0;
    while (n < MOST_ROWS && row[n].price != NULL)
        n++;
    return n;
}

/* Opens the first board, hears message 1, and gives 7 this book; 9 waits. */
static void open_with_rows(uint64_t depth, const struct row *bids, const struct row *offers)
{
    char entries[MESSAGE_ROOM / 2] = "";
    size_t n = add_side(entries, 0, sizeof entries, 0, bids);
    add_side(entries, n, sizeof entries, 1, offers);
    open_fresh(&first, depth);
    feed(&first, SELKAVORN_DONE, 2, "1 in order", HEARTBEAT, 1);
    feed(&first, SELKAVORN_TAKEN, 1, "the book", "35=W|34=1|" AT "48=7|22=8|369=1|911=2|268=%d|%s",
         count_rows(bids) + count_rows(offers), entries);
}

static void test_lot(void)
{
    static const rows bids = {{"10.58", 5000}, {"10.57", 4000}, {"10.54", 3000}};
    static const rows offers = {{"11.03", 7000}, {"-0.5", 2000}}, none = {{NULL, 0}};
    begin("lots");
    for (uint64_t depth = 0; depth < 2; depth++) {
        open_with_rows(depth, bids, offers);
        check_given(good_lot(SELL, 1), HUNDREDTHS(1058), 0, "a unit sold");
        check_given(good_lot(SELL, 5000), HUNDREDTHS(5290000), 0, "place 1 whole");
        check_given(good_lot(SELL, 5001), HUNDREDTHS(5291057), 0, "one unit of place 2");
        check_given(good_lot(SELL, 6000), HUNDREDTHS(6347000), 0, "place 2 in part");
        check_given(good_lot(SELL, 12000), HUNDREDTHS(12680000), 0, "all bids");
        check_given(good_lot(SELL, 12001), HUNDREDTHS(12680000), 1, "one unit left");
        check_given(good_lot(SELL, SELKAVORN_LARGEST_LOT), HUNDREDTHS(12680000), 999987999,
                    "much left");
        check_given(good_lot(BUY, 1), HUNDREDTHS(1103), 0, "a unit bought");
        check_given(good_lot(BUY, 7001), HUNDREDTHS(7720950), 0, "a price below 0");
        check_given(good_lot(BUY, 9001), HUNDREDTHS(7621000), 1, "one unit not bought");
        open_with_rows(depth, none, offers);
        check_given(good_lot(SELL, 6000), 0, 6000, "no bids");
        check_given(good_lot(BUY, 7000), HUNDREDTHS(7721000), 0, "offers alone");
        open_with_rows(depth, bids, none);
        check_given(good_lot(BUY, SELKAVORN_LARGEST_LOT), 0, SELKAVORN_LARGEST_LOT, "no offers");
        check_given(good_lot(SELL, 9000), HUNDREDTHS(9518000), 0, "bids alone");
    }
    feed(&first, SELKAVORN_DONE, 1, "bid deleted",
         "35=X|34=2|52=20250103-13:00:60|268=1|" DELETE_BID);
    check_lot((struct lot){SELL, 7, 1, "20250103-13:01:00", 0, SELKAVORN_LOT_NUMBERS},
              SELKAVORN_DONE, "the next bid");
    check_equal(numbers[SELKAVORN_LOT_NUMBER], 2, "H");
    check_equal(numbers[SELKAVORN_LOT_HEARD_DATE], 20250103, "the heard date");
    check_equal(numbers[SELKAVORN_LOT_HEARD_TIME], 130060000, "a second of 60 stays 60");
    check_equal(numbers[SELKAVORN_LOT_SUM], HUNDREDTHS(1057), "what is place 1 now");
    end();
}

/* A side and a quantity of it. 153,092,023 times 60,247,241,209 is 2^63 - 1, 2^29 times 2^34 is
 * 2^63, and 119,537,721 times 77,158,673,929 is 2^63 + 1. */
struct aimed {
    const char *what;
    rows side;
    uint64_t quantity;
};

static const struct {
    struct aimed aimed;
    int64_t sum;
    uint64_t left;
} fitting[] = {
    {{"2^63 - 1", {{"602.47241209", 153092023}}, 153092023}, INT64_MAX, 0},
    {{"2^63 - 1, and more left", {{"602.47241209", 153092023}}, 153092024}, INT64_MAX, 1},
    {{"2^63 - 1, the place cut", {{"602.47241209", 999999999999}}, 153092023}, INT64_MAX, 0},
    {{"2^63 - 2^34", {{"171.79869184", 536870912}}, 536870911}, 9223372019674906624, 0},
    {{"-2^63", {{"-171.79869184", 536870912}}, 536870912}, INT64_MIN, 0},
    {{"-2^63, and more left", {{"-171.79869184", 536870912}}, 536870913}, INT64_MIN, 1},
    {{"a unit from below", {{"-771.58673929", 119537721}}, 119537720}, -9223371959696101880, 0},
    {{"2^63 - 1 at place 2", {{"171.79869184", 536870911}, {"171.79869183", 9}}, 536870912},
     INT64_MAX, 0},
    {{"-2^63 at place 2", {{"-171.79869184", 536870911}, {"-171.79869184", 9}}, 536870912},
     INT64_MIN, 0},
    {{"a product of 2^63", {{"-0.00000001", 1}, {"171.79869184", 536870912}}, 536870913},
     INT64_MAX, 0},
    {{"a product of -2^63 - 1", {{"0.00000001", 1}, {"-771.58673929", 119537721}}, 119537722},
     INT64_MIN, 0},
    {{"a product of 2^64 - 2^28", {{"-171.79869184", 536870912}, {"687.19476735", 268435456}},
      805306368},
     9223372036586340352, 0},
    {{"92 units of the highest price", {{"999999999.99999999", 999999999999}}, 92},
     92 * HIGHEST_PRICE, 0},
    {{"92 units of the lowest price", {{"-999999999.99999999", 999999999999}}, 92},
     -92 * HIGHEST_PRICE, 0}};

static const struct aimed over[] = {
    {"past 2^63 - 1", {{"602.47241209", 999999999999}}, 153092024},
    {"2^63", {{"171.79869184", 536870912}}, 536870912},
    {"2^63, and more left", {{"171.79869184", 536870912}}, 999999999},
    {"-2^63 - 1", {{"-771.58673929", 119537721}}, 119537721},
    {"2^63 at place 2", {{"171.79869184", 536870911}, {"171.79869184", 9}}, 536870912},
    {"-2^63 - 1 at place 2", {{"-171.79869184", 536870911}, {"-171.79869185", 9}}, 536870912},
    {"out above and back", {{"171.79869184", 536870912}, {"-0.00000001", 5}}, 536870913},
    {"out below and back", {{"-171.79869184", 536870912}, {"-0.00000001", 1}, {"0.00000001", 5}},
     536870914},
    {"93 units of the highest price", {{"999999999.99999999", 999999999999}}, 93},
    {"93 units of the lowest price", {{"-999999999.99999999", 999999999999}}, 93},
    {"the largest lot of the highest price", {{"999999999.99999999", 999999999999}}, 999999999},
    {"the largest lot of the lowest price", {{"-999999999.99999999", 999999999999}}, 999999999}};

static void test_lot_bounds(void)
{
    begin("bounds of a lot's sums");
    for (size_t i = 0; i < sizeof fitting / sizeof *fitting; i++) {
        const struct aimed *aimed = &fitting[i].aimed;
        open_with_rows(i % 2, aimed->side, aimed->side);
        for (enum way way = SELL; way < WAYS; way++)
            check_given(good_lot(way, aimed->quantity), fitting[i].sum, fitting[i].left,
                        aimed->what);
    }
    for (size_t i = 0; i < sizeof over / sizeof *over; i++) {
        open_with_rows(i % 2, over[i].side, over[i].side);
        for (enum way way = SELL; way < WAYS; way++)
            check_lot(good_lot(way, over[i].quantity), SELKAVORN_SUM_OVER, over[i].what);
    }
    for (enum way way = SELL; way < WAYS; way++) {
        struct lot lot = good_lot(way, SELKAVORN_LARGEST_LOT);
        lot.room = SELKAVORN_LOT_NUMBERS + 1;
        check_lot(lot, SELKAVORN_SUM_OVER, "35, more room");
        lot.room = SELKAVORN_LOT_NUMBERS - 1;
        check_lot(lot, SELKAVORN_ARGUMENT, "18 of the room before 35");
        lot = good_lot(way, SELKAVORN_LARGEST_LOT + 1);
        check_lot(lot, SELKAVORN_ARGUMENT, "18 of the quantity before 35");
        lot = good_lot(way, SELKAVORN_LARGEST_LOT);
        lot.now = "20250103-13:00:30.001";
        check_lot(lot, SELKAVORN_AGE_ABOVE, "24 before 35");
    }
    end();
}

/* Asks for a summary of the first board, which must have these numbers. */
static void check_summary(uint64_t number, uint64_t date, uint64_t time, uint64_t complete,
                          uint64_t marks, const char *what)
{
    check_equal(summary(&first, SELKAVORN_BOARD_NUMBERS), SELKAVORN_DONE, what);
    check_equal(numbers[SELKAVORN_BOARD_NUMBER], number, what);
    check_equal(numbers[SELKAVORN_BOARD_HEARD_DATE], date, what);
    check_equal(numbers[SELKAVORN_BOARD_HEARD_TIME], time, what);
    check_equal(numbers[SELKAVORN_BOARD_COMPLETE], complete, what);
    check_equal(numbers[SELKAVORN_BOARD_MARKS], marks, what);
}

static void test_summary(void)
{
    static const uint64_t ids[] = {1, 2, 3, 4, 5, 6, 7, 8, 9, 10, 11, 12, 13, 14, 15, 16};
    begin("summary");
    open_fresh(&first, SELKAVORN_ORDER_DEPTH);
    check_summary(0, 0, 0, 0, 3, "nothing heard, both wait");
    feed(&first, SELKAVORN_DONE, 2, "1 in order", HEARTBEAT, 1);
    check_summary(1, 20250103, 130000000, 0, 3, "1 is counted");
    feed(&first, SELKAVORN_GAP, 2, "3 is a gap", "35=0|34=3|52=00000101-23:59:60.999|");
    check_summary(3, 101, 235960999, 2, 3, "after a gap, a second of 60");
    feed(&first, SELKAVORN_OLD, 2, "2 is old", HEARTBEAT, 2);
    feed(&first, SELKAVORN_TAKEN, 1, "7 is taken", EMPTY_W, 7, 2);
    check_summary(3, 101, 235960999, 2, 2, "an old time and a snapshot's are not heard");
    feed(&first, SELKAVORN_DONE, 2, "7 breaks", "35=X|34=4|" AT "268=1|" DELETE_BID);
    check_summary(4, 20250103, 130000000, 2, 3, "after a break");
    feed(&first, SELKAVORN_TAKEN, 1, "9 is taken", EMPTY_W, 9, 4);
    check_summary(4, 20250103, 130000000, 2, 1, "7 waits");
    feed(&first, SELKAVORN_TAKEN, 0, "7 is taken", EMPTY_W, 7, 4);
    check_summary(4, 20250103, 130000000, 4, 0, "none waits, B is H");
    check_equal(summary(&first, 4), SELKAVORN_ARGUMENT, "room of 4");
    check_equal(summary(&first, 0), SELKAVORN_ARGUMENT, "no room");
    check_equal(selkavorn_board(store_of(&first), first.n, NULL, 0), SELKAVORN_ARGUMENT,
                "no room, NULL");
    check_equal(summary(&first, 17), SELKAVORN_DONE, "more room");
    check_equal(open_board(&first, 1, ids, 16), SELKAVORN_DONE, "16 instruments");
    check_summary(0, 0, 0, 0, 65535, "16 wait");
    feed(&first, SELKAVORN_TAKEN, 15, "16 is taken", EMPTY_W, 16, 0);
    check_summary(0, 0, 0, 0, 32767, "the last is Live, nothing heard");
    end();
}

/* ---- loops of snapshots ---- */

struct record {
    uint64_t numbers[RECORD_NUMBERS];
};
static const struct record no_loop;
#define LARGEST UINT64_C(4294967295) /* of 34, 369 and 911 */

enum { OTHER = 55 }; /* an instrument that is not followed */

/* Opens the first board for 7, 8 and 9, which all wait, with B = 2 and H = 5. The queue holds a bid
 * of 8 (message 4) and one of 9 (5). */
static void open_options_of(uint64_t depth)
{
    static const uint64_t ids[] = {7, 8, 9};
    fresh(&first);
    check_equal(open_board(&first, depth, ids, 3), SELKAVORN_DONE, "opening");
    feed(&first, SELKAVORN_GAP, 3, "3 is a gap", HEARTBEAT, 3);
    feed(&first, SELKAVORN_DONE, 3, "a bid of 8",
         "35=X|34=4|" AT "268=1|279=0|269=0|" ENTRY("8", "24.01") "346=1|290=1|");
    feed(&first, SELKAVORN_DONE, 3, "a bid of 9",
         "35=X|34=5|" AT "268=1|279=0|269=0|" ENTRY("9", "0.5") "346=1|290=1|");
}

static void open_options(void)
{
    open_options_of(SELKAVORN_ORDER_DEPTH);
}

/* Feeds the W numbered `turn` of a loop of `reports`, with no entries. */
static void feed_turn(uint64_t turn, uint64_t reports, int id, int last, uint64_t answer,
                      uint64_t waiting, const char *what)
{
    make_turn(turn, reports, id, last, 0);
    feed_made(&first, answer, waiting, what);
}

static void set_record(struct record record)
{
    memcpy(store_of(&first) + RECORD_AT, record.numbers, sizeof record.numbers);
}

static void check_record(struct record wanted, const char *what)
{
    for (size_t i = 0; i < RECORD_NUMBERS; i++)
        check_equal(store_of(&first)[RECORD_AT + i], wanted.numbers[i], what);
}

/* How an instrument must stand. */
struct standing {
    uint64_t waiting, reason, bids;
};

static void check_standing(uint64_t id, struct standing wanted, const char *what)
{
    check_equal(state(&first, id, SELKAVORN_STATE_NUMBERS), SELKAVORN_DONE, what);
    check_equal(numbers[SELKAVORN_STATE_WAITING], wanted.waiting, what);
    check_equal(numbers[SELKAVORN_STATE_REASON], wanted.reason, what);
    check_equal(numbers[SELKAVORN_STATE_BIDS], wanted.bids, what);
    check_equal(numbers[SELKAVORN_STATE_OFFERS], 0, what);
}

static const struct standing waits = {1, 0, 0}, live = {0, 0, 0}, live_with_bid = {0, 0, 1};

static void test_loop(void)
{
    begin("loop of snapshots");
    open_options();
    feed_turn(1, 3, 7, 5, SELKAVORN_TAKEN, 2, "7 has a snapshot");
    check_record((struct record){{3, 1, 5, 1}}, "the first of three");
    feed_turn(2, 3, OTHER, 3, SELKAVORN_SNAPSHOT_UNFOLLOWED, 2, "another has one too");
    check_record((struct record){{3, 2, 3, 1}}, "two of three");
    feed_turn(3, 3, 7, 4, SELKAVORN_SNAPSHOT_LIVE, 0, "the loop is whole: 8 and 9 are Live");
    check_record(no_loop, "a whole loop ends its record");
    check_standing(7, live, "7 is as its snapshot made it");
    check_standing(8, live_with_bid, "8: message 4 is above 369 = 3");
    check_standing(9, live_with_bid, "9: message 5 too");
    check_summary(5, 20250103, 130000000, 5, 0, "none waits, B is H, the heard time stays");
    check_equal(quote(&first, 8, "20250103-13:00:00", 0, 17), SELKAVORN_DONE, "8 has a quote");
    feed(&first, SELKAVORN_DONE, 0, "8 gets its entries",
         "35=X|34=6|" AT "268=1|279=2|269=0|48=8|22=8|290=1|");
    check_standing(8, live, "its bid is deleted");
    end();
}

static void test_loop_of_one(void)
{
    begin("loop of one");
    open_options();
    feed_turn(1, 1, 8, 5, SELKAVORN_TAKEN, 0, "whole at once");
    check_record(no_loop, "no record");
    check_standing(8, live, "8 is named: its own snapshot");
    check_standing(9, live, "9: message 5 is not above 369 = 5");
    open_options();
    feed_turn(1, 1, OTHER, 4, SELKAVORN_SNAPSHOT_UNFOLLOWED, 0, "of one that is not followed");
    check_standing(8, live, "8: message 4 is not above 369 = 4");
    check_standing(9, live_with_bid, "9: message 5 is");
    open_fresh(&first, SELKAVORN_PRICE_DEPTH);
    feed_turn(1, 1, 7, 0, SELKAVORN_TAKEN, 0, "nothing heard: 0 is B and H");
    check_equal(quote(&first, 9, "20250103-13:00:00", 0, 17), SELKAVORN_UNHEARD, "9 is Live");
    open_options();
    feed_turn(1, 4, OTHER, 3, SELKAVORN_SNAPSHOT_UNFOLLOWED, 3, "one of four");
    feed_turn(2, 4, 9, 6, SELKAVORN_SNAPSHOT_ABOVE, 3, "two of four, 9 is named");
    feed_turn(1, 1, OTHER, 5, SELKAVORN_SNAPSHOT_UNFOLLOWED, 0, "one of one between them");
    check_record(no_loop, "the loop that ran is gone");
    check_standing(8, live, "8: message 4 is not above 369 = 5");
    check_standing(9, live, "9: that loop named it, this one does not");
    feed_turn(3, 4, OTHER, 5, SELKAVORN_SNAPSHOT_UNFOLLOWED, 0, "three of four");
    check_record(no_loop, "there is no loop to go on with");
    end();
}

/* The closing W of a loop of three, what it is answered, how many wait after it, and how 8 and 9
 * stand then. H is 6, and a delete that fits no book of 8 is queued (6). */
static const struct {
    const char *what;
    int id, last, bids;
    uint64_t answer, waiting;
    struct standing of_8, of_9;
} closings[] = {
    {"4", 8, 6, 2, SELKAVORN_TAKEN, 0, {0, 0, 2}, {0, 0, 0}},
    {"5", OTHER, 4, 0, SELKAVORN_SNAPSHOT_UNFOLLOWED, 1, {1, 1, 0}, {0, 0, 1}},
    {"6", 7, 6, 0, SELKAVORN_SNAPSHOT_LIVE, 1, {1, 1, 0}, {0, 0, 0}},
    {"7, the lowest is below B", 8, 1, 0, SELKAVORN_SNAPSHOT_BELOW, 2, {1, 0, 0}, {1, 0, 0}},
    {"8", 8, 7, 0, SELKAVORN_SNAPSHOT_ABOVE, 1, {1, 0, 0}, {0, 0, 0}},
    {"9", 8, 6, 21, SELKAVORN_SNAPSHOT_OVER, 1, {1, 0, 0}, {0, 0, 0}},
    {"10", 8, 4, 3, SELKAVORN_REPLAY_BROKE, 1, {1, 1, 0}, {0, 0, 1}}};

static void test_closing(void)
{
    begin("closing W by its answer");
    for (size_t i = 0; i < sizeof closings / sizeof *closings; i++) {
        const char *what = closings[i].what;
        open_options();
        feed(&first, SELKAVORN_DONE, 3, "no such place",
             "35=X|34=6|" AT "268=1|279=2|269=0|48=8|22=8|290=9|");
        feed_turn(1, 3, OTHER, 5, SELKAVORN_SNAPSHOT_UNFOLLOWED, 3, "one of three");
        feed_turn(2, 3, 7, 6, SELKAVORN_TAKEN, 2, "two of three");
        make_turn(3, 3, closings[i].id, closings[i].last, closings[i].bids);
        feed_made(&first, closings[i].answer, closings[i].waiting, what);
        check_record(no_loop, what);
        check_standing(7, live, what);
        check_standing(8, closings[i].of_8, what);
        check_standing(9, closings[i].of_9, what);
    }
    end();
}

/* W that do not follow on the first two of a loop of four, and the record after them. */
static const struct {
    const char *what;
    uint64_t turn, reports;
    struct record record;
} others[] = {{"the same again", 2, 4, {{0}}},         {"one is missed", 4, 4, {{0}}},
              {"34 above 911", 5, 4, {{0}}},           {"34 far above", LARGEST, 4, {{0}}},
              {"a larger 911", 3, 5, {{0}}},           {"a smaller 911", 3, 3, {{0}}},
              {"34 above another 911", 3, 2, {{0}}},   {"the first again", 1, 4, {{4, 1, 5, 0}}},
              {"of another loop", 1, 9, {{9, 1, 5, 0}}}};

static void test_broken_loops(void)
{
    begin("broken loops");
    for (size_t i = 0; i < sizeof others / sizeof *others; i++) {
        open_options();
        feed_turn(1, 4, OTHER, 5, SELKAVORN_SNAPSHOT_UNFOLLOWED, 3, "one of four");
        feed_turn(2, 4, 9, 6, SELKAVORN_SNAPSHOT_ABOVE, 3, "two of four, 9 is named");
        check_record((struct record){{4, 2, 5, 4}}, "two of four");
        feed_turn(others[i].turn, others[i].reports, OTHER, 5, SELKAVORN_SNAPSHOT_UNFOLLOWED, 3,
                  others[i].what);
        check_record(others[i].record, others[i].what);
        feed_turn(3, 4, OTHER, 5, SELKAVORN_SNAPSHOT_UNFOLLOWED, 3, "three of four");
        feed_turn(4, 4, OTHER, 5, SELKAVORN_SNAPSHOT_UNFOLLOWED, 3, "four of four");
        check_record(no_loop, "nothing is left of it");
    }
    feed_turn(2, 2, OTHER, 5, SELKAVORN_SNAPSHOT_UNFOLLOWED, 3, "where no loop runs");
    check_record(no_loop, "none begins");
    check_record_alone(&first, "nothing changes where no loop runs");
    feed_turn(1, 2, 9, 6, SELKAVORN_SNAPSHOT_ABOVE, 3, "a loop that names 9");
    feed_turn(1, 2, OTHER, 5, SELKAVORN_SNAPSHOT_UNFOLLOWED, 3, "begun anew");
    feed_turn(2, 2, OTHER, 5, SELKAVORN_SNAPSHOT_UNFOLLOWED, 0, "it is whole, and names none");
    feed(&first, SELKAVORN_GAP, 3, "a gap", HEARTBEAT, 8);
    feed_turn(2, 2, OTHER, 8, SELKAVORN_SNAPSHOT_UNFOLLOWED, 3, "the closing one once more");
    end();
}

static void test_lowest(void)
{
    static const struct {
        int lowest;
        uint64_t waiting;
    } cases[] = {{0, 3}, {1, 3}, {2, 0}, {4, 0}, {5, 0}, {6, 3}};
    begin("lowest 369");
    for (size_t i = 0; i < sizeof cases / sizeof *cases; i++)
        for (uint64_t low_turn = 1; low_turn <= 3; low_turn++) {
            open_options();
            for (uint64_t turn = 1; turn <= 3; turn++)
                feed_turn(turn, 3, OTHER, turn == low_turn ? cases[i].lowest : 6,
                          SELKAVORN_SNAPSHOT_UNFOLLOWED, turn < 3 ? 3 : cases[i].waiting,
                          "in B to H, wherever it stands");
            check_record(no_loop, "the loop is whole whatever its lowest is");
            if (cases[i].waiting == 3)
                check_record_alone(&first, "nothing changes where it is not in B to H");
        }
    end();
}

static void test_named(void)
{
    begin("named instruments");
    open_options();
    feed(&first, SELKAVORN_DONE, 3, "9 will break",
         "35=X|34=6|" AT "268=1|279=2|269=0|48=9|22=8|290=7|");
    feed_turn(1, 4, 7, 7, SELKAVORN_SNAPSHOT_ABOVE, 3, "7 is named, above H");
    feed_turn(2, 4, 8, 1, SELKAVORN_SNAPSHOT_BELOW, 3, "8 is named, below B");
    feed_turn(1, 3, 7, 7, SELKAVORN_SNAPSHOT_ABOVE, 3, "anew, 7 is named");
    make_turn(2, 3, 8, 6, 21);
    feed_made(&first, SELKAVORN_SNAPSHOT_OVER, 3, "8 is named, a side over 20");
    check_record((struct record){{3, 2, 6, 3}}, "7 and 8 are named");
    feed_turn(3, 3, 9, 5, SELKAVORN_REPLAY_BROKE, 3, "9 is named, its replay breaks");
    check_standing(7, waits, "7 is left");
    check_standing(8, waits, "8 is left");
    check_standing(9, (struct standing){1, SELKAVORN_REASON_PLACE, 0}, "9 is left");
    feed_turn(1, 2, 7, 6, SELKAVORN_TAKEN, 2, "7 is taken");
    feed(&first, SELKAVORN_DONE, 3, "and breaks", "35=X|34=7|" AT "268=1|" DELETE_BID);
    feed_turn(2, 2, OTHER, 6, SELKAVORN_SNAPSHOT_UNFOLLOWED, 1, "8 and 9 are not named");
    check_standing(7, (struct standing){1, SELKAVORN_REASON_PLACE, 0}, "7 was");
    check_standing(9, live, "the reason of 9 is cleared");
    end();
}

/* Each of 16 can be named, the last by bit 15. */
static void test_most_named(void)
{
    static const uint64_t ids[] = {1, 2, 3, 4, 5, 6, 7, 8, 9, 10, 11, 12, 13, 14, 15, 16};
    begin("16 named instruments");
    fresh(&first);
    check_equal(open_board(&first, SELKAVORN_ORDER_DEPTH, ids, 16), SELKAVORN_DONE, "opening");
    feed_turn(1, 2, 16, 1, SELKAVORN_SNAPSHOT_ABOVE, 16, "16 is named, above H");
    check_record((struct record){{2, 1, 1, 32768}}, "its bit is the last");
    feed_turn(2, 2, OTHER, 0, SELKAVORN_SNAPSHOT_UNFOLLOWED, 1, "the others are Live");
    check_summary(0, 0, 0, 0, 32768, "16 is left");
    feed(&first, SELKAVORN_GAP, 16, "a gap", HEARTBEAT, 3);
    for (int id = 1; id <= 16; id++)
        feed_turn((uint64_t)id, 17, id, 4, SELKAVORN_SNAPSHOT_ABOVE, 16, "each is named");
    check_record((struct record){{17, 16, 4, 65535}}, "all bits");
    feed_turn(17, 17, OTHER, 3, SELKAVORN_SNAPSHOT_UNFOLLOWED, 16, "whole, and all are named");
    check_record(no_loop, "a whole loop ends its record");
    check_record_alone(&first, "all are left");
    end();
}

/* Makes the X numbered 6 that breaks 7 for want of room, if it waits with an empty snapshot. */
static void make_21_bids(void)
{
    char text[MESSAGE_ROOM / 2] = "";
    for (int i = 0; i < 21; i++)
        strcat(text, NEW_BID);
    make("35=X|34=6|" AT "268=21|%s", text);
}

static void test_replays(void)
{
    begin("replays at the end of a loop");
    open_options();
    make_21_bids();
    feed_made(&first, SELKAVORN_DONE, 3, "21 bids of 7");
    feed(&first, SELKAVORN_DONE, 3, "no such place of 8",
         "35=X|34=7|" AT "268=1|279=2|269=0|48=8|22=8|290=2|");
    feed_turn(1, 1, OTHER, 2, SELKAVORN_SNAPSHOT_UNFOLLOWED, 2, "each replay by itself");
    check_standing(7, (struct standing){1, SELKAVORN_REASON_NO_ROOM, 0}, "7 has no room");
    check_standing(8, (struct standing){1, SELKAVORN_REASON_PLACE, 0}, "8 has no such place");
    check_standing(9, live_with_bid, "9 is Live");
    check_summary(7, 20250103, 130000000, 2, 3, "B stays while one waits");
    feed_turn(1, 1, OTHER, 6, SELKAVORN_SNAPSHOT_UNFOLLOWED, 1, "from 6 on");
    check_standing(7, live, "7 is Live, its reason cleared");
    check_standing(8, (struct standing){1, SELKAVORN_REASON_PLACE, 0}, "8 waits on");
    check_standing(9, live_with_bid, "9 was Live and keeps its book");
    feed_turn(1, 1, OTHER, 7, SELKAVORN_SNAPSHOT_UNFOLLOWED, 0, "from 7 on");
    check_summary(7, 20250103, 130000000, 7, 0, "none waits: B is H");
    end();
}

/* What lies between two W of a loop leaves its record. */
static void test_between(void)
{
    static const struct record one = {{2, 1, 5, 1}};
    static const char types[] = "0fyB";
    begin("between two W");
    open_options();
    feed_turn(1, 2, 7, 5, SELKAVORN_TAKEN, 2, "one of two");
    make_turn(2, 2, OTHER, 5, 0);
    check_equal(feed_bytes(&first, message, message_n - 1), SELKAVORN_FRAME + 2 * 256, "cut short");
    message[message_n - 2] = message[message_n - 2] == '0' ? '1' : '0';
    feed_made(&first, SELKAVORN_CHECKSUM, 2, "the second, another sum");
    feed(&first, SELKAVORN_TYPE, 2, "another type", "35=w|34=2|" AT);
    feed(&first, SELKAVORN_FIELDS, 2, "369 is missing",
         "35=W|34=2|" AT "48=55|22=8|911=2|268=0|");
    feed(&first, SELKAVORN_FIELDS, 2, "911 = 0, and 34 = 1",
         "35=W|34=1|" AT "48=55|22=8|369=5|911=0|268=0|");
    feed(&first, SELKAVORN_OLD, 2, "an old one", HEARTBEAT, 5);
    for (int i = 0; types[i] != '\0'; i++)
        feed(&first, SELKAVORN_DONE, 2, "the next one", "35=%c|34=%d|" AT, types[i], 6 + i);
    feed(&first, SELKAVORN_DONE, 2, "an X", "35=X|34=10|" AT "268=1|" NEW_BID);
    check_record(one, "the record stays");
    feed_turn(2, 2, OTHER, 5, SELKAVORN_SNAPSHOT_UNFOLLOWED, 0, "two of two");
    feed_turn(1, 2, 7, 20, SELKAVORN_SNAPSHOT_LIVE, 0, "one of two");
    feed(&first, SELKAVORN_GAP, 3, "a gap", HEARTBEAT, 20);
    check_record((struct record){{2, 1, 20, 1}}, "the record stays after a gap");
    feed_turn(2, 2, OTHER, 21, SELKAVORN_SNAPSHOT_UNFOLLOWED, 1, "two of two, 7 was named");
    open_options();
    feed_turn(1, 2, 7, 5, SELKAVORN_TAKEN, 2, "one of two");
    for (int number = 6; number <= 9; number++) {
        make_empties(number, 64);
        feed_made(&first, number < 9 ? SELKAVORN_DONE : SELKAVORN_LET_GO, 2, "64 entries");
    }
    check_record(one, "the record stays after the queue is let go");
    feed_turn(2, 2, OTHER, 9, SELKAVORN_SNAPSHOT_UNFOLLOWED, 2, "two of two, 5 is below B");
    feed_turn(1, 2, OTHER, 9, SELKAVORN_SNAPSHOT_UNFOLLOWED, 2, "one of two");
    open_fresh(&first, SELKAVORN_ORDER_DEPTH);
    check_record(no_loop, "opening clears it");
    end();
}

/* Loop records in a store that follows three, and whether they are sound. */
static const struct {
    struct record record;
    bool sound;
} records[] = {{{{0, 0, 0, 0}}, true},
               {{{1, 0, 0, 0}}, false},
               {{{0, 1, 0, 0}}, false},
               {{{0, 0, 1, 0}}, false},
               {{{0, 0, 0, 1}}, false},
               {{{1, 1, 0, 0}}, false},
               {{{2, 0, 0, 0}}, false},
               {{{2, 1, 0, 0}}, true},
               {{{2, 2, 0, 0}}, false},
               {{{3, 2, 0, 0}}, true},
               {{{3, 3, 0, 0}}, false},
               {{{LARGEST, 1, 0, 0}}, true},
               {{{LARGEST, LARGEST - 1, 0, 0}}, true},
               {{{LARGEST, LARGEST, 0, 0}}, false},
               {{{LARGEST + 1, 1, 0, 0}}, false},
               {{{LARGEST + 1, LARGEST, 0, 0}}, false},
               {{{UINT64_MAX, 1, 0, 0}}, false},
               {{{2, UINT64_MAX, 0, 0}}, false},
               {{{2, 1, LARGEST, 0}}, true},
               {{{2, 1, LARGEST + 1, 0}}, false},
               {{{2, 1, UINT64_MAX, 0}}, false},
               {{{2, 1, 0, 7}}, true},
               {{{2, 1, 0, 8}}, false},
               {{{2, 1, 0, 15}}, false},
               {{{2, 1, 0, 65536}}, false},
               {{{2, 1, 0, UINT64_MAX}}, false}};

static void test_loop_store(void)
{
    begin("store of a loop");
    for (size_t i = 0; i < sizeof records / sizeof *records; i++) {
        open_options();
        set_record(records[i].record);
        if (records[i].sound) {
            check_equal(state(&first, 7, SELKAVORN_STATE_NUMBERS), SELKAVORN_DONE, "sound");
            feed(&first, SELKAVORN_DONE, 3, "a sound record stays", HEARTBEAT, 6);
            check_record(records[i].record, "a sound record stays");
        } else {
            check_refused_store("a record outside its range");
        }
    }
    open_options();
    for (size_t i = RECORD_AT + RECORD_NUMBERS; i < 32; i++) {
        store_of(&first)[i] = 1;
        check_equal(summary(&first, SELKAVORN_BOARD_NUMBERS), SELKAVORN_STORE, "a spare number");
        store_of(&first)[i] = 0;
    }
    open_options();
    set_record((struct record){{LARGEST, LARGEST - 2, 4, 0}});
    feed_turn(LARGEST - 1, LARGEST, OTHER, 5, SELKAVORN_SNAPSHOT_UNFOLLOWED, 3, "all but one");
    check_record((struct record){{LARGEST, LARGEST - 1, 4, 0}}, "all but one have come");
    feed_turn(LARGEST, LARGEST, OTHER, 5, SELKAVORN_SNAPSHOT_UNFOLLOWED, 0, "the longest loop");
    check_record(no_loop, "the longest loop is whole");
    end();
}

/* Writes by the first board with one argument that is not good. */
static void check_argument(struct writing w, const char *what)
{
    check_equal(write_book(&first, w), SELKAVORN_ARGUMENT, what);
}

static void test_writing_arguments(void)
{
    static const char *const names[] = {"",       "ABCDEFGHIJKLMNOPQ", "A B", "A\001B",
                                        "A\177", "\303\251"};
    static const uint64_t k_m[][2] = {{0, 1}, {2, 1}, {1, 17}, {17, 17}, {0, 0}, {1, UINT64_MAX}};
    static const char good[] = "20250103-13:00:00", bad[] = "20250103-25:00:00";
    begin("arguments of a writing");
    open_with_book(&first);
    for (size_t i = 0; i < sizeof names / sizeof *names; i++) {
        check_argument((struct writing){7, names[i], "YARD", 1, 1, good, BYTES_ROOM}, "sender");
        check_argument((struct writing){7, "SHED", names[i], 1, 1, good, BYTES_ROOM}, "target");
    }
    for (size_t i = 0; i < sizeof k_m / sizeof *k_m; i++)
        check_argument((struct writing){7, "SHED", "YARD", k_m[i][0], k_m[i][1], good, BYTES_ROOM},
                       "k and m");
    check_argument((struct writing){7, "SHED", "YARD", 1, 1, bad, BYTES_ROOM}, "time");
    check_argument((struct writing){0, "SHED", "YARD", 1, 1, good, BYTES_ROOM}, "SecurityID 0");
    check_argument((struct writing){8, "SHED", "YARD", 0, 1, good, 0}, "18 before 20");
    check_equal(write_book(&first, (struct writing){8, "SHED", "YARD", 1, 1, good, 0}),
                SELKAVORN_UNFOLLOWED, "8 is not followed, 20 before 25");
    check_equal(write_book(&first, (struct writing){9, "SHED", "YARD", 1, 1, good, 0}),
                SELKAVORN_WAITING, "9 waits, 21 before 25");
    check_equal(selkavorn_write(store_of(&first), first.n, 7, NULL, 0, NULL, 0, 1, 1, NULL, 0, NULL,
                                0),
                SELKAVORN_ARGUMENT, "no names, NULL");
    check_equal(selkavorn_write(store_of(&first), first.n, 7, (const uint8_t *)"S", 1,
                                (const uint8_t *)"Y", 1, 1, 1, (const uint8_t *)good, 17, NULL, 0),
                SELKAVORN_OUTPUT, "no room, NULL");
    end();
}

/* Writes with more room than is needed, with exactly enough, and with one byte less. */
static void check_rooms(struct writing w, uint64_t length)
{
    w.room = BYTES_ROOM;
    check_equal(write_book(&first, w), 256 * length, "more room");
    w.room = (size_t)length - 1;
    check_equal(write_book(&first, w), SELKAVORN_OUTPUT, "one byte short");
    w.room = 0;
    check_equal(write_book(&first, w), SELKAVORN_OUTPUT, "no room");
    w.room = (size_t)length;
    check_equal(write_book(&first, w), 256 * length, "exactly enough room");
}

/* Opens a board with one instrument of 18 digits, which waits, at the highest number. */
static void open_highest(struct board *board)
{
    static const uint64_t id[] = {999999999999999999};
    fresh(board);
    check_equal(open_board(board, 0, id, 1), SELKAVORN_DONE, "opening");
    feed(board, SELKAVORN_GAP, 1, "the highest number", "35=0|34=4294967295|" AT);
}

/* Opens the first board so, with 20 bids and offers of the longest kind. */
static void open_longest(void)
{
    char entries[MESSAGE_ROOM / 2] = "";
    size_t n = 0;
    for (int i = 0; i < 40; i++)
        n += (size_t)snprintf(entries + n, sizeof entries - n,
                              "269=%d|270=-999999999.99999999|271=999999999999|37=ABCDEFGHIJKLMNOP|"
                              "272=20250103|273=12:59:58.250|290=%d|",
                              i / 20, i % 20 + 1);
    open_highest(&first);
    make("35=W|34=1|" AT "48=999999999999999999|22=8|369=4294967295|911=1|268=40|%s", entries);
    feed_made(&first, SELKAVORN_TAKEN, 0, "40 places");
}

_Static_assert(SELKAVORN_SHORTEST_WRITING == 104 && SELKAVORN_LONGEST_WRITING == 4307,
               "the bounds of a writing");

/* Gives the second board, on which the instrument waits, what the first writes: it must then quote
 * and write the same, with so many Waiting. */
static void check_same_book(struct writing w, uint64_t waiting)
{
    static const char now[] = "20250103-13:00:00";
    uint64_t quoted[SELKAVORN_QUOTE_NUMBERS];
    uint8_t written[BYTES_ROOM];
    size_t n = (size_t)SELKAVORN_LENGTH(write_book(&first, w));
    memcpy(written, bytes, n);
    check_equal(quote(&first, w.id, now, 0, 17), SELKAVORN_DONE, "first quote");
    memcpy(quoted, numbers, sizeof quoted);
    check_equal(feed_bytes(&second, written, n), SELKAVORN_TAKEN + 256 * waiting,
                "the writing is taken");
    check_equal(quote(&second, w.id, now, 0, 17), SELKAVORN_DONE, "second quote");
    check(memcmp(quoted, numbers, sizeof quoted) == 0, "the quotes are the same");
    check_equal(write_book(&second, w), 256 * n, "written again");
    check(memcmp(written, bytes, n) == 0, "the messages are the same");
}

static void test_writing(void)
{
    static const char wanted[] =
        "8=FIX.4.4|9=88|35=W|49=SHED|56=YARD|34=1|52=20250103-13:00:00.000|48=7|22=8|207=BVMF|"
        "369=0|911=1|268=0|10=029|";
    struct writing w = {7, "SHED", "YARD", 1, 1, "20250103-13:00:00.000", BYTES_ROOM};
    begin("writing");
    open_fresh(&first, SELKAVORN_ORDER_DEPTH);
    feed(&first, SELKAVORN_TAKEN, 1, "369 = 0", EMPTY_W, 7, 0);
    check_rooms(w, 110);
    bool same = true;
    for (size_t i = 0; i < 110; i++)
        same = same && bytes[i] == (wanted[i] == '|' ? 1 : wanted[i]);
    check(same, "the message of an empty book");
    w = (struct writing){7, "S", "Y", 1, 1, "20250103-13:00:00", BYTES_ROOM};
    check_rooms(w, SELKAVORN_SHORTEST_WRITING);
    open_longest();
    w = (struct writing){999999999999999999, "ABCDEFGHIJKLMNOP", "abcdefghijklmnop", 16, 16,
                         "20250103-13:00:00.000", BYTES_ROOM};
    check_rooms(w, SELKAVORN_LONGEST_WRITING);
    open_highest(&second);
    check_same_book(w, 0);
    end();
}

/* Writes the book of 7 from the first board, gives it to a fresh second one, and compares. */
static void check_round_trip(uint64_t depth, int number)
{
    struct writing w = {7, "SHED", "YARD", 1, 2, "20250103-13:00:09.000", BYTES_ROOM};
    open_fresh(&second, depth);
    feed(&second, number == 1 ? SELKAVORN_DONE : SELKAVORN_GAP, 2, "heard", HEARTBEAT, number);
    check_same_book(w, 1);
}

static void test_round_trip(void)
{
    begin("round trip");
    open_with_book(&first);
    check_round_trip(SELKAVORN_ORDER_DEPTH, 1);
    make("35=X|34=2|" AT "268=2|279=0|269=0|" ENTRY("7", "007.50") "290=2|" DELETE_BID);
    feed_made(&first, SELKAVORN_DONE, 1, "another bid");
    check_round_trip(SELKAVORN_ORDER_DEPTH, 2);
    open_fresh(&first, SELKAVORN_PRICE_DEPTH);
    feed(&first, SELKAVORN_TAKEN, 1, "369 = 0", EMPTY_W, 7, 0);
    make("35=X|34=1|" AT "268=1|279=0|269=1|48=7|22=8|270=-0.00000001|271=1|346=65535|"
         "272=00000229|273=23:59:60|290=1|");
    feed_made(&first, SELKAVORN_DONE, 1, "a price place");
    check_round_trip(SELKAVORN_PRICE_DEPTH, 1);
    check_equal(quote(&first, 7, "20250103-13:00:00", 0, 17), SELKAVORN_DONE, "price depth");
    const uint64_t *offer = numbers + SELKAVORN_QUOTE_OFFER;
    check_equal(offer[SELKAVORN_SIDE_PRICE], UINT64_MAX, "one hundred-millionth below 0");
    check_equal(offer[SELKAVORN_SIDE_BY], 65535, "the number of orders");
    check_equal(offer[SELKAVORN_SIDE_MORE], 0, "no more of it");
    check_equal(offer[SELKAVORN_SIDE_DATE], 229, "29 February 0000");
    check_equal(offer[SELKAVORN_SIDE_TIME], 235960000, "a second of 60 stays 60");
    end();
}

/* Prices as they are read, in hundred-millionths, and as they are written; first M1 to M3 of
 * documents 01 and 02. */
static const struct {
    const char *read;
    int64_t price;
    const char *written;
} prices[] = {{"24.01", 2401000000, "24.01"},
              {"-0.5", -50000000, "-0.5"},
              {"-0", 0, "0"},
              {"-0.00000000", 0, "0"},
              {"7", 700000000, "7"},
              {"000000007.50000000", 750000000, "7.5"},
              {"1.23456789", 123456789, "1.23456789"},
              {"-1.23456789", -123456789, "-1.23456789"},
              {"0.00000001", 1, "0.00000001"},
              {"-0.00000001", -1, "-0.00000001"},
              {"10.00000010", 1000000010, "10.0000001"},
              {"999999999", 99999999900000000, "999999999"},
              {"999999999.99999999", 99999999999999999, "999999999.99999999"},
              {"-999999999.99999999", -99999999999999999, "-999999999.99999999"}};

/* M4 of document 02, and others that are no price. */
static const char *const no_prices[] = {
    "1.", "1.234567891", "-1.234567891", "0.000000000", "0.000000001", "999999999.999999999",
    "1000000000", "0000000001", "-1000000000", "1000000000.1", ".5", "-.5", "-", ".", "+1", "--1",
    "1.5.", "1,5", "1e3", "1.2345678A", "1.-5", " 1", "1 "};

_Static_assert(SELKAVORN_PRICE_UNIT == 100000000 && SELKAVORN_PRICE_DECIMALS == 8,
               "the unit has as many zeros as a price has decimals");

/* A bid of 7 at place 1, of either depth kind. */
#define PRICED "269=0|270=%s|271=12|37=A|346=1|" STAMP "290=1|"

/* The first board's quote of 7 must have this price, with 12 units, at the side that is sold to or
 * bought from; a lot of one unit and one of 12 must come to it. */
static void check_price(enum way way, int64_t price, const char *what)
{
    const int side = way == SELL ? SELKAVORN_QUOTE_BID : SELKAVORN_QUOTE_OFFER;
    check_equal(quote(&first, 7, "20250103-13:00:00", 0, 17), SELKAVORN_DONE, what);
    check_equal(numbers[side + SELKAVORN_SIDE_PRICE], (uint64_t)price, what);
    check_equal(numbers[side + SELKAVORN_SIDE_SIZE], 12, what);
    check_lot(good_lot(way, 1), SELKAVORN_DONE, what);
    check_equal(numbers[SELKAVORN_LOT_SUM], (uint64_t)price, what);
    check_lot(good_lot(way, 12), SELKAVORN_DONE, what);
    check_equal(numbers[SELKAVORN_LOT_SUM], (uint64_t)(12 * price), what);
}

/* The book of 7 must be written with this price at each of so many places, and no other. */
static void check_written(const char *price, unsigned places)
{
    char field[40];
    struct writing w = {7, "SHED", "YARD", 1, 2, "20250103-13:00:00", BYTES_ROOM};
    uint64_t answered = write_book(&first, w);
    const size_t n = (size_t)SELKAVORN_LENGTH(answered);
    snprintf(field, sizeof field, "\001270=%s\001", price);
    check_equal(SELKAVORN_ANSWER(answered), SELKAVORN_DONE, price);
    check_equal(count_fields(bytes, n, field), places, price);
    check_equal(count_fields(bytes, n, "\001270="), places, price);
}

/* A price as a bid of a snapshot, as an offer of one, and as a bid that is new beside it. */
static void check_each(uint64_t depth, const char *read, int64_t price, const char *written)
{
    static const rows none = {{NULL, 0}};
    const rows side = {{read, 12}};
    open_with_rows(depth, side, none);
    check_price(SELL, price, read);
    check_written(written, 1);
    check_round_trip(depth, 1);
    open_with_rows(depth, none, side);
    check_price(BUY, price, read);
    check_written(written, 1);
    feed(&first, SELKAVORN_DONE, 1, read, "35=X|34=2|" AT "268=1|279=0|48=7|22=8|" PRICED, read);
    check_price(SELL, price, read);
    check_price(BUY, price, read);
    check_written(written, 2);
    check_round_trip(depth, 2);
}

static void test_prices(void)
{
    begin("prices");
    for (uint64_t depth = 0; depth < 2; depth++)
        for (size_t i = 0; i < sizeof prices / sizeof *prices; i++)
            check_each(depth, prices[i].read, prices[i].price, prices[i].written);
    open_with_book(&first);
    for (size_t i = 0; i < sizeof no_prices / sizeof *no_prices; i++) {
        feed(&first, SELKAVORN_FIELDS, 1, no_prices[i],
             "35=X|34=2|" AT "268=1|279=1|48=7|22=8|" PRICED, no_prices[i]);
        feed(&first, SELKAVORN_FIELDS, 1, no_prices[i],
             "35=W|34=1|" AT "48=9|22=8|369=1|911=2|268=1|" PRICED, no_prices[i]);
    }
    check_price(SELL, HUNDREDTHS(2401), "the book is as it was");
    feed(&first, SELKAVORN_DONE, 1, "a delete, whose 270 is not read",
         "35=X|34=2|" AT "268=1|279=2|48=7|22=8|" PRICED, "1.234567891");
    check_equal(state(&first, 7, SELKAVORN_STATE_NUMBERS), SELKAVORN_DONE, "the state of 7");
    check_equal(numbers[SELKAVORN_STATE_BIDS], 0, "the bid is deleted");
    check_equal(numbers[SELKAVORN_STATE_OFFERS], 1, "the offer stays");
    end();
}

/* ---- an empty book of all instruments ---- */

#define LATER "52=20250103-13:00:07.125|"
#define ALL "279=0|269=J|" /* a J of all instruments */
#define VALUES "270=24.01|271=12|37=ORDER-12345|346=3|" STAMP "290=1|"
#define BID_OF(id) "279=0|269=0|48=" id "|22=8|" VALUES
#define OFFER_OF(id) "279=0|269=1|48=" id "|22=8|" VALUES
#define NO_PLACE_OF(id) "279=2|269=0|48=" id "|22=8|290=9|"
#define EMPTY_OF(id) "279=0|269=J|48=" id "|22=8|"
enum { QUEUED_AT = 7, QUEUE_AT = 4256, SLOT_NUMBERS = 11, QUEUE = 256 }; /* in the store */

/* Opens the first board for 7 and 9: both are Live, with a bid and an offer each at number 1. */
static void open_both(uint64_t depth)
{
    open_fresh(&first, depth);
    feed(&first, SELKAVORN_TAKEN, 1, "7 at 369 = 0", EMPTY_W, 7, 0);
    feed(&first, SELKAVORN_TAKEN, 0, "9 at 369 = 0", EMPTY_W, 9, 0);
    feed(&first, SELKAVORN_DONE, 0, "both books",
         "35=X|34=1|" AT "268=4|" BID_OF("7") OFFER_OF("7") BID_OF("9") OFFER_OF("9"));
}

/* Feeds the first board an X with these entries. */
static void feed_entries(int number, int count, const char *entries, uint64_t answer,
                         uint64_t waiting, const char *what)
{
    feed(&first, answer, waiting, what, "35=X|34=%d|" LATER "268=%d|%s", number, count, entries);
}

/* The book of an instrument must be as open_both made it. */
static void check_kept(uint64_t id, const char *what)
{
    check_equal(state(&first, id, SELKAVORN_STATE_NUMBERS), SELKAVORN_DONE, what);
    check_equal(numbers[SELKAVORN_STATE_WAITING], 0, what);
    check_equal(numbers[SELKAVORN_STATE_BIDS], 1, what);
    check_equal(numbers[SELKAVORN_STATE_OFFERS], 1, what);
}

/* An instrument must be Live with a quote of two empty sides, dated by this number. */
static void check_emptied(uint64_t id, uint64_t number, const char *what)
{
    check_standing(id, live, what);
    check_equal(quote(&first, id, "20250103-13:00:07.125", 0, 17), SELKAVORN_DONE, what);
    check_equal(numbers[SELKAVORN_QUOTE_NUMBER], number, what);
    check_equal(numbers[SELKAVORN_QUOTE_HEARD_DATE], 20250103, what);
    check_equal(numbers[SELKAVORN_QUOTE_HEARD_TIME], 130007125, what);
    for (size_t i = SELKAVORN_QUOTE_BID; i < SELKAVORN_QUOTE_NUMBERS; i++)
        check_equal(numbers[i], 0, what);
}

/* The book of an instrument must be written as the message of 110 bytes, with these two values. */
static void check_empty_writing(int id, int number)
{
    struct writing w = {(uint64_t)id, "SHED", "YARD", 1, 1, "20250103-13:00:00.000", BYTES_ROOM};
    make("35=W|49=SHED|56=YARD|34=1|" AT "48=%d|22=8|207=BVMF|369=%d|911=1|268=0|", id, number);
    check_equal(write_book(&first, w), 256 * 110, "110 bytes are written");
    check_equal(message_n, 110, "110 bytes are made");
    check(memcmp(bytes, message, message_n) == 0, "the message of an empty book");
}

static void test_all(void)
{
    static uint64_t kept[SELKAVORN_STORE_NUMBERS];
    begin("J of all instruments");
    for (uint64_t depth = 0; depth < 2; depth++) {
        open_both(depth);
        check_kept(7, "7 has a book");
        check_kept(9, "9 has a book");
        feed_entries(2, 1, ALL, SELKAVORN_DONE, 0, "it is counted");
        check_emptied(7, 2, "7 is Live and empty");
        check_emptied(9, 2, "9 is Live and empty");
        check_summary(2, 20250103, 130007125, 2, 0, "none waits, B is H");
        check_empty_writing(7, 2);
        check_empty_writing(9, 2);
        check_lot((struct lot){SELL, 9, 5, "20250103-13:00:07.125", 0, SELKAVORN_LOT_NUMBERS},
                  SELKAVORN_DONE, "a lot of an empty book");
        check_equal(numbers[SELKAVORN_LOT_LEFT], 5, "all units are left");
        memcpy(kept, store_of(&first), sizeof kept);
        open_both(depth);
        feed_entries(2, 2, EMPTY_OF("7") EMPTY_OF("9") "207=BVMF|", SELKAVORN_DONE, 0, "J of each");
        check(memcmp(kept, store_of(&first), sizeof kept) == 0, "the store is that of a J of each");
        feed_entries(3, 1, BID_OF("9"), SELKAVORN_DONE, 0, "the books grow anew");
        check_standing(7, live, "7 is empty still");
        check_standing(9, live_with_bid, "9 has a bid");
        open_both(depth);
        feed_entries(2, 1, EMPTY_OF("9"), SELKAVORN_DONE, 0, "a J of one");
        check_kept(7, "a J of one leaves the others");
        check_emptied(9, 2, "a J of one");
    }
    end();
}

/* Each of 16 is emptied, with 20 bids and 20 offers in it. */
static void test_all_of_most(void)
{
    static const uint64_t ids[] = {1, 2, 3, 4, 5, 6, 7, 8, 9, 10, 11, 12, 13, 14, 15, 16};
    char entries[MESSAGE_ROOM / 2] = "";
    size_t n = 0;
    begin("J of 16 instruments");
    for (int i = 0; i < 40; i++)
        n += (size_t)snprintf(entries + n, sizeof entries - n,
                              "269=%d|270=%d|271=1|37=A%d|" STAMP "290=%d|", i / 20, 100 - i, i,
                              i % 20 + 1);
    fresh(&first);
    check_equal(open_board(&first, SELKAVORN_ORDER_DEPTH, ids, 16), SELKAVORN_DONE, "opening");
    for (int id = 1; id <= 16; id++)
        feed(&first, SELKAVORN_TAKEN, (uint64_t)(16 - id), "40 places",
             "35=W|34=1|" AT "48=%d|22=8|369=0|911=2|268=40|%s", id, entries);
    feed_entries(1, 1, ALL, SELKAVORN_DONE, 0, "all 640 places");
    for (uint64_t id = 1; id <= 16; id++)
        check_emptied(id, 1, "each of 16");
    bool clear = true;
    for (size_t i = 160; i < SELKAVORN_STORE_NUMBERS; i++)
        clear = clear && store_of(&first)[i] == 0;
    check(clear, "no number of a book or of the queue is left");
    end();
}

/* Entries that are refused. */
static const struct {
    const char *what, *entry;
} bad_entries[] = {{"J with 22 alone", "279=0|269=J|22=8|"},
                   {"J with 207 alone", "279=0|269=J|207=BVMF|"},
                   {"J with 22 and 207", "279=0|269=J|22=8|207=BVMF|"},
                   {"J with another 22", "279=0|269=J|22=4|"},
                   {"J with another 207", "279=0|269=J|207=X|"},
                   {"J with 22 before 269", "279=0|22=8|269=J|"},
                   {"J with 48 alone", "279=0|269=J|48=7|"},
                   {"J with 48 and 207", "279=0|269=J|48=7|207=BVMF|"},
                   {"J with 48 and another 22", "279=0|269=J|48=7|22=4|"},
                   {"J with 48 and another 207", "279=0|269=J|48=7|22=8|207=X|"},
                   {"J with 48 = 0", "279=0|269=J|48=0|22=8|"},
                   {"J with 48 = 07", "279=0|269=J|48=07|22=8|"},
                   {"J with 48 = 0 alone", "279=0|269=J|48=0|"},
                   {"J with 48 twice", "279=0|269=J|48=7|48=7|22=8|"},
                   {"J with 279 = 5", "279=5|269=J|"},
                   {"J with 279 = 00", "279=00|269=J|"},
                   {"J twice in an entry", "279=0|269=J|269=J|"},
                   {"J with 290 twice", "279=0|269=J|290=1|290=1|"},
                   {"J with 369", "279=0|269=J|369=1|"},
                   {"no 269", "279=0|"},
                   {"bid without 48", "279=0|269=0|22=8|" VALUES},
                   {"bid without 48 and 22", "279=0|269=0|" VALUES},
                   {"offer without 48", "279=0|269=1|22=8|" VALUES},
                   {"offer without 48 and 22", "279=0|269=1|" VALUES},
                   {"change without 48 and 22", "279=1|269=0|" VALUES},
                   {"delete without 48", "279=2|269=0|22=8|290=1|"},
                   {"delete without 48 and 22", "279=2|269=1|290=1|"},
                   {"delete from without 48 and 22", "279=4|269=0|290=1|"}};

static void test_all_refused(void)
{
    begin("J without 48 that is refused");
    for (size_t i = 0; i < sizeof bad_entries / sizeof *bad_entries; i++) {
        const char *what = bad_entries[i].what, *entry = bad_entries[i].entry;
        char two[MESSAGE_ROOM / 16];
        for (int waiting = 0; waiting < 2; waiting++) {
            const uint64_t wait = waiting ? 1 : 0;
            if (waiting)
                open_with_book(&first);
            else
                open_both(SELKAVORN_ORDER_DEPTH);
            feed_entries(2, 1, entry, SELKAVORN_FIELDS, wait, what);
            snprintf(two, sizeof two, "%s%s", BID_OF("7"), entry);
            feed_entries(2, 2, two, SELKAVORN_FIELDS, wait, what);
            snprintf(two, sizeof two, "%s%s", ALL, entry);
            feed_entries(2, 2, two, SELKAVORN_FIELDS, wait, what);
            snprintf(two, sizeof two, "%s%s", entry, ALL);
            feed_entries(2, 2, two, SELKAVORN_FIELDS, wait, what);
            check_kept(7, what);
            feed_entries(3, 1, entry, SELKAVORN_FIELDS, wait, "14 comes before a gap");
            feed_entries(1, 1, entry, SELKAVORN_FIELDS, wait, "14 comes before 2");
            feed_entries(2, 1, ALL, SELKAVORN_DONE, wait, "it was not counted");
        }
    }
    open_both(SELKAVORN_ORDER_DEPTH);
    feed_entries(2, 2, ALL, SELKAVORN_FIELDS, 0, "268 above its entries");
    feed_entries(2, 0, ALL, SELKAVORN_FIELDS, 0, "268 below its entries");
    feed(&first, SELKAVORN_FIELDS, 0, "48 in the head", "35=X|34=2|" AT "48=7|268=1|" ALL);
    end();
}

/* Entries that empty all books. */
static const char *const good_entries[] = {
    ALL, "279=1|269=J|", "279=2|269=J|", "279=3|269=J|", "279=4|269=J|", "279=0|58=J|269=J|55=A|",
    "279=0|269=J|290=0|270=x|271=0|37=A B|346=0|272=x|273=x|", "279=0|290=1|269=J|"};

/* Entries that leave the books of 7 and 9. */
static const char *const passed_entries[] = {
    "279=0|269=2|", "279=0|269=JJ|", "279=0|269=j|", "279=0|269=00|22=9|", "279=0|269=2|48=7|22=8|",
    EMPTY_OF("55"), EMPTY_OF("55") "207=BVMF|"};

static void test_all_read(void)
{
    static const char types[] = "0fyB";
    begin("J of all instruments as it is read");
    for (size_t i = 0; i < sizeof good_entries / sizeof *good_entries; i++) {
        open_both(SELKAVORN_ORDER_DEPTH);
        feed_entries(2, 1, good_entries[i], SELKAVORN_DONE, 0, good_entries[i]);
        check_emptied(7, 2, good_entries[i]);
        check_emptied(9, 2, good_entries[i]);
    }
    open_both(SELKAVORN_ORDER_DEPTH);
    int number = 2;
    for (size_t i = 0; i < sizeof passed_entries / sizeof *passed_entries; i++)
        feed_entries(number++, 1, passed_entries[i], SELKAVORN_DONE, 0, passed_entries[i]);
    for (int i = 0; types[i] != '\0'; i++)
        feed(&first, SELKAVORN_DONE, 0, "another type", "35=%c|34=%d|" AT "268=1|" ALL, types[i],
             number++);
    feed_entries(1, 1, ALL, SELKAVORN_OLD, 0, "an old one");
    feed_entries(number - 1, 1, ALL, SELKAVORN_OLD, 0, "the last number again");
    check_kept(7, "7 has its book");
    check_kept(9, "9 has its book");
    open_fresh(&first, SELKAVORN_ORDER_DEPTH);
    feed(&first, SELKAVORN_TAKEN, 1, "J in a W is passed over",
         "35=W|34=1|" AT "48=7|22=8|369=0|911=2|268=3|269=J|269=0|" VALUES "269=J|");
    check_standing(7, live_with_bid, "the bid of the W");
    feed(&first, SELKAVORN_FIELDS, 1, "J in a W, with 48",
         "35=W|34=1|" AT "48=9|22=8|369=0|911=2|268=1|269=J|48=9|22=8|");
    feed(&first, SELKAVORN_FIELDS, 1, "J in a W, with 22",
         "35=W|34=1|" AT "48=9|22=8|369=0|911=2|268=1|269=J|22=8|");
    end();
}

/* Where in its message a J of all stands, beside a break or entries of the same books. */
static void test_all_in_message(void)
{
    static const struct standing no_place = {1, SELKAVORN_REASON_PLACE, 0};
    begin("J of all instruments within a message");
    open_both(SELKAVORN_ORDER_DEPTH);
    feed_entries(2, 2, NO_PLACE_OF("7") ALL, SELKAVORN_DONE, 1, "a break before it");
    check_standing(7, no_place, "7 stays Waiting, with its reason");
    check_emptied(9, 2, "9 is emptied");
    check_summary(2, 20250103, 130007125, 2, 1, "none waited before: B is H");
    check_equal(store_of(&first)[QUEUED_AT], 0, "nothing is queued");
    feed_entries(3, 3, BID_OF("9") ALL BID_OF("9"), SELKAVORN_DONE, 1, "7 waits");
    check_standing(7, no_place, "Waiting, with its reason, as before");
    check_standing(9, live_with_bid, "9 has the bid behind it");
    check_summary(3, 20250103, 130007125, 2, 1, "B stays");
    check_equal(store_of(&first)[QUEUED_AT], 3, "three entries are queued");
    open_both(SELKAVORN_ORDER_DEPTH);
    feed_entries(2, 2, ALL "279=2|269=1|48=9|22=8|290=1|", SELKAVORN_DONE, 1, "a break behind it");
    check_emptied(7, 2, "7 is emptied");
    check_standing(9, no_place, "9 has no place to delete");
    open_both(SELKAVORN_ORDER_DEPTH);
    feed_entries(2, 3, NO_PLACE_OF("7") ALL BID_OF("7"), SELKAVORN_DONE, 1, "and entries of 7");
    check_standing(7, no_place, "the rest of the message is passed over for 7");
    open_both(SELKAVORN_ORDER_DEPTH);
    feed_entries(2, 4, BID_OF("7") ALL BID_OF("7") BID_OF("7"), SELKAVORN_DONE, 0, "between bids");
    check_standing(7, (struct standing){0, 0, 2}, "7 has what is behind it");
    check_emptied(9, 2, "9 is emptied");
    open_both(SELKAVORN_ORDER_DEPTH);
    feed_entries(2, 3, ALL BID_OF("7") ALL, SELKAVORN_DONE, 0, "one more behind them");
    check_emptied(7, 2, "7 is emptied again");
    check_emptied(9, 2, "9 is emptied again");
    open_both(SELKAVORN_ORDER_DEPTH);
    feed_entries(2, 2, ALL "279=0|269=0|48=9|22=8|270=1|271=1|37=A|" STAMP "290=2|",
                 SELKAVORN_DONE, 1, "new at place 2 behind it");
    check_standing(9, no_place, "9 has no place 1");
    open_fresh(&first, SELKAVORN_ORDER_DEPTH);
    feed_entries(1, 1, ALL, SELKAVORN_DONE, 2, "both wait");
    check_standing(7, waits, "7 waits on");
    check_summary(1, 20250103, 130007125, 0, 3, "B stays");
    check_equal(quote(&first, 7, "20250103-13:00:07.125", 0, 17), SELKAVORN_WAITING, "no quote");
    open_both(SELKAVORN_ORDER_DEPTH);
    feed_entries(5, 1, ALL, SELKAVORN_GAP, 2, "a gap");
    check_summary(5, 20250103, 130007125, 4, 3, "all wait");
    check_equal(store_of(&first)[QUEUED_AT], 1, "it is queued");
    make_bids(4, 2);
    feed_made(&first, SELKAVORN_TAKEN, 1, "a snapshot of before the gap's message");
    check_standing(7, live, "it is emptied");
    end();
}

/* Makes an X with that many J of all. */
static void make_alls(int number, int entries)
{
    char text[MESSAGE_ROOM / 2] = "";
    for (int i = 0; i < entries; i++)
        strcat(text, ALL);
    make("35=X|34=%d|" LATER "268=%d|%s", number, entries, text);
}

/* Opens the first board for 7, 8 and 9, which all wait, and queues that many J of 7, 193 to 256,
 * in messages 1 to 4. */
static void open_queued(int entries)
{
    static const uint64_t ids[] = {7, 8, 9};
    fresh(&first);
    check_equal(open_board(&first, SELKAVORN_ORDER_DEPTH, ids, 3), SELKAVORN_DONE, "opening");
    for (int number = 1; number <= 4; number++) {
        make_empties(number, number < 4 ? 64 : entries - 3 * 64);
        feed_made(&first, SELKAVORN_DONE, 3, "they join");
    }
    check_equal(store_of(&first)[QUEUED_AT], (uint64_t)entries, "so many are queued");
}

/* Feeds message 5 to a board that waits. So many entries must be queued after it; none where the
 * queue is let go. */
static void check_joins(int count, const char *entries, uint64_t queued, const char *what)
{
    feed_entries(5, count, entries, queued == 0 ? SELKAVORN_LET_GO : SELKAVORN_DONE, 3, what);
    check_equal(store_of(&first)[QUEUED_AT], queued, what);
    check_summary(5, 20250103, 130007125, queued == 0 ? 5 : 0, 7, what);
}

static void test_all_queued(void)
{
    static const uint64_t slot[SLOT_NUMBERS] = {6, 0, 3};
    begin("J of all instruments in the queue");
    open_queued(QUEUE - 2);
    check_joins(1, ALL, QUEUE - 1, "the 255th");
    open_queued(QUEUE - 1);
    check_joins(1, ALL, QUEUE, "the 256th");
    feed(&first, SELKAVORN_DONE, 3, "256 stay", HEARTBEAT, 6);
    feed(&first, SELKAVORN_SNAPSHOT_UNFOLLOWED, 0, "all replay from 4 on",
         "35=W|34=1|" AT "48=55|22=8|369=4|911=1|268=0|");
    open_queued(QUEUE);
    check_joins(1, ALL, 0, "the 257th");
    feed(&first, SELKAVORN_SNAPSHOT_BELOW, 3, "B is 5", EMPTY_W, 7, 4);
    open_queued(QUEUE - 1);
    check_joins(2, ALL ALL, 0, "the 256th and the 257th");
    open_queued(QUEUE - 2);
    check_joins(2, ALL ALL, QUEUE, "the 255th and the 256th");
    open_queued(QUEUE - 1);
    check_joins(3, "279=0|269=2|" ALL EMPTY_OF("55"), QUEUE, "others that are passed over");
    open_queued(QUEUE - 2);
    check_joins(2, BID_OF("8") ALL, QUEUE, "a bid and then it");
    open_fresh(&first, SELKAVORN_ORDER_DEPTH);
    for (int number = 1; number <= 4; number++) {
        make_alls(number, 64);
        feed_made(&first, SELKAVORN_DONE, 2, "64 of them join");
    }
    check_equal(store_of(&first)[QUEUED_AT], QUEUE, "256 of them are queued");
    make_alls(5, 1);
    feed_made(&first, SELKAVORN_LET_GO, 2, "257 of them are let go");
    open_with_book(&first);
    for (int number = 2; number <= 4; number++) {
        make_alls(number, 64);
        feed_made(&first, SELKAVORN_DONE, 1, "9 waits");
    }
    feed_entries(5, 1, BID_OF("7"), SELKAVORN_DONE, 1, "7 has a bid");
    make_alls(6, 64);
    feed_made(&first, SELKAVORN_LET_GO, 1, "64 more are let go");
    check_emptied(7, 6, "7 is emptied all the same");
    open_options();
    feed_entries(6, 1, ALL, SELKAVORN_DONE, 3, "alone in its message");
    check_equal(store_of(&first)[QUEUED_AT], 3, "it is queued behind the two bids");
    for (size_t i = 0; i < SLOT_NUMBERS; i++)
        check_equal(store_of(&first)[QUEUE_AT + 2 * SLOT_NUMBERS + i], slot[i], "its slot");
    open_both(SELKAVORN_ORDER_DEPTH);
    feed_entries(2, 1, ALL, SELKAVORN_DONE, 0, "none waits");
    check_equal(store_of(&first)[QUEUED_AT], 0, "it is not queued");
    end();
}

/* Whoever takes a snapshot with S below its number meets it. */
static void check_all_replayed(uint64_t depth)
{
    for (int last = 0; last <= 3; last++)
        for (int other_last = 0; other_last <= 3; other_last++) {
            open_fresh(&first, depth);
            feed(&first, SELKAVORN_DONE, 2, "1", HEARTBEAT, 1);
            feed_entries(2, 1, ALL, SELKAVORN_DONE, 2, "2, alone in its message");
            feed(&first, SELKAVORN_DONE, 2, "3", HEARTBEAT, 3);
            make_turn(1, 2, 9, last, 2);
            feed_made(&first, SELKAVORN_TAKEN, 1, "9 is taken");
            check_standing(9, (struct standing){0, 0, last < 2 ? 0 : 2}, "emptied if S is below 2");
            make_turn(1, 2, 7, other_last, 3);
            feed_made(&first, SELKAVORN_TAKEN, 0, "7 is taken");
            check_standing(7, (struct standing){0, 0, other_last < 2 ? 0 : 3}, "and so is 7");
            check_standing(9, (struct standing){0, 0, last < 2 ? 0 : 2}, "9 stays");
        }
    open_options_of(depth);
    feed_entries(6, 3, BID_OF("7") ALL BID_OF("9"), SELKAVORN_DONE, 3, "between two bids");
    make_turn(1, 2, 7, 5, 5);
    feed_made(&first, SELKAVORN_TAKEN, 2, "7 is taken");
    check_standing(7, live, "7: what was before it is gone");
    make_turn(1, 2, 9, 5, 5);
    feed_made(&first, SELKAVORN_TAKEN, 1, "9 is taken");
    check_standing(9, live_with_bid, "9: what came behind it is there");
    make_turn(1, 2, 8, 6, 5);
    feed_made(&first, SELKAVORN_TAKEN, 0, "8 is taken at its number");
    check_standing(8, (struct standing){0, 0, 5}, "8: the snapshot has it already");
    open_options_of(depth);
    feed_entries(6, 2, NO_PLACE_OF("7") ALL, SELKAVORN_DONE, 3, "what does not fit, before it");
    make_turn(1, 2, 7, 5, 2);
    feed_made(&first, SELKAVORN_REPLAY_BROKE, 3, "the replay breaks before it");
    feed_entries(7, 1, "279=2|269=0|48=8|22=8|290=1|", SELKAVORN_DONE, 3, "a delete behind it");
    make_turn(1, 2, 8, 5, 2);
    feed_made(&first, SELKAVORN_REPLAY_BROKE, 3, "the replay breaks behind it");
    check_standing(8, (struct standing){1, SELKAVORN_REASON_PLACE, 0}, "8 has no place to delete");
    make_turn(1, 2, 8, 6, 2);
    feed_made(&first, SELKAVORN_TAKEN, 2, "from 6 on it fits");
    check_standing(8, live_with_bid, "8 has one bid of two");
    open_options_of(depth);
    feed_entries(6, 1, ALL, SELKAVORN_DONE, 3, "a place for 20 more");
    make_turn(1, 2, 9, 4, 20);
    feed_made(&first, SELKAVORN_REPLAY_BROKE, 3, "no room before it");
    check_standing(9, (struct standing){1, SELKAVORN_REASON_NO_ROOM, 0}, "9 has no room");
    feed_entries(7, 1, BID_OF("9"), SELKAVORN_DONE, 3, "a bid of 9");
    make_turn(1, 2, 9, 5, 20);
    feed_made(&first, SELKAVORN_TAKEN, 2, "room behind it");
    check_standing(9, live_with_bid, "9 has the last bid");
    open_options_of(depth);
    feed_entries(6, 1, ALL, SELKAVORN_DONE, 3, "before the end of a loop");
    feed_entries(7, 1, BID_OF("9"), SELKAVORN_DONE, 3, "a bid of 9");
    feed_turn(1, 1, OTHER, 2, SELKAVORN_SNAPSHOT_UNFOLLOWED, 0, "the loop is whole");
    check_standing(7, live, "7 is empty");
    check_standing(8, live, "8: its bid of 4 is gone");
    check_standing(9, live_with_bid, "9: its bid of 7 is there");
    open_options_of(depth);
    feed_entries(6, 1, ALL, SELKAVORN_DONE, 3, "before the end of a loop");
    feed_entries(7, 1, "279=1|269=0|48=8|22=8|" VALUES, SELKAVORN_DONE, 3, "a change of 8");
    feed_turn(1, 1, OTHER, 3, SELKAVORN_SNAPSHOT_UNFOLLOWED, 1, "the loop is whole");
    check_standing(8, (struct standing){1, SELKAVORN_REASON_PLACE, 0}, "8: its bid of 4 is gone");
    check_standing(9, live, "9: its bid of 5 too");
}

static void test_all_replayed(void)
{
    begin("J of all instruments in replays");
    for (uint64_t depth = 0; depth < 2; depth++)
        check_all_replayed(depth);
    end();
}

/* 7 is Live and breaks before the J, in its message, while 9 waits: B stays, the J is queued, and
 * whatever 7 takes from before it meets it. */
static void check_all_broken(uint64_t depth)
{
    static const struct standing no_room = {1, SELKAVORN_REASON_NO_ROOM, 0};
    static const uint64_t slot[SLOT_NUMBERS] = {2, 0, 3};
    for (int last = 0; last <= 2; last++) {
        open_fresh(&first, depth);
        feed(&first, SELKAVORN_TAKEN, 1, "7 at 369 = 0", EMPTY_W, 7, 0);
        feed_entries(1, 2, BID_OF("7") OFFER_OF("7"), SELKAVORN_DONE, 1, "7 has a book");
        feed_entries(2, 3, NO_PLACE_OF("7") ALL BID_OF("7"), SELKAVORN_DONE, 2, "7 breaks");
        check_standing(7, (struct standing){1, SELKAVORN_REASON_PLACE, 0}, "7 waits");
        check_standing(9, waits, "9 waits as before");
        check_summary(2, 20250103, 130007125, 0, 3, "B stays");
        check_equal(store_of(&first)[QUEUED_AT], 5, "all five entries are queued");
        for (size_t i = 0; i < SLOT_NUMBERS; i++)
            check_equal(store_of(&first)[QUEUE_AT + 3 * SLOT_NUMBERS + i], slot[i], "its slot");
        make_turn(1, 2, 7, last, 9);
        feed_made(&first, SELKAVORN_TAKEN, 1, "9 bids, of which the last is deleted");
        check_standing(7, (struct standing){0, 0, last < 2 ? 1 : 9}, "the bid behind it alone");
        make_turn(1, 2, 9, last, 2);
        feed_made(&first, SELKAVORN_TAKEN, 0, "9 is taken");
        check_standing(9, (struct standing){0, 0, last < 2 ? 0 : 2}, "9 meets it too");
    }
    open_fresh(&first, depth);
    make_turn(1, 2, 7, 0, 20);
    feed_made(&first, SELKAVORN_TAKEN, 1, "7 has 20 bids");
    feed(&first, SELKAVORN_DONE, 1, "1", HEARTBEAT, 1);
    feed_entries(2, 2, BID_OF("7") ALL, SELKAVORN_DONE, 2, "no room before it");
    check_standing(7, no_room, "7 waits");
    check_summary(2, 20250103, 130007125, 0, 3, "B stays");
    check_equal(store_of(&first)[QUEUED_AT], 2, "the bid and the J are queued");
    feed_turn(1, 1, OTHER, 1, SELKAVORN_SNAPSHOT_UNFOLLOWED, 0, "the loop is whole");
    check_emptied(7, 2, "7: the bid before it is gone");
    check_emptied(9, 2, "9 is empty");
}

static void test_all_broken(void)
{
    begin("J of all instruments behind a break");
    for (uint64_t depth = 0; depth < 2; depth++)
        check_all_broken(depth);
    end();
}

/* Numbers of the slot of a J of all, which is queued alone, and whether the store is then sound. */
static const struct {
    const char *what;
    size_t at;
    uint64_t value;
    bool sound;
} slots[] = {{"as it is", 2, 3, true},
             {"its instrument is 1", 1, 1, false},
             {"its instrument is 15", 1, 15, false},
             {"its instrument is far above", 1, UINT64_MAX, false},
             {"a J of the first instrument", 2, 2, true},
             {"a bid without a place", 2, 0, false},
             {"what is 4", 2, 4, false},
             {"what is 5", 2, 5, false},
             {"what is 259", 2, 259, false},
             {"what is far above", 2, UINT64_MAX, false},
             {"an action", 3, 1, false},
             {"a place", 4, 1, false},
             {"a price", 5, 1, false},
             {"a size", 6, 1, false},
             {"an order", 7, 1, false},
             {"more of it", 8, 1, false},
             {"a moment", 9, 1, false},
             {"the spare number", 10, 1, false},
             {"a number above H", 0, 2, false},
             {"a number of B", 0, 0, false}};

static void check_all_store(uint64_t depth)
{
    static const char *const before[] = {EMPTY_OF("7"), EMPTY_OF("9"), BID_OF("7"), ALL};
    for (size_t i = 0; i < sizeof slots / sizeof *slots; i++) {
        open_fresh(&first, depth);
        feed_entries(1, 1, ALL, SELKAVORN_DONE, 2, "it is queued");
        store_of(&first)[QUEUE_AT + slots[i].at] = slots[i].value;
        if (slots[i].sound)
            feed(&first, SELKAVORN_DONE, 2, slots[i].what, HEARTBEAT, 2);
        else
            check_refused_store(slots[i].what);
    }
    open_fresh(&first, depth);
    feed_entries(1, 1, EMPTY_OF("9"), SELKAVORN_DONE, 2, "a J of the second instrument");
    check_equal(store_of(&first)[QUEUE_AT + 1], 1, "its instrument");
    check_equal(store_of(&first)[QUEUE_AT + 2], 2, "it is of one");
    store_of(&first)[QUEUE_AT + 2] = 3;
    check_refused_store("a J of all with an instrument");
    open_fresh(&first, depth);
    feed_entries(1, 1, ALL, SELKAVORN_DONE, 2, "it is queued");
    store_of(&first)[QUEUE_AT + SLOT_NUMBERS + 2] = 3;
    check_refused_store("a slot that is not used");
    for (size_t i = 0; i < sizeof before / sizeof *before; i++) {
        open_fresh(&first, depth);
        feed(&first, SELKAVORN_DONE, 2, "1", HEARTBEAT, 1);
        feed_entries(2, 1, before[i], SELKAVORN_DONE, 2, "an entry of 2");
        feed_entries(3, 1, ALL, SELKAVORN_DONE, 2, "it is queued behind it");
        store_of(&first)[QUEUE_AT + SLOT_NUMBERS] = 2;
        check_summary(3, 20250103, 130007125, 0, 3, "the number of the entry before it");
        store_of(&first)[QUEUE_AT + SLOT_NUMBERS] = 1;
        check_refused_store("a number below the entry before it");
    }
}

static void test_all_store(void)
{
    begin("store with a J of all instruments");
    for (uint64_t depth = 0; depth < 2; depth++)
        check_all_store(depth);
    end();
}

/* ---- digits ---- */

/* A value of n digits is the first n of a run. */
static const char *const runs[] = {"12345678901234567890", "99999999999999999999",
                                   "10000000000000000000"};
static const char with_zeros[] = "01020304050607080900"; /* for prices: they may begin with 0 */
enum { RUNS = sizeof runs / sizeof *runs, MOST_DIGITS = 20 };

/* Bytes that come into the place of one of a value. */
struct instead {
    const char *bytes;
    size_t n;
};

/* The digits, what stands about them in ASCII, what shares one half of its bits with them, and
 * bytes that end a text, a field or a tag. */
static const char near_bytes[] = "\000\001 +,-./0123456789:;<=>?@p|\200"
                                 "\260\261\262\263\264\265\266\267\270\271\377";
static const struct instead near_digits = {near_bytes, sizeof near_bytes - 1}, none_other = {"", 0};

static struct instead every_byte(void)
{
    static char every[256];
    for (int i = 0; i < 256; i++)
        every[i] = (char)i;
    return (struct instead){every, sizeof every};
}

/* A value that is read as digits, or a tag: where it stands in a message, which texts are good
 * there, and what the message is answered with a good one. */
struct value {
    const char *name, *body; /* %.*s stands for the value */
    const char *low, *high;
    bool (*good)(const uint8_t *text, size_t n); /* NULL: a whole number from low to high */
    uint64_t depth;                              /* left out: SELKAVORN_ORDER_DEPTH */
    uint64_t answer;                             /* left out: SELKAVORN_DONE */
    bool is_tag;
};

static bool are_digits(const uint8_t *text, size_t n)
{
    bool good = n > 0;
    for (size_t i = 0; i < n; i++)
        good = good && text[i] >= '0' && text[i] <= '9';
    return good;
}

/* Whether one whole number is less than another, by their texts alone. */
static bool is_less(const void *one, size_t one_n, const void *other, size_t other_n)
{
    return one_n < other_n || (one_n == other_n && memcmp(one, other, one_n) < 0);
}

/* Whole numbers have no leading zero, except 0 itself. */
static bool is_whole(const uint8_t *text, size_t n, const char *low, const char *high)
{
    return are_digits(text, n) && (n == 1 || text[0] != '0') &&
           !is_less(text, n, low, strlen(low)) && !is_less(high, strlen(high), text, n);
}

/* An optional minus, 1 to 9 digits, then nothing or a point and 1 to 8 digits. */
static bool is_price(const uint8_t *text, size_t n)
{
    const size_t minus = n > 0 && text[0] == '-' ? 1 : 0;
    const uint8_t *units = text + minus, *point = memchr(units, '.', n - minus);
    if (point == NULL)
        return are_digits(units, n - minus) && n - minus <= 9;
    const size_t units_n = (size_t)(point - units), decimals_n = n - minus - units_n - 1;
    return are_digits(units, units_n) && units_n <= 9 && are_digits(point + 1, decimals_n) &&
           decimals_n <= 8;
}

/* The number that two digits write. */
static int pair(const uint8_t *text)
{
    return 10 * (text[0] - '0') + text[1] - '0';
}

/* YYYYMMDD, a Gregorian date. */
static bool is_date(const uint8_t *text, size_t n)
{
    static const int days[] = {31, 28, 31, 30, 31, 30, 31, 31, 30, 31, 30, 31};
    if (n != 8 || !are_digits(text, n))
        return false;
    const int year = 100 * pair(text) + pair(text + 2), month = pair(text + 4);
    const int day = pair(text + 6);
    const bool leap = year % 4 == 0 && (year % 100 != 0 || year % 400 == 0);
    return month >= 1 && month <= 12 && day >= 1 && day <= days[month - 1] + (leap && month == 2);
}

/* HH:MM:SS with or without .sss; hours to 23, minutes to 59, seconds to 60. */
static bool is_time(const uint8_t *text, size_t n)
{
    if (n != 8 && n != 12)
        return false;
    if (n == 12 && (text[8] != '.' || !are_digits(text + 9, 3)))
        return false;
    return are_digits(text, 2) && text[2] == ':' && are_digits(text + 3, 2) && text[5] == ':' &&
           are_digits(text + 6, 2) && pair(text) <= 23 && pair(text + 3) <= 59 &&
           pair(text + 6) <= 60;
}

static bool is_moment(const uint8_t *text, size_t n)
{
    return n > 9 && is_date(text, 8) && text[8] == '-' && is_time(text + 9, n - 9);
}

/* A tag goes up to its '='; 8, 9, 35, 10, 34 and 52 must not stand again. */
static uint64_t wanted_tag(const struct value *value, const uint8_t *text, size_t n)
{
    static const char *const once[] = {"8", "9", "10", "34", "35", "52"};
    const uint8_t *equals = memchr(text, '=', n);
    const size_t tag_n = equals == NULL ? n : (size_t)(equals - text);
    bool again = false;
    for (size_t i = 0; i < sizeof once / sizeof *once; i++)
        again = again || (tag_n == strlen(once[i]) && memcmp(text, once[i], tag_n) == 0);
    if (!is_whole(text, tag_n, value->low, value->high))
        return SELKAVORN_FRAME;
    return again ? SELKAVORN_FIELDS : value->answer;
}

/* What a message with this text there must be answered. A value has at least one byte and ends with
 * its SOH; what stands behind one here is no field. */
static uint64_t wanted(const struct value *value, const uint8_t *text, size_t n)
{
    if (value->is_tag)
        return wanted_tag(value, text, n);
    if (n == 0 || memchr(text, 1, n) != NULL)
        return SELKAVORN_FRAME;
    const bool good = value->good != NULL ? value->good(text, n)
                                          : is_whole(text, n, value->low, value->high);
    return good ? value->answer : SELKAVORN_FIELDS;
}

/* Gives the message that was made last the right sum. */
static void mend_sum(void)
{
    const size_t sum_at = message_n - strlen("000|");
    snprintf((char *)message + sum_at, MESSAGE_ROOM - sum_at, "%03u\001",
             sum_of(message, sum_at - strlen("10=")));
}

/* Feeds the first board, whose two instruments wait, the message that was made last; what it
 * changes is undone. */
static void feed_undone(uint64_t answer, const char *what)
{
    feed_made(&first, answer, 2, what);
    memcpy(first.area, first.before, sizeof first.area);
}

/* Gives what stands behind tag 9 in the message that was made last. */
static uint8_t *after_count(void)
{
    uint8_t *count = (uint8_t *)memchr(message, 1, message_n) + 1;
    return (uint8_t *)memchr(count, 1, message_n) + 1;
}

/* Feeds a text as a value, then with each of these bytes at each of its places. */
static void check_text(const struct value *value, const char *text, size_t n,
                       struct instead instead)
{
    make(value->body, (int)n, text);
    uint8_t *at = after_count() + (strchr(value->body, '%') - value->body);
    feed_undone(wanted(value, at, n), value->name);
    for (size_t i = 0; i < n; i++) {
        for (size_t j = 0; j < instead.n; j++) {
            at[i] = (uint8_t)instead.bytes[j];
            mend_sum();
            feed_undone(wanted(value, at, n), value->name);
        }
        at[i] = (uint8_t)text[i];
    }
}

#define X_OF "35=X|34=1|" AT "268=1|"
#define SIDE_OF(id) "279=0|269=0|48=" id "|22=8|"
#define TWELVE(entry) entry entry entry entry entry entry entry entry entry entry entry entry
#define PASSED "279=0|269=2|"
#define HIGHEST_ID "999999999999999999"
#define HIGHEST_NUMBER "4294967295"
#define W_OF(number, last, reports)                                                                \
    "35=W|34=" number "|" AT "48=55|22=8|369=" last "|911=" reports "|268=0|"
#define FROM(lowest, highest) .low = lowest, .high = highest

static const struct value wholes[] = {
    {"48", X_OF BID_OF("%.*s"), FROM("1", HIGHEST_ID)},
    {"48 of a J", X_OF EMPTY_OF("%.*s"), FROM("1", HIGHEST_ID)},
    {"271", X_OF SIDE_OF("55") "270=1|271=%.*s|37=A|" STAMP "290=1|", FROM("1", "999999999999")},
    {"290", X_OF "279=2|269=0|48=55|22=8|290=%.*s|", FROM("1", "65535")},
    {"346", X_OF SIDE_OF("55") "270=1|271=1|346=%.*s|" STAMP "290=1|", FROM("1", "65535"),
     .depth = SELKAVORN_PRICE_DEPTH},
    {"279", X_OF "279=%.*s|269=2|", FROM("0", "4")},
    {"268 of none", "35=X|34=1|" AT "268=%.*s|", FROM("0", "0")},
    {"268 of 12", "35=X|34=1|" AT "268=%.*s|" TWELVE(PASSED), FROM("12", "12")},
    {"34", W_OF("%.*s", "0", "2"), FROM("1", HIGHEST_NUMBER),
     .answer = SELKAVORN_SNAPSHOT_UNFOLLOWED},
    {"369", W_OF("1", "%.*s", "2"), FROM("0", HIGHEST_NUMBER),
     .answer = SELKAVORN_SNAPSHOT_UNFOLLOWED},
    {"911", W_OF("2", "0", "%.*s"), FROM("1", HIGHEST_NUMBER),
     .answer = SELKAVORN_SNAPSHOT_UNFOLLOWED}};

/* Every length up to two digits past the highest number's, with near misses. */
static void check_whole(const struct value *value)
{
    const size_t most = strlen(value->high) + 2;
    open_fresh(&first, value->depth);
    for (size_t run = 0; run < RUNS; run++)
        for (size_t n = 0; n <= most; n++)
            check_text(value, runs[run], n, near_digits);
    check_text(value, value->high, strlen(value->high), near_digits);
    check_text(value, value->low, strlen(value->low), near_digits);
}

static void test_wholes(void)
{
    begin("digits of whole numbers");
    for (size_t i = 0; i < sizeof wholes / sizeof *wholes; i++)
        check_whole(&wholes[i]);
    open_fresh(&first, wholes[0].depth);
    for (size_t n = 0; n <= MOST_DIGITS; n++)
        check_text(&wholes[0], runs[0], n, every_byte());
    end();
}

static void test_tags(void)
{
    static const struct value tag = {
        "a tag", "35=0|34=1|" AT "%.*s=x|", FROM("1", "99999"), .is_tag = true};
    begin("digits of tags");
    open_fresh(&first, tag.depth);
    for (size_t run = 0; run < RUNS; run++)
        for (size_t n = 0; n <= 7; n++)
            check_text(&tag, runs[run], n, every_byte());
    end();
}

/* Writes a price with so many digits before the point and behind it; without decimals there is
 * no point. */
static void write_price(char *text, size_t room, const char *minus, int units, int decimals,
                        const char *run)
{
    snprintf(text, room, "%s%.*s%s%.*s", minus, units, run, decimals > 0 ? "." : "", decimals, run);
}

/* Prices of every shape up to one digit too many on each side of the point, with near misses where
 * one side has its fewest or its most. */
static void test_price_digits(void)
{
    static const struct value price = {
        "270", X_OF SIDE_OF("55") "270=%.*s|271=1|37=A|" STAMP "290=1|", .good = is_price};
    char text[2 * MOST_DIGITS];
    begin("digits of prices");
    open_fresh(&first, price.depth);
    for (int shape = 0; shape < 2 * 11 * 10; shape++) {
        const int units = shape / 2 % 11, decimals = shape / 22;
        const bool edge = units == 1 || units == 9 || decimals == 0 || decimals == 8;
        write_price(text, sizeof text, shape % 2 ? "-" : "", units, decimals, runs[0]);
        check_text(&price, text, strlen(text), edge ? near_digits : none_other);
    }
    end();
}

/* Moments, of which the first eight bytes are a date and those from the tenth on a time. */
static const char *const moments[] = {"20240229-23:59:60", "00000101-00:00:00.000",
                                      "99991231-19:09:59.999", "12341011-12:34:56.789"};
enum { MOMENTS = sizeof moments / sizeof *moments, DATE_LENGTH = 8, TIME_AT = 9 };

/* A text cut at every byte, with a digit too many, and whole with near misses. */
static void check_fixed(const struct value *value, const char *text, size_t n)
{
    char longer[2 * MOST_DIGITS];
    for (size_t cut = 0; cut < n; cut++)
        check_text(value, text, cut, none_other);
    snprintf(longer, sizeof longer, "%.*s0", (int)n, text);
    check_text(value, longer, n + 1, none_other);
    check_text(value, text, n, near_digits);
}

static void test_fixed_digits(void)
{
    static const struct value moment = {"52", "35=0|34=1|52=%.*s|", .good = is_moment};
    static const struct value date = {
        "272", X_OF SIDE_OF("55") "270=1|271=1|37=A|272=%.*s|273=12:00:00|290=1|",
        .good = is_date};
    static const struct value time = {
        "273", X_OF SIDE_OF("55") "270=1|271=1|37=A|272=20250103|273=%.*s|290=1|",
        .good = is_time};
    begin("digits of dates and times");
    open_fresh(&first, SELKAVORN_ORDER_DEPTH);
    for (size_t i = 0; i < MOMENTS; i++) {
        check_fixed(&moment, moments[i], strlen(moments[i]));
        check_fixed(&date, moments[i], DATE_LENGTH);
        check_fixed(&time, moments[i] + TIME_AT, strlen(moments[i] + TIME_AT));
    }
    end();
}

/* Asks for a quote and a writing at a moment: its last digits lie where memory ends. */
static void check_moment(const char *text)
{
    const bool good = is_moment((const uint8_t *)text, strlen(text));
    const struct writing w = {7, "S", "Y", 1, 1, text, BYTES_ROOM};
    check((quote(&first, 7, text, 30, 17) == SELKAVORN_ARGUMENT) != good, text);
    check_equal(SELKAVORN_ANSWER(write_book(&first, w)), good ? SELKAVORN_DONE : SELKAVORN_ARGUMENT,
                text);
}

/* A moment cut at every byte, whole with near misses but for the byte that ends a C string, and
 * with a digit too many. */
static void check_moments(const char *moment)
{
    char text[2 * MOST_DIGITS];
    for (size_t n = 0; n <= strlen(moment); n++) {
        snprintf(text, sizeof text, "%.*s", (int)n, moment);
        check_moment(text);
    }
    for (size_t i = 0; moment[i] != '\0'; i++) {
        for (size_t j = 1; j < near_digits.n; j++) {
            text[i] = near_digits.bytes[j];
            check_moment(text);
        }
        text[i] = moment[i];
    }
    snprintf(text, sizeof text, "%s0", moment);
    check_moment(text);
}

static void test_lent_moments(void)
{
    begin("digits of lent moments");
    open_with_book(&first);
    for (size_t i = 0; i < MOMENTS; i++)
        check_moments(moments[i]);
    end();
}

/* Feeds the message that was made last with every byte at each of these places, where one text
 * alone is right; three other digits of tag 10 are another sum. */
static void check_every(uint8_t *at, size_t n, uint64_t right, bool of_sum)
{
    for (size_t i = 0; i < n; i++) {
        const uint8_t kept = at[i];
        for (int byte = 0; byte < 256; byte++) {
            const bool another_sum = of_sum && byte >= '0' && byte <= '9';
            at[i] = (uint8_t)byte;
            if (!of_sum)
                mend_sum();
            feed_undone(byte == kept ? right : another_sum ? SELKAVORN_CHECKSUM : SELKAVORN_FRAME,
                        of_sum ? "10" : "9");
        }
        at[i] = kept;
    }
    mend_sum();
}

#define BEFORE_COUNT "8=FIX.4.4\0019="

/* The digits of 9 and 10 in the message that was made last, which must be answered so; then the
 * message ends inside its 9 or behind it, where memory does. */
static void check_ends(uint64_t right)
{
    uint8_t *count = message + strlen(BEFORE_COUNT);
    const size_t behind = (size_t)(after_count() - message);
    check_every(count, behind - 1 - strlen(BEFORE_COUNT), right, false);
    check_every(message + message_n - strlen("000|"), 3, right, true);
    for (size_t n = 0; n <= behind; n++)
        check_equal(feed_bytes(&first, message, n), SELKAVORN_FRAME + 2 * 256, "cut short");
}

/* Makes the shortest message with these texts in 9 and 10. */
static void make_ends(const char *count, const char *sum)
{
    message_n = (size_t)snprintf((char *)message, MESSAGE_ROOM,
                                 BEFORE_COUNT "%s\00135=0\00110=%s\001", count, sum);
}

static void test_end_digits(void)
{
    static const char *const counts[] = {"",      "05",    "005",    "0005",      "00005",
                                         "50005", "65541", "000005", "4294967301"};
    static const char *const sums[] = {"", "1", "16", "63", "0163", "1630", "00000163"};
    begin("digits of 9 and 10");
    open_fresh(&first, SELKAVORN_ORDER_DEPTH);
    for (size_t i = 0; i < sizeof counts / sizeof *counts; i++) {
        make_ends(counts[i], "000");
        mend_sum();
        feed_undone(SELKAVORN_FRAME, counts[i]);
    }
    for (size_t i = 0; i < sizeof sums / sizeof *sums; i++) {
        make_ends("5", sums[i]);
        feed_undone(SELKAVORN_FRAME, sums[i]);
    }
    make_ends("5", "163");
    check_ends(SELKAVORN_FIELDS);
    make(HEARTBEAT, 1);
    check_ends(SELKAVORN_DONE);
    make(TEXT, 1, 100, 0);
    check_ends(SELKAVORN_DONE);
    make(TEXT, 1, 1000, 0);
    check_ends(SELKAVORN_DONE);
    end();
}

/* The number that the first digits of a run write. */
static uint64_t number_of(const char *run, int n)
{
    char text[MOST_DIGITS + 1];
    snprintf(text, sizeof text, "%.*s", n, run);
    return strtoull(text, NULL, 10);
}

/* 16 instruments whose ids have `shortest` digits and more: each gets a bid of its own, whose size
 * has 1 to 12 digits, and is written with its own id. */
static void check_ids(const char *run, int shortest)
{
    uint64_t ids[16];
    char field[40];
    for (int i = 0; i < 16; i++)
        ids[i] = number_of(run, shortest + i);
    fresh(&first);
    check_equal(open_board(&first, SELKAVORN_ORDER_DEPTH, ids, 16), SELKAVORN_DONE, "opening");
    for (int i = 0; i < 16; i++)
        feed(&first, SELKAVORN_TAKEN, (uint64_t)(15 - i), "an id",
             "35=W|34=1|" AT "48=%.*s|22=8|369=0|911=2|268=0|", shortest + i, run);
    for (int i = 0; i < 16; i++)
        feed(&first, SELKAVORN_DONE, 0, "a bid of each",
             "35=X|34=%d|" AT "268=1|" SIDE_OF("%.*s") "270=1|271=%.*s|37=A|" STAMP "290=1|", i + 1,
             shortest + i, run, i % 12 + 1, run);
    for (int i = 0; i < 16; i++) {
        const struct writing w = {ids[i], "S", "Y", 1, 2, moments[0], BYTES_ROOM};
        check_equal(quote(&first, ids[i], "20250103-13:00:00", 0, 17), SELKAVORN_DONE, "an id");
        check_equal(numbers[SELKAVORN_QUOTE_BID + SELKAVORN_SIDE_SIZE], number_of(run, i % 12 + 1),
                    "a size");
        const size_t n = (size_t)SELKAVORN_LENGTH(write_book(&first, w));
        snprintf(field, sizeof field, "\00148=%.*s\001", shortest + i, run);
        check_equal(count_fields(bytes, n, field), 1, "the id is written");
    }
}

/* Every shape of a price, as 7's bid of a book that has no other. */
static void check_shapes(const char *run)
{
    char text[2 * MOST_DIGITS], parts[2 * MOST_DIGITS];
    open_fresh(&first, SELKAVORN_ORDER_DEPTH);
    feed(&first, SELKAVORN_TAKEN, 1, "369 = 0", EMPTY_W, 7, 0);
    for (int shape = 0; shape < 2 * 9 * 9; shape++) {
        const int units = shape / 2 % 9 + 1, decimals = shape / 18;
        const char *minus = shape % 2 ? "-" : "";
        write_price(text, sizeof text, minus, units, decimals, run);
        snprintf(parts, sizeof parts, "%s%.*s%.*s%.*s", minus, units, run, decimals, run,
                 SELKAVORN_PRICE_DECIMALS - decimals, "00000000");
        feed(&first, SELKAVORN_DONE, 1, text,
             "35=X|34=%d|" AT "268=1|279=%d|48=7|22=8|" PRICED, shape + 1, shape > 0, text);
        check_price(SELL, strtoll(parts, NULL, 10), text);
    }
}

/* 369 and 911 must come into the loop's record, 34 into the summary and 346 into the quote. */
static void check_number(uint64_t number, uint64_t orders)
{
    open_fresh(&first, SELKAVORN_PRICE_DEPTH);
    feed(&first, SELKAVORN_SNAPSHOT_UNFOLLOWED, 2, "369 and 911",
         "35=W|34=1|" AT "48=55|22=8|369=%" PRIu64 "|911=%" PRIu64 "|268=0|", number, number + 1);
    check_record((struct record){{number + 1, 1, number, 0}}, "369 and 911");
    feed(&first, number == 1 ? SELKAVORN_DONE : SELKAVORN_GAP, 2, "34",
         "35=0|34=%" PRIu64 "|" AT, number);
    check_summary(number, 20250103, 130000000, number == 1 ? 0 : number - 1, 3, "34");
    feed(&first, SELKAVORN_TAKEN, 1, "346",
         "35=W|34=1|" AT "48=7|22=8|369=%" PRIu64 "|911=2|268=1|"
         "269=0|270=1|271=1|346=%" PRIu64 "|" STAMP "290=1|", number, orders);
    check_equal(quote(&first, 7, "20250103-13:00:00", 0, 17), SELKAVORN_DONE, "346");
    check_equal(numbers[SELKAVORN_QUOTE_BID + SELKAVORN_SIDE_BY], orders, "346");
}

/* A moment as 52 must come into the summary, and as 272 and 273 of a bid into the quote. */
static void check_heard(const char *text)
{
    char digits[MOST_DIGITS];
    const char *time = text + TIME_AT, *parts = strlen(time) > 8 ? time + 9 : "000";
    snprintf(digits, sizeof digits, "%.2s%.2s%.2s%s", time, time + 3, time + 6, parts);
    open_fresh(&first, SELKAVORN_ORDER_DEPTH);
    feed(&first, SELKAVORN_DONE, 2, text, "35=0|34=1|52=%s|", text);
    check_summary(1, number_of(text, DATE_LENGTH), number_of(digits, 9), 0, 3, text);
    feed(&first, SELKAVORN_TAKEN, 1, text,
         "35=W|34=1|" AT "48=7|22=8|369=1|911=2|268=1|"
         "269=0|270=1|271=1|37=A|272=%.*s|273=%s|290=1|", DATE_LENGTH, text, time);
    check_equal(quote(&first, 7, text, 0, 17), SELKAVORN_DONE, text);
    check_equal(numbers[SELKAVORN_QUOTE_BID + SELKAVORN_SIDE_DATE], number_of(text, DATE_LENGTH),
                "272");
    check_equal(numbers[SELKAVORN_QUOTE_BID + SELKAVORN_SIDE_TIME], number_of(digits, 9), "273");
}

static void test_numbers_read(void)
{
    begin("digits as they are read");
    for (size_t run = 0; run < RUNS; run++) {
        check_ids(runs[run], 1);
        check_ids(runs[run], 3);
        check_shapes(runs[run]);
        for (int n = 1; n <= 9; n++)
            check_number(number_of(runs[run], n), number_of(runs[run], n <= 4 ? n : 4));
    }
    check_shapes(with_zeros);
    check_number(1234567890, 12345);
    check_number(LARGEST - 1, 65535);
    for (size_t i = 0; i < MOMENTS; i++)
        check_heard(moments[i]);
    end();
}

static void test_walk_arguments(void)
{
    begin("arguments of a walk");
    make(HEARTBEAT, 1);
    const uint64_t n = message_n;
    const size_t least = SELKAVORN_SALVAGE_NUMBERS;
    check_equal(walk(message, message_n, n + 1, least), SELKAVORN_ARGUMENT, "above the end");
    check_equal(walk(message, message_n, UINT64_MAX, least), SELKAVORN_ARGUMENT, "far above it");
    for (size_t room = 0; room < least; room++) {
        check_equal(walk(message, message_n, 0, room), SELKAVORN_ARGUMENT, "too little room");
        check_equal(walk(message, message_n, n, room), SELKAVORN_ARGUMENT, "and nothing to tell");
        check_equal(walk(message, message_n, n + 1, room), SELKAVORN_ARGUMENT, "both");
    }
    check_equal(selkavorn_salvage(message, message_n, 0, NULL, 0), SELKAVORN_ARGUMENT,
                "no room, NULL");
    check_equal(walk(message, message_n, n, least), SELKAVORN_DONE, "from the end");
    check_equal(numbers[SELKAVORN_SALVAGE_NEXT], n, "from the end, to go on there");
    check_equal(numbers[SELKAVORN_SALVAGE_COUNT], 0, "from the end, no piece");
    check_equal(walk(NULL, 0, 0, least), SELKAVORN_DONE, "no bytes, NULL");
    check_equal(numbers[SELKAVORN_SALVAGE_NEXT], 0, "no bytes, to go on at 0");
    check_equal(numbers[SELKAVORN_SALVAGE_COUNT], 0, "no bytes, no piece");
    check_equal(walk(NULL, 0, 1, least), SELKAVORN_ARGUMENT, "no bytes, above the end");
    check_equal(walk(NULL, 0, 0, least - 1), SELKAVORN_ARGUMENT, "no bytes, too little room");
    end();
}

/* Records the message that was made last with another sum, so that no message is taken in it. */
static void record_damaged(void)
{
    uint8_t *last = message + message_n - 2;
    *last = *last == '0' ? '1' : '0';
    record_made(SELKAVORN_PIECE_PASSED);
}

/* Records the book of 7 as the first board writes it. */
static void record_writing(void)
{
    struct writing w = {7, "SHED", "YARD", 1, 1, "20250103-13:00:09.000", BYTES_ROOM};
    open_with_book(&first);
    size_t n = (size_t)SELKAVORN_LENGTH(write_book(&first, w));
    record(SELKAVORN_PIECE_MESSAGE, bytes, n);
}

/* A recording with messages of every sort end to end, holes and damaged ones. */
static void record_night(void)
{
    clear_recording();
    record_text("bytes of a message before\001");
    make("35=0|");
    check_equal(message_n, SELKAVORN_SHORTEST_MESSAGE, "26 bytes are made");
    record_made(SELKAVORN_PIECE_MESSAGE);
    make("35=4|34=1|" AT "36=1|");
    record_made(SELKAVORN_PIECE_MESSAGE);
    record_text("8");
    make("35=X|34=1|" AT "268=1|" NEW_BID);
    record_made(SELKAVORN_PIECE_MESSAGE);
    make(HEARTBEAT, 2);
    record_damaged();
    record(SELKAVORN_PIECE_PASSED, message, message_n - 1);
    record_text("8=FIX.4.4\0019=5\001");
    record_writing();
    make(TEXT, 3, SELKAVORN_LONGEST_MESSAGE - AROUND_TEXT, 0);
    check_equal(message_n, SELKAVORN_LONGEST_MESSAGE, "8,192 bytes are made");
    record_made(SELKAVORN_PIECE_MESSAGE);
    make(TEXT, 3, SELKAVORN_LONGEST_MESSAGE - AROUND_TEXT + 1, 0);
    record_made(SELKAVORN_PIECE_PASSED);
    make(HEARTBEAT, 3);
    record_made(SELKAVORN_PIECE_MESSAGE);
}

/* Whether a piece of the recording, fed alone, is answered 11 or 12. */
static bool is_refused(struct piece piece)
{
    uint64_t answered = feed_bytes(&second, recording + piece.start, (size_t)piece.length);
    uint64_t answer = SELKAVORN_ANSWER(answered);
    return answer == SELKAVORN_FRAME || answer == SELKAVORN_CHECKSUM;
}

static void test_walk(void)
{
    begin("walk");
    record_night();
    check_walk("the night at once");
    for (size_t room = SELKAVORN_SALVAGE_NUMBERS; room <= PIECES_ROOM; room++)
        check_walks(room, "the night by parts");
    open_fresh(&second, SELKAVORN_ORDER_DEPTH);
    for (size_t i = 0; i < pieces_n; i++)
        check(is_refused(pieces[i]) == (pieces[i].kind == SELKAVORN_PIECE_PASSED),
              "a message alone is answered neither 11 nor 12");
    end();
}

/* A recording that ends within its message is one run. */
static void test_cut(void)
{
    begin("cut recording");
    make(HEARTBEAT, 1);
    for (size_t n = 1; n <= message_n; n++) {
        clear_recording();
        record(n < message_n ? SELKAVORN_PIECE_PASSED : SELKAVORN_PIECE_MESSAGE, message, n);
        check_walk("cut short");
    }
    record_text("8");
    check_walk("a byte behind the message");
    clear_recording();
    record_text("8=FIX.4.4\0019=99999\00135=0\00110=000\001");
    check_walk("a length beyond the end");
    end();
}

/* A message that holds a whole one among its fields, and another from within a value on, is one
 * piece; a walk from within sees what lies from there on. */
static void test_nested(void)
{
    char inner[MESSAGE_ROOM / 2];
    begin("message within a message");
    make("35=0|");
    size_t inner_n = message_n;
    memcpy(inner, message, inner_n);
    inner[inner_n] = 0;
    make("35=0|34=1|" AT "%s58=%s", inner, inner);
    clear_recording();
    record_made(SELKAVORN_PIECE_MESSAGE);
    check_walk("the outer one");
    const size_t trailer = strlen("10=000|"), from = message_n - trailer - inner_n;
    pieces[0] = (struct piece){SELKAVORN_PIECE_MESSAGE, from, inner_n};
    pieces[1] = (struct piece){SELKAVORN_PIECE_PASSED, from + inner_n, trailer};
    pieces_n = 2;
    check_equal(walk(recording, recording_n, from, PIECES_ROOM), SELKAVORN_DONE, "from within");
    check_pieces(0, PIECES_ROOM, "the inner one and the outer trailer");
    end();
}

static void test_copy(void)
{
    begin("copy of a store");
    open_with_book(&first);
    fresh(&second);
    memcpy(store_of(&second), store_of(&first), SELKAVORN_STORE_NUMBERS * sizeof(uint64_t));
    feed(&first, SELKAVORN_GAP, 2, "a gap on the first", HEARTBEAT, 3);
    check_equal(quote(&first, 7, "20250103-13:00:00", 0, 17), SELKAVORN_WAITING, "first");
    check_equal(quote(&second, 7, "20250103-13:00:00", 0, 17), SELKAVORN_DONE, "second");
    check_equal(numbers[SELKAVORN_QUOTE_NUMBER], 1, "the copy is still at 1");
    open_fresh(&first, SELKAVORN_ORDER_DEPTH);
    feed(&second, SELKAVORN_DONE, 1, "the copy counts on", HEARTBEAT, 2);
    end();
}

/* Store and output too end at an edge, and have exactly the elements that they must have. */
static void test_edges(void)
{
    static const uint64_t id = 7;
    const size_t n = SELKAVORN_STORE_NUMBERS;
    uint64_t *store = (uint64_t *)(void *)make_edge() - n;
    uint64_t *quoted = (uint64_t *)(void *)make_edge() - SELKAVORN_QUOTE_NUMBERS;
    uint64_t *stated = (uint64_t *)(void *)make_edge() - SELKAVORN_STATE_NUMBERS;
    uint64_t *summed = (uint64_t *)(void *)make_edge() - SELKAVORN_BOARD_NUMBERS;
    uint64_t *lots = (uint64_t *)(void *)make_edge() - SELKAVORN_LOT_NUMBERS;
    uint64_t *walked = (uint64_t *)(void *)make_edge() - SELKAVORN_SALVAGE_NUMBERS;
    uint8_t *written = make_edge() - 110;
    const uint8_t *now = lend_text(MOMENT, "20250103-13:00:00");
    begin("store and output at an edge");
    check_equal(selkavorn_open(store, n, 0, lend(IDS, &id, sizeof id), 1), SELKAVORN_DONE, "open");
    make(EMPTY_W, 7, 0);
    check_equal(selkavorn_feed(store, n, lend(MESSAGE, message, message_n), message_n),
                SELKAVORN_TAKEN, "a snapshot");
    check_equal(selkavorn_write(store, n, id, lend_text(SENDER, "SHED"), 4,
                                lend_text(TARGET, "YARD"), 4, 1, 1, now, 17, written, 110),
                256 * 110, "write");
    make(HEARTBEAT, 1);
    check_equal(selkavorn_feed(store, n, lend(MESSAGE, message, message_n), message_n),
                SELKAVORN_DONE, "a heartbeat");
    check_equal(selkavorn_quote(store, n, id, now, 17, 0, quoted, SELKAVORN_QUOTE_NUMBERS),
                SELKAVORN_DONE, "quote");
    for (enum way way = SELL; way < WAYS; way++)
        check_equal(lot_calls[way](store, n, id, 1, now, 17, 0, lots, SELKAVORN_LOT_NUMBERS),
                    SELKAVORN_DONE, "lot");
    check_equal(selkavorn_state(store, n, id, stated, SELKAVORN_STATE_NUMBERS), SELKAVORN_DONE,
                "state");
    check_equal(selkavorn_board(store, n, summed, SELKAVORN_BOARD_NUMBERS), SELKAVORN_DONE,
                "summary");
    check_equal(selkavorn_salvage(lend(RECORDING, message, message_n), message_n, 0, walked,
                                  SELKAVORN_SALVAGE_NUMBERS),
                SELKAVORN_DONE, "walk");
    end();
}

static void test_reached(void)
{
    char name[32];
    begin("answer numbers reached");
    for (unsigned answer = 0; answer < 256; answer++) {
        bool of_lots = answer == 0 || answer == 17 || answer == 18 ||
                       (answer >= 20 && answer <= 24) || answer == 35;
        bool known = of_lots || answer <= 14 || answer == 25;
        snprintf(name, sizeof name, "answer %u", answer);
        if (known || reached[answer])
            check(known && reached[answer], name);
        if (answer >= SELKAVORN_SNAPSHOT_UNFOLLOWED && answer <= SELKAVORN_SNAPSHOT_OVER)
            check(alone_reached[answer], "the record alone changes by 5, 6, 7, 8 and 9, each");
        snprintf(name, sizeof name, "answer %u of lots", answer);
        for (enum way way = SELL; way < WAYS; way++)
            if (of_lots || lot_reached[way][answer])
                check(of_lots && lot_reached[way][answer], name);
    }
    end();
}

int main(void)
{
    setvbuf(stdout, NULL, _IOLBF, BUFSIZ); /* a crash shows behind which group it came */
    test_opening();
    test_counting();
    test_queue();
    test_messages();
    test_store();
    test_layouts();
    test_quote_arguments();
    test_quote();
    for (enum way way = SELL; way < WAYS; way++) {
        test_lot_arguments(way);
        test_lot_order(way);
    }
    test_lot();
    test_lot_bounds();
    test_summary();
    test_loop();
    test_loop_of_one();
    test_closing();
    test_broken_loops();
    test_lowest();
    test_named();
    test_most_named();
    test_replays();
    test_between();
    test_loop_store();
    test_writing_arguments();
    test_writing();
    test_round_trip();
    test_prices();
    test_all();
    test_all_of_most();
    test_all_refused();
    test_all_read();
    test_all_in_message();
    test_all_queued();
    test_all_replayed();
    test_all_broken();
    test_all_store();
    test_wholes();
    test_tags();
    test_price_digits();
    test_fixed_digits();
    test_lent_moments();
    test_end_digits();
    test_numbers_read();
    test_walk_arguments();
    test_walk();
    test_cut();
    test_nested();
    test_copy();
    test_edges();
    test_reached();
    printf("%u passed, %u failed\n", passed, failed);
    return failed == 0 ? 0 : 1;
}

/* Runs a script of calls on the proved archive and prints one line a call.
 *
 * The lines of scripts and answers are those of src/script.rs and src/run.rs. Beside the
 * answers it watches what is lent: after each call the store, the outputs and the guards
 * around them must be as document 01 leaves them. Where they are not, the answer line ends
 * with a word that begins with `!`, which no second answer line has. Bytes and SecurityIDs
 * are lent so that readable memory ends where they do: a call that reads further crashes. */
#define _DEFAULT_SOURCE

#include <inttypes.h>
#include <stdbool.h>
#include <stdint.h>
#include <stdio.h>
#include <stdlib.h>
#include <string.h>
#include <sys/mman.h>

#include "selkavorn_lots.h"

enum {
    STORE_ROOM = 8192,  /* numbers that a script may lend at most */
    NUMBER_ROOM = 512,  /* numbers of output that a script may lend at most */
    BYTE_ROOM = 8192,   /* bytes of output that a script may lend at most */
    GUARD = 64,         /* guard numbers or bytes on each side */
    MOST_IDS = 64,
    MOST_CHANGES = 64,  /* store numbers that one damage line may set */
    LENT_ROOM = 65536,  /* bytes of input that a script may lend at most, a multiple of a page */
    MOST_LENT = 4,      /* inputs of one call */
    LINE_ROOM = 1 << 18
};

static const uint64_t NUMBER_GUARD = UINT64_C(0xA5C3A5C3A5C3A5C3);
static const uint8_t BYTE_GUARD = 0xA5;

/* The store between its guards, and what it was before the call. */
enum { STORE_AREA = GUARD + STORE_ROOM + GUARD };
static uint64_t store_area[STORE_AREA];
static uint64_t store_before[STORE_AREA];
static uint64_t *const store = store_area + GUARD;

/* The outputs between their guards. */
static uint64_t number_area[GUARD + NUMBER_ROOM + GUARD];
static uint64_t *const numbers = number_area + GUARD;
static uint8_t byte_area[GUARD + BYTE_ROOM + GUARD];
static uint8_t *const bytes_out = byte_area + GUARD;

/* The ends of the rooms for inputs; what stands behind them cannot be read. */
static uint8_t *lent_ends[MOST_LENT];
static uint8_t lent_copies[MOST_LENT][LENT_ROOM];

static char line[LINE_ROOM];
static unsigned long line_number;

/* Bytes lent to a call, in the room of this number. */
struct lent {
    const uint8_t *at;
    size_t n;
    size_t room;
};

static void run_call(char *cursor);

/* ---- reading a line ---- */

static void bad_line(void)
{
    fprintf(stderr, "line %lu is not a call\n", line_number);
    exit(2);
}

/* The next word of the line; the cursor moves past it. */
static char *next_word(char **cursor)
{
    char *word = *cursor;
    if (word == NULL)
        bad_line();
    char *end = strchr(word, ' ');
    if (end != NULL)
        *end++ = '\0';
    *cursor = end;
    return word;
}

static uint64_t to_number(const char *word)
{
    char *end = NULL;
    if (word[0] < '0' || word[0] > '9')
        bad_line();
    unsigned long long number = strtoull(word, &end, 10);
    if (*end != '\0')
        bad_line();
    return number;
}

static uint64_t next_number(char **cursor)
{
    return to_number(next_word(cursor));
}

/* A number of at most `most`. */
static size_t next_length(char **cursor, size_t most)
{
    uint64_t number = next_number(cursor);
    if (number > most)
        bad_line();
    return (size_t)number;
}

static uint8_t hex_digit(char digit)
{
    const char *all = "0123456789abcdef";
    const char *found = digit == '\0' ? NULL : strchr(all, digit);
    if (found == NULL)
        bad_line();
    return (uint8_t)(found - all);
}

/* Turns a word into its bytes in place and gives their count. */
static size_t unescape(char *word)
{
    size_t n = 0;
    if (strcmp(word, "\\e") == 0)
        return 0;
    for (const char *at = word; *at != '\0'; at++) {
        uint8_t byte = (uint8_t)*at;
        if (*at == '|') {
            byte = 1;
        } else if (*at == '\\') {
            if (at[1] != 'x')
                bad_line();
            uint8_t high = hex_digit(at[2]);
            byte = (uint8_t)(high << 4 | hex_digit(at[3]));
            at += 3;
        }
        ((uint8_t *)word)[n++] = byte;
    }
    return n;
}

/* ---- what is lent to be read ---- */

/* Makes the rooms for inputs, each with a page behind it that cannot be read. */
static void make_rooms(void)
{
    for (size_t room = 0; room < MOST_LENT; room++) {
        uint8_t *at = mmap(NULL, 2 * LENT_ROOM, PROT_READ | PROT_WRITE,
                           MAP_PRIVATE | MAP_ANONYMOUS, -1, 0);
        if (at == MAP_FAILED || mprotect(at + LENT_ROOM, LENT_ROOM, PROT_NONE) != 0) {
            perror("memory");
            exit(2);
        }
        lent_ends[room] = at + LENT_ROOM;
    }
}

/* Puts bytes at the end of a room. */
static struct lent lend(size_t room, const void *from, size_t n)
{
    if (n > LENT_ROOM)
        bad_line();
    uint8_t *at = lent_ends[room] - n;
    if (n > 0) {
        memcpy(at, from, n);
        memcpy(lent_copies[room], from, n);
    }
    return (struct lent){.at = at, .n = n, .room = room};
}

static struct lent next_bytes(char **cursor, size_t room)
{
    char *word = next_word(cursor);
    size_t n = unescape(word);
    return lend(room, word, n);
}

/* Tells whether lent bytes changed. */
static void check_lent(struct lent lent)
{
    if (memcmp(lent.at, lent_copies[lent.room], lent.n) != 0)
        printf(" !input");
}

/* ---- what must be unchanged ---- */

/* Copies a store with its guards. Most numbers are equal: under an emulator this is faster than
 * memcpy. */
static void copy_store(uint64_t *to, const uint64_t *from)
{
    for (size_t i = 0; i < STORE_AREA; i++)
        if (to[i] != from[i])
            to[i] = from[i];
}

/* Remembers the store as it is before a call. */
static void keep_store(void)
{
    copy_store(store_before, store_area);
}

/* Tells what changed of the store beyond its first `may_change` numbers. */
static void check_store(size_t may_change)
{
    uint64_t before = 0, beyond = 0;
    for (size_t i = 0; i < GUARD; i++)
        before |= store_area[i] ^ store_before[i];
    for (size_t i = GUARD + may_change; i < STORE_AREA; i++)
        beyond |= store_area[i] ^ store_before[i];
    if (before != 0)
        printf(" !store-guard");
    if (beyond != 0)
        printf(" !store");
    if (may_change > 0 || before != 0 || beyond != 0)
        keep_store();
}

/* One number that stands for the store's 7,168; the second keeper's sum is the same. */
static uint64_t store_sum(void)
{
    uint64_t sum = 0;
    for (size_t i = 0; i < SELKAVORN_STORE_NUMBERS; i++) {
        sum = (sum ^ store[i]) * UINT64_C(0x9E3779B97F4A7C15);
        sum ^= sum >> 29;
    }
    return sum;
}

/* Tells the sum of a store that a call may have changed, and what else changed. */
static void check_changed_store(size_t store_n)
{
    const size_t numbers_of_store = SELKAVORN_STORE_NUMBERS;
    printf(" %016" PRIx64, store_sum());
    check_store(store_n < numbers_of_store ? store_n : numbers_of_store);
}

static void guard_numbers(void)
{
    for (size_t i = 0; i < sizeof number_area / sizeof number_area[0]; i++)
        number_area[i] = NUMBER_GUARD;
}

static void guard_bytes(void)
{
    memset(byte_area, BYTE_GUARD, sizeof byte_area);
}

/* Tells whether numbers of output beyond the first `may_change` changed. */
static void check_numbers(size_t may_change)
{
    const size_t all = sizeof number_area / sizeof number_area[0];
    bool same = true;
    for (size_t i = 0; i < all; i++)
        if (i < GUARD || i >= GUARD + may_change)
            same = same && number_area[i] == NUMBER_GUARD;
    if (!same)
        printf(" !out");
}

/* Tells whether bytes of output beyond the first `may_change` changed. */
static void check_bytes(size_t may_change)
{
    bool same = true;
    for (size_t i = 0; i < sizeof byte_area; i++)
        if (i < GUARD || i >= GUARD + may_change)
            same = same && byte_area[i] == BYTE_GUARD;
    if (!same)
        printf(" !out");
}

/* ---- the calls ---- */

static void print_numbers(size_t n)
{
    for (size_t i = 0; i < n; i++)
        printf(" %" PRIu64, numbers[i]);
}

/* Bytes as a word of a line. */
static void print_bytes(const uint8_t *bytes, size_t n)
{
    for (size_t i = 0; i < n; i++) {
        uint8_t byte = bytes[i];
        if (byte == 1)
            putchar('|');
        else if (byte == '|' || byte == '\\' || byte < 33 || byte > 126)
            printf("\\x%02x", (unsigned)byte);
        else
            putchar(byte);
    }
}

static void run_open(char **cursor)
{
    uint64_t ids[MOST_IDS];
    size_t ids_n = 0;
    size_t store_n = next_length(cursor, STORE_ROOM);
    uint64_t depth = next_number(cursor);
    char *list = next_word(cursor);
    if (strcmp(list, "\\e") != 0)
        for (char *id = strtok(list, ","); id != NULL && ids_n < MOST_IDS; id = strtok(NULL, ","))
            ids[ids_n++] = to_number(id);
    struct lent lent = lend(0, ids, ids_n * sizeof ids[0]);
    uint64_t answer = selkavorn_open(store, store_n, depth, (const uint64_t *)(const void *)lent.at,
                                     ids_n);
    printf("open %" PRIu64, answer);
    if (answer == SELKAVORN_DONE)
        check_changed_store(store_n);
    else
        check_store(0);
    check_lent(lent);
}

/* Only 0, 1 and 3 to 10 change the store. */
static bool changes_store(uint64_t answer)
{
    return answer == SELKAVORN_DONE || answer == SELKAVORN_GAP ||
           (answer >= SELKAVORN_LET_GO && answer <= SELKAVORN_REPLAY_BROKE);
}

static void run_feed(char **cursor)
{
    size_t store_n = next_length(cursor, STORE_ROOM);
    struct lent msg = next_bytes(cursor, 0);
    uint64_t told = selkavorn_feed(store, store_n, msg.at, msg.n);
    printf("feed %" PRIu64 " %" PRIu64, SELKAVORN_ANSWER(told), SELKAVORN_WAITING_COUNT(told));
    if (changes_store(SELKAVORN_ANSWER(told)))
        check_changed_store(store_n);
    else
        check_store(0);
    check_lent(msg);
}

static void run_quote(char **cursor)
{
    size_t store_n = next_length(cursor, STORE_ROOM);
    uint64_t id = next_number(cursor);
    struct lent now = next_bytes(cursor, 0);
    uint64_t limit_s = next_number(cursor);
    size_t room = next_length(cursor, NUMBER_ROOM);
    guard_numbers();
    uint64_t answer = selkavorn_quote(store, store_n, id, now.at, now.n, limit_s, numbers, room);
    size_t written = answer == SELKAVORN_DONE ? SELKAVORN_QUOTE_NUMBERS : 0;
    printf("quote %" PRIu64, answer);
    print_numbers(written);
    check_numbers(written);
    check_store(0);
    check_lent(now);
}

/* The shape that selling and buying share. */
typedef uint64_t lot_call(const uint64_t *store, size_t store_n, uint64_t id, uint64_t quantity,
                          const uint8_t *now, size_t now_n, uint64_t limit_s, uint64_t *out,
                          size_t out_n);

static void run_lot(char **cursor, const char *name, lot_call *lot)
{
    size_t store_n = next_length(cursor, STORE_ROOM);
    uint64_t id = next_number(cursor);
    uint64_t quantity = next_number(cursor);
    struct lent now = next_bytes(cursor, 0);
    uint64_t limit_s = next_number(cursor);
    size_t room = next_length(cursor, NUMBER_ROOM);
    guard_numbers();
    uint64_t answer = lot(store, store_n, id, quantity, now.at, now.n, limit_s, numbers, room);
    size_t written = answer == SELKAVORN_DONE ? SELKAVORN_LOT_NUMBERS : 0;
    printf("%s %" PRIu64, name, answer);
    print_numbers(written);
    check_numbers(written);
    check_store(0);
    check_lent(now);
}

static void run_sell(char **cursor)
{
    run_lot(cursor, "sell", selkavorn_sell);
}

static void run_buy(char **cursor)
{
    run_lot(cursor, "buy", selkavorn_buy);
}

static void run_write(char **cursor)
{
    size_t store_n = next_length(cursor, STORE_ROOM);
    uint64_t id = next_number(cursor);
    struct lent sender = next_bytes(cursor, 0);
    struct lent target = next_bytes(cursor, 1);
    uint64_t k = next_number(cursor);
    uint64_t m = next_number(cursor);
    struct lent time = next_bytes(cursor, 2);
    size_t room = next_length(cursor, BYTE_ROOM);
    guard_bytes();
    uint64_t told = selkavorn_write(store, store_n, id, sender.at, sender.n, target.at, target.n,
                                    k, m, time.at, time.n, bytes_out, room);
    uint64_t length = SELKAVORN_LENGTH(told);
    bool done = SELKAVORN_ANSWER(told) == SELKAVORN_DONE;
    size_t written = done && length <= room ? (size_t)length : 0;
    printf("write %" PRIu64 " %" PRIu64, SELKAVORN_ANSWER(told), length);
    if (written > 0)
        putchar(' ');
    print_bytes(bytes_out, written);
    check_bytes(written);
    check_store(0);
    check_lent(sender);
    check_lent(target);
    check_lent(time);
}

static void run_state(char **cursor)
{
    size_t store_n = next_length(cursor, STORE_ROOM);
    uint64_t id = next_number(cursor);
    size_t room = next_length(cursor, NUMBER_ROOM);
    guard_numbers();
    uint64_t answer = selkavorn_state(store, store_n, id, numbers, room);
    size_t written = answer == SELKAVORN_DONE ? SELKAVORN_STATE_NUMBERS : 0;
    printf("state %" PRIu64, answer);
    print_numbers(written);
    check_numbers(written);
    check_store(0);
}

static void run_board(char **cursor)
{
    size_t store_n = next_length(cursor, STORE_ROOM);
    size_t room = next_length(cursor, NUMBER_ROOM);
    guard_numbers();
    uint64_t answer = selkavorn_board(store, store_n, numbers, room);
    size_t written = answer == SELKAVORN_DONE ? SELKAVORN_BOARD_NUMBERS : 0;
    printf("board %" PRIu64, answer);
    print_numbers(written);
    check_numbers(written);
    check_store(0);
}

/* How many numbers of its room a walk says that it wrote. */
static size_t walk_numbers(size_t room)
{
    const uint64_t most = (room - SELKAVORN_SALVAGE_PIECES) / SELKAVORN_PIECE_NUMBERS;
    uint64_t count = numbers[SELKAVORN_SALVAGE_COUNT];
    return SELKAVORN_SALVAGE_PIECES + SELKAVORN_PIECE_NUMBERS * (count < most ? count : most);
}

static void run_salvage(char **cursor)
{
    uint64_t from = next_number(cursor);
    size_t room = next_length(cursor, NUMBER_ROOM);
    struct lent recording = next_bytes(cursor, 0);
    guard_numbers();
    uint64_t answer = selkavorn_salvage(recording.at, recording.n, from, numbers, room);
    bool done = answer == SELKAVORN_DONE && room >= SELKAVORN_SALVAGE_NUMBERS;
    size_t written = done ? walk_numbers(room) : 0;
    printf("salvage %" PRIu64, answer);
    print_numbers(written);
    for (size_t i = written; done && i < room; i++)
        printf(" 0");
    check_numbers(written);
    check_store(0);
    check_lent(recording);
}

/* Sets store numbers by a word INDEX=VALUE,INDEX=VALUE,.. */
static void change_store(char *changes)
{
    size_t n = 0;
    for (char *change = strtok(changes, ","); change != NULL; change = strtok(NULL, ",")) {
        char *value = strchr(change, '=');
        if (value == NULL || ++n > MOST_CHANGES)
            bad_line();
        *value++ = '\0';
        uint64_t index = to_number(change);
        if (index >= SELKAVORN_STORE_NUMBERS)
            bad_line();
        store[index] = to_number(value);
    }
}

/* Sets store numbers, runs the call that stands behind them, and restores the store. */
static void run_damage(char **cursor)
{
    static uint64_t whole[STORE_AREA];
    copy_store(whole, store_area);
    change_store(next_word(cursor));
    keep_store();
    printf("damage ");
    if (*cursor == NULL)
        bad_line();
    run_call(*cursor);
    *cursor = NULL;
    copy_store(store_area, whole);
    keep_store();
}

/* A store that was never opened. */
static void run_wipe(char **cursor)
{
    uint64_t value = next_number(cursor);
    for (size_t i = 0; i < SELKAVORN_STORE_NUMBERS; i++)
        store[i] = value;
    keep_store();
    printf("wipe");
}

/* The store's numbers that aren't zero. */
static void run_dump(char **cursor)
{
    (void)cursor;
    printf("dump");
    for (size_t i = 0; i < SELKAVORN_STORE_NUMBERS; i++)
        if (store[i] != 0)
            printf(" %zu=%" PRIu64, i, store[i]);
}

static void run_call(char *cursor)
{
    static const struct {
        const char *name;
        void (*run)(char **);
    } calls[] = {{"open", run_open},   {"feed", run_feed},   {"quote", run_quote},
                 {"sell", run_sell},   {"buy", run_buy},     {"write", run_write},
                 {"state", run_state}, {"board", run_board}, {"salvage", run_salvage},
                 {"damage", run_damage}, {"wipe", run_wipe}, {"dump", run_dump}};
    const char *name = next_word(&cursor);
    for (size_t i = 0; i < sizeof calls / sizeof calls[0]; i++)
        if (strcmp(name, calls[i].name) == 0) {
            calls[i].run(&cursor);
            if (cursor != NULL)
                bad_line();
            return;
        }
    bad_line();
}

int main(void)
{
    /* A line at a time, so that a call that crashes shows where it stands. */
    setvbuf(stdout, NULL, _IOLBF, BUFSIZ);
    make_rooms();
    for (size_t i = 0; i < STORE_AREA; i++)
        store_area[i] = NUMBER_GUARD;
    for (size_t i = 0; i < SELKAVORN_STORE_NUMBERS; i++)
        store[i] = 0;
    keep_store();
    while (fgets(line, sizeof line, stdin) != NULL) {
        line_number++;
        line[strcspn(line, "\n")] = '\0';
        if (line[0] != '\0' && line[0] != '#') {
            run_call(line);
            putchar('\n');
        }
    }
    return 0;
}

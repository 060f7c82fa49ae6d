/* A message is read in one walk over its fields, into a struct on the stack; only one that is refused is walked again, to say by
 * which number. Nothing of the board changes before the message is read. */
#include "plain.h"

#include <stdbool.h>
#include <string.h>

#include "selkavorn.h"

#define SOH 1
#define BEGIN "8=FIX.4.4\0019="
#define LARGEST_NUMBER UINT64_C(4294967295)
#define LARGEST_ID UINT64_C(999999999999999999)
#define LARGEST_SIZE UINT64_C(999999999999)

enum { SHORTEST = 26, SHORTEST_BODY = 5, TRAILER = 7, MOST_ENTRIES = 64, MOST_DIGITS = 18 };
enum { PRICE_DIGITS = 9 }; /* before the point of a price, at most */
enum action { NEW, CHANGE, DELETE, DELETE_THRU, DELETE_FROM };

/* ---- fields ---- */

struct text {
    const uint8_t *at;
    size_t n;
};

/* The fields between 35 and 10; the byte before `end` is SOH. */
struct cursor {
    const uint8_t *at, *end;
};

/* Any other tag, then those that the rules name, then 8, 9, 35 and 10. */
enum slot { OTHER, S34, S52, S48, S22, S207, S369, S911, S268, S279, S269, S270, S271, S37, S346, S272, S273, S290, END };
#define BIT(slot) (1u << (slot))

static const uint32_t X_LEAD = BIT(S34) | BIT(S52);
static const uint32_t W_LEAD = BIT(S34) | BIT(S52) | BIT(S48) | BIT(S22) | BIT(S207) | BIT(S369) | BIT(S911);
static const uint32_t W_ENTRY =
    BIT(S269) | BIT(S270) | BIT(S271) | BIT(S37) | BIT(S346) | BIT(S272) | BIT(S273) | BIT(S290);
static const uint32_t X_ENTRY =
    BIT(S269) | BIT(S270) | BIT(S271) | BIT(S37) | BIT(S346) | BIT(S272) | BIT(S273) | BIT(S290) | BIT(S279) | BIT(S48) |
    BIT(S22) | BIT(S207);

enum { TAGS = 1000 };
static const uint8_t SLOTS[TAGS] = {
    [8] = END,     [9] = END,     [10] = END,    [35] = END,    [22] = S22,   [34] = S34,   [37] = S37,
    [48] = S48,    [52] = S52,    [207] = S207,  [268] = S268,  [269] = S269, [270] = S270, [271] = S271,
    [272] = S272,  [273] = S273,  [279] = S279,  [290] = S290,  [346] = S346, [369] = S369, [911] = S911,
};

/* The fields of a lead or of an entry: which slots are filled, and their values. */
struct fields {
    uint32_t seen;
    struct text values[END];
};

static bool is_digit(uint8_t byte) { return (uint8_t)(byte - '0') < 10; }

/* The first SOH from here on, eight bytes at a time. One stands before the trailer, whose seven bytes may be read with it. */
static const uint8_t *find_soh(const uint8_t *p)
{
    const uint64_t ones = UINT64_C(0x0101010101010101), tops = UINT64_C(0x8080808080808080);
    for (;; p += 8) {
        uint64_t bytes;
        memcpy(&bytes, p, 8);
        bytes ^= ones * SOH;
        const uint64_t zeros = (bytes - ones) & ~bytes & tops;
        if (zeros) return p + __builtin_ctzll(zeros) / 8; /* a processor that has its low bytes first */
    }
}

/* Takes the next field; false where the bytes are none. */
static inline bool next_field(struct cursor *c, enum slot *slot, struct text *value)
{
    const uint8_t *p = c->at;
    uint32_t tag = 0;
    for (; is_digit(*p); p++) tag = 10 * tag + (uint32_t)(*p - '0');
    if (p == c->at || p - c->at > 5 || *c->at == '0' || *p != '=') return false;
    value->at = ++p;
    p = find_soh(p);
    value->n = (size_t)(p - value->at);
    c->at = p + 1;
    *slot = tag < TAGS ? SLOTS[tag] : OTHER;
    return value->n > 0;
}

/* Puts a value into its slot; false where it may not stand here, or stands here already. */
static inline bool put(struct fields *in, uint32_t allowed, enum slot slot, struct text value)
{
    if (slot == OTHER) return true;
    if (!(allowed & ~in->seen & BIT(slot))) return false;
    in->seen |= BIT(slot);
    in->values[slot] = value;
    return true;
}

static bool has(const struct fields *in, enum slot slot) { return in->seen & BIT(slot); }

static bool equals(struct text text, const char *word, size_t n) { return text.n == n && memcmp(text.at, word, n) == 0; }

/* ---- values ---- */

/* A whole number of a slot, in its range. */
static bool whole(const struct fields *in, enum slot slot, uint64_t least, uint64_t most, uint64_t *number)
{
    if (!has(in, slot)) return false;
    struct text text = in->values[slot];
    if (text.n > MOST_DIGITS || (text.n > 1 && text.at[0] == '0')) return false;
    uint64_t value = 0;
    for (size_t i = 0; i < text.n; i++) {
        if (!is_digit(text.at[i])) return false;
        value = 10 * value + (uint64_t)(text.at[i] - '0');
    }
    *number = value;
    return value >= least && value <= most;
}

/* 270: optional minus, 1 to 9 digits, then nothing or a point and 1 to 8 digits. */
static bool read_price(struct text text, int64_t *price)
{
    const uint8_t *p = text.at, *const end = text.at + text.n;
    const bool minus = *p == '-';
    p += minus;
    const uint8_t *from = p;
    int64_t value = 0;
    for (; p < end && is_digit(*p); p++) {
        if (p - from == PRICE_DIGITS) return false;
        value = 10 * value + (*p - '0');
    }
    if (p == from) return false;
    int decimals = 0;
    if (p < end) {
        if (*p++ != '.' || p == end) return false;
        for (; p < end; p++, decimals++) {
            if (decimals == SELKAVORN_PRICE_DECIMALS || !is_digit(*p)) return false;
            value = 10 * value + (*p - '0');
        }
    }
    for (; decimals < SELKAVORN_PRICE_DECIMALS; decimals++) value *= 10;
    *price = minus ? -value : value;
    return true;
}

/* A number of exactly `n` digits, which may start with zeros. */
static bool read_digits(const uint8_t *at, size_t n, uint32_t *number)
{
    uint32_t value = 0;
    for (size_t i = 0; i < n; i++) {
        if (!is_digit(at[i])) return false;
        value = 10 * value + (uint32_t)(at[i] - '0');
    }
    *number = value;
    return true;
}

static uint32_t days_in(uint32_t year, uint32_t month)
{
    static const uint8_t days[] = {31, 28, 31, 30, 31, 30, 31, 31, 30, 31, 30, 31};
    const bool leap = year % 4 == 0 && (year % 100 != 0 || year % 400 == 0);
    return days[month - 1] + (month == 2 && leap);
}

/* 272: YYYYMMDD. */
static bool read_date(struct text text, uint32_t *date)
{
    if (text.n != 8 || !read_digits(text.at, 8, date)) return false;
    const uint32_t year = *date / 10000, month = *date / 100 % 100, day = *date % 100;
    return month >= 1 && month <= 12 && day >= 1 && day <= days_in(year, month);
}

/* 273: HH:MM:SS, or HH:MM:SS.sss. */
static bool read_time(struct text text, uint32_t *time)
{
    const uint8_t *at = text.at;
    uint32_t hour, minute, second, ms = 0;
    if (text.n != 8 && text.n != 12) return false;
    if (at[2] != ':' || at[5] != ':') return false;
    if (!read_digits(at, 2, &hour) || !read_digits(at + 3, 2, &minute) || !read_digits(at + 6, 2, &second)) return false;
    if (text.n == 12 && (at[8] != '.' || !read_digits(at + 9, 3, &ms))) return false;
    *time = ((hour * 100 + minute) * 100 + second) * 1000 + ms;
    return hour <= 23 && minute <= 59 && second <= 60;
}

/* 52: a date, '-' and a time. */
static bool read_moment(struct text text, uint32_t *date, uint32_t *time)
{
    if (text.n < 9 || text.at[8] != '-') return false;
    return read_date((struct text){text.at, 8}, date) && read_time((struct text){text.at + 9, text.n - 9}, time);
}

/* 37: 1 to 16 bytes, each 33 to 126. */
static bool read_order_id(struct text text, struct plain_place *to)
{
    uint8_t bytes[16] = {0};
    if (text.n > sizeof bytes) return false;
    for (size_t i = 0; i < text.n; i++) {
        if (text.at[i] < 33 || text.at[i] > 126) return false;
        bytes[i] = text.at[i];
    }
    memcpy(&to->by, bytes, 8); /* a processor that has its low bytes first */
    memcpy(&to->more, bytes + 8, 8);
    return true;
}

/* ---- a message ---- */

struct message {
    uint64_t number;
    uint32_t date, time;
    /* of a W */
    uint64_t id, last, reports;
    uint64_t sides[2];
    /* of a W its bids and offers, of an X what is for followed instruments */
    uint32_t n;
    struct plain_entry entries[MOST_ENTRIES];
};

/* 48, 22 and, where it stands, 207. */
static bool read_instrument(const struct fields *in, uint64_t *id)
{
    if (!whole(in, S48, 1, LARGEST_ID, id)) return false;
    if (!has(in, S22) || !equals(in->values[S22], "8", 1)) return false;
    return !has(in, S207) || equals(in->values[S207], "BVMF", 4);
}

static uint32_t find(const struct plain_board *board, uint64_t id)
{
    uint32_t i = 0;
    while (i < board->followed && board->ids[i] != id) i++;
    return i;
}

static enum plain_kind kind_of(struct text text)
{
    if (text.n != 1) return PLAIN_PASSED;
    switch (text.at[0]) {
    case '0': return PLAIN_BID;
    case '1': return PLAIN_OFFER;
    case 'J': return PLAIN_EMPTY;
    default: return PLAIN_PASSED;
    }
}

/* What a new place, a changed one and all places of a W need. */
static bool read_place(const struct fields *in, enum plain_depth depth, struct plain_place *to)
{
    const uint32_t needed = BIT(S270) | BIT(S272) | BIT(S273);
    if ((in->seen & needed) != needed) return false;
    if (!read_price(in->values[S270], &to->price) || !whole(in, S271, 1, LARGEST_SIZE, &to->size)) return false;
    if (!read_date(in->values[S272], &to->date) || !read_time(in->values[S273], &to->time)) return false;
    if (depth == PLAIN_ORDER_DEPTH) return has(in, S37) && read_order_id(in->values[S37], to);
    to->more = 0;
    return whole(in, S346, 1, 65535, &to->by);
}

/* A J without 48 is for all; 22 and 207 may not stand then. */
static bool read_empty_all(const struct fields *in, struct message *m)
{
    if (has(in, S22) || has(in, S207)) return false;
    m->entries[m->n++] = (struct plain_entry){.number = m->number, .kind = PLAIN_EMPTY_ALL};
    return true;
}

static bool read_x_entry(const struct plain_board *board, const struct fields *in, struct message *m)
{
    uint64_t action, id, place = 0;
    if (!has(in, S269) || !whole(in, S279, NEW, DELETE_FROM, &action)) return false;
    const enum plain_kind kind = kind_of(in->values[S269]);
    if (kind == PLAIN_PASSED) return true;
    if (kind == PLAIN_EMPTY && !has(in, S48)) return read_empty_all(in, m);
    if (!read_instrument(in, &id)) return false;
    struct plain_entry *to = &m->entries[m->n];
    if (kind != PLAIN_EMPTY) {
        if (!whole(in, S290, 1, 65535, &place)) return false;
        if (action <= CHANGE && !read_place(in, board->depth, &to->values)) return false;
    }
    to->number = m->number;
    to->instrument = find(board, id);
    to->kind = kind;
    to->action = (uint32_t)action;
    to->place = (uint32_t)place;
    m->n += to->instrument < board->followed;
    return true;
}

static bool read_w_entry(const struct plain_board *board, const struct fields *in, struct message *m)
{
    uint64_t place;
    const enum plain_kind kind = kind_of(in->values[S269]);
    if (kind > PLAIN_OFFER) return true;
    struct plain_entry *to = &m->entries[m->n++];
    to->kind = kind;
    return whole(in, S290, 1, 65535, &place) && place == ++m->sides[kind] && read_place(in, board->depth, &to->values);
}

typedef bool read_entry(const struct plain_board *, const struct fields *, struct message *);

/* The entries behind 268: each begins with the tag `first`, and there are `count`. */
static bool read_group(const struct plain_board *board, struct cursor *c, enum slot first, uint32_t allowed, uint64_t count,
                       read_entry *read, struct message *m)
{
    struct fields entry = {.seen = 0};
    uint64_t begun = 0;
    enum slot slot;
    struct text value;
    while (c->at < c->end) {
        if (!next_field(c, &slot, &value)) return false;
        if (slot == first) {
            if (begun > 0 && !read(board, &entry, m)) return false;
            if (begun++ == count) return false;
            entry.seen = 0;
        }
        if (!put(&entry, begun > 0 ? allowed : 0, slot, value)) return false;
    }
    return begun == count && (begun == 0 || read(board, &entry, m));
}

/* What stands before 268, which is taken last. */
static bool read_lead(struct cursor *c, uint32_t allowed, struct fields *lead)
{
    enum slot slot = OTHER;
    struct text value;
    while (slot != S268) {
        if (c->at == c->end || !next_field(c, &slot, &value)) return false;
        if (!put(lead, allowed | BIT(S268), slot, value)) return false;
    }
    return true;
}

static bool read_number_and_time(const struct fields *lead, struct message *m)
{
    return whole(lead, S34, 1, LARGEST_NUMBER, &m->number) && has(lead, S52) &&
           read_moment(lead->values[S52], &m->date, &m->time);
}

static bool read_x(const struct plain_board *board, struct cursor *c, struct message *m)
{
    struct fields lead = {.seen = 0};
    uint64_t count;
    if (!read_lead(c, X_LEAD, &lead) || !read_number_and_time(&lead, m)) return false;
    return whole(&lead, S268, 0, MOST_ENTRIES, &count) && read_group(board, c, S279, X_ENTRY, count, read_x_entry, m);
}

static bool read_w(const struct plain_board *board, struct cursor *c, struct message *m)
{
    struct fields lead = {.seen = 0};
    uint64_t count;
    if (!read_lead(c, W_LEAD, &lead) || !read_number_and_time(&lead, m) || !read_instrument(&lead, &m->id)) return false;
    if (!whole(&lead, S369, 0, LARGEST_NUMBER, &m->last) || !whole(&lead, S911, 1, LARGEST_NUMBER, &m->reports)) return false;
    return whole(&lead, S268, 0, MOST_ENTRIES, &count) && read_group(board, c, S269, W_ENTRY, count, read_w_entry, m);
}

/* A type that only carries a number and a time: 34 and 52 once each, before any 268. */
static bool read_other(struct cursor *c, struct message *m)
{
    struct fields lead = {.seen = 0};
    uint32_t allowed = X_LEAD;
    enum slot slot;
    struct text value;
    while (c->at < c->end) {
        if (!next_field(c, &slot, &value)) return false;
        if (slot == S268) allowed = 0;
        if ((slot == S34 || slot == S52 || slot == END) && !put(&lead, allowed, slot, value)) return false;
    }
    return read_number_and_time(&lead, m);
}

/* ---- the frame ---- */

struct frame {
    struct text type;
    struct cursor fields;
};

/* Looks at 8, 9, 35 and 10, but for the sum; false for 11. The chain between is not walked. */
static bool read_frame(const uint8_t *msg, size_t n, struct frame *frame)
{
    if (n < SHORTEST || n > SELKAVORN_LONGEST_MESSAGE) return false;
    const uint8_t *p = msg + sizeof BEGIN - 1, *const trailer = msg + n - TRAILER;
    if (memcmp(msg, BEGIN, sizeof BEGIN - 1) != 0 || *p == '0') return false;
    size_t count = 0;
    for (int i = 0; i < 5 && is_digit(*p); i++) count = 10 * count + (size_t)(*p++ - '0');
    if (*p++ != SOH || count != (size_t)(trailer - p) || count < SHORTEST_BODY) return false;
    if (memcmp(p, "35=", 3) != 0 || trailer[-1] != SOH) return false;
    uint32_t sum;
    if (memcmp(trailer, "10=", 3) != 0 || !read_digits(trailer + 3, 3, &sum) || trailer[6] != SOH) return false;
    frame->type.at = p += 3;
    while (*p != SOH) p++;
    frame->type.n = (size_t)(p - frame->type.at);
    frame->fields = (struct cursor){p + 1, trailer};
    return frame->type.n > 0;
}

static bool sum_holds(const uint8_t *msg, size_t n)
{
    const uint8_t *const digits = msg + n - TRAILER + 3;
    uint8_t sum = 0;
    for (size_t i = 0; i < n - TRAILER; i++) sum = (uint8_t)(sum + msg[i]);
    return (digits[0] - '0') * 100 + (digits[1] - '0') * 10 + (digits[2] - '0') == sum;
}

static bool is_type(struct text type) { return type.n == 1 && memchr("XW0fyB", type.at[0], 6) != NULL; }

static bool read_typed(const struct plain_board *board, const struct frame *frame, struct message *m)
{
    struct cursor c = frame->fields;
    m->n = 0;
    m->sides[0] = m->sides[1] = 0;
    switch (frame->type.at[0]) {
    case 'X': return read_x(board, &c, m);
    case 'W': return read_w(board, &c, m);
    default: return read_other(&c, m);
    }
}

/* Why a message with a good outline is refused: 11 is asked of the whole chain before the others. */
static uint64_t refusal(const uint8_t *msg, size_t n, const struct frame *frame)
{
    struct cursor c = frame->fields;
    enum slot slot;
    struct text value;
    while (c.at < c.end)
        if (!next_field(&c, &slot, &value)) return SELKAVORN_FRAME;
    if (!sum_holds(msg, n)) return SELKAVORN_CHECKSUM;
    return is_type(frame->type) ? SELKAVORN_FIELDS : SELKAVORN_TYPE;
}

/* ---- books ---- */

/* Works one entry into a side; the reason where that is a breach. */
static uint8_t work(struct plain_side *side, const struct plain_entry *entry)
{
    const uint64_t held = side->held, place = entry->place;
    const bool is_new = entry->action == NEW;
    if (place > held + is_new) return SELKAVORN_REASON_PLACE;
    if (is_new && held == PLAIN_PLACES) return SELKAVORN_REASON_NO_ROOM;
    struct plain_place *const at = side->places + (place - 1);
    switch ((enum action)entry->action) {
    case NEW:
        memmove(at + 1, at, (held + 1 - place) * sizeof *at);
        *at = entry->values;
        side->held++;
        break;
    case CHANGE:
        *at = entry->values;
        break;
    case DELETE:
        memmove(at, at + 1, (held - place) * sizeof *at);
        side->held--;
        break;
    case DELETE_THRU:
        memmove(side->places, at + 1, (held - place) * sizeof *at);
        side->held -= place;
        break;
    case DELETE_FROM:
        side->held = place - 1;
        break;
    }
    return SELKAVORN_REASON_NONE;
}

static void empty(struct plain_side sides[2]) { sides[0].held = sides[1].held = 0; }

/* Gives an entry to an instrument that it is for; false where that breaks it. */
static bool give(struct plain_board *board, const struct plain_entry *entry, uint32_t i)
{
    if (entry->kind >= PLAIN_EMPTY) {
        empty(board->sides[i]);
        return true;
    }
    const uint8_t reason = work(&board->sides[i][entry->kind], entry);
    if (reason == SELKAVORN_REASON_NONE) return true;
    empty(board->sides[i]);
    board->waiting |= (uint16_t)(1u << i);
    board->reasons[i] = reason;
    return false;
}

static bool waits(const struct plain_board *board, uint32_t instrument) { return board->waiting >> instrument & 1; }

/* Gives an entry to those that are Live and that it is for; false where that breaks one. */
static bool give_live(struct plain_board *board, const struct plain_entry *entry)
{
    if (entry->kind != PLAIN_EMPTY_ALL) return waits(board, entry->instrument) || give(board, entry, entry->instrument);
    for (uint32_t i = 0; i < board->followed; i++)
        if (!waits(board, i)) give(board, entry, i);
    return true;
}

/* ---- numbers, queue and marks ---- */

static void let_go(struct plain_board *board, uint64_t complete)
{
    board->queued = 0;
    board->complete = complete;
}

static void clear_at_gap(struct plain_board *board, uint64_t number)
{
    board->waiting = (uint16_t)((1u << board->followed) - 1);
    for (uint32_t i = 0; i < board->followed; i++) empty(board->sides[i]);
    let_go(board, number - 1);
}

/* Entries join the queue; false where they do not fit, and it is let go. */
static bool join(struct plain_board *board, const struct message *m)
{
    if (board->queued + m->n > PLAIN_QUEUE) {
        let_go(board, m->number);
        return false;
    }
    memcpy(board->queue + board->queued, m->entries, m->n * sizeof m->entries[0]);
    board->queued += m->n;
    return true;
}

static uint64_t count(struct plain_board *board, const struct message *m)
{
    if (m->number <= board->number) return SELKAVORN_OLD;
    const bool gap = m->number > board->number + 1;
    if (gap) clear_at_gap(board, m->number);
    board->number = m->number;
    board->heard_date = m->date;
    board->heard_time = m->time;
    const bool waited = board->waiting != 0;
    const bool joined = !waited || join(board, m);
    bool broke = false;
    for (uint32_t i = 0; i < m->n; i++) broke |= !give_live(board, &m->entries[i]);
    if (board->waiting == 0 || (broke && !waited)) let_go(board, board->number);
    return gap ? SELKAVORN_GAP : joined ? SELKAVORN_DONE : SELKAVORN_LET_GO;
}

/* Why a snapshot is not taken, or SELKAVORN_TAKEN. */
static uint64_t terms(const struct plain_board *board, const struct message *m, uint32_t instrument)
{
    if (instrument == board->followed) return SELKAVORN_SNAPSHOT_UNFOLLOWED;
    if (!waits(board, instrument)) return SELKAVORN_SNAPSHOT_LIVE;
    if (m->last < board->complete) return SELKAVORN_SNAPSHOT_BELOW;
    if (m->last > board->number) return SELKAVORN_SNAPSHOT_ABOVE;
    return m->sides[0] > PLAIN_PLACES || m->sides[1] > PLAIN_PLACES ? SELKAVORN_SNAPSHOT_OVER : SELKAVORN_TAKEN;
}

/* Brings the book of an instrument from message `last` up to H; false where a queued entry breaks it. */
static bool replay(struct plain_board *board, uint32_t instrument, uint64_t last)
{
    for (uint32_t k = 0; k < board->queued; k++) {
        const struct plain_entry *const entry = &board->queue[k];
        const bool is_for = entry->instrument == instrument || entry->kind == PLAIN_EMPTY_ALL;
        if (is_for && entry->number > last && !give(board, entry, instrument)) return false;
    }
    board->waiting &= (uint16_t)~(1u << instrument);
    board->reasons[instrument] = SELKAVORN_REASON_NONE;
    return true;
}

static uint64_t take(struct plain_board *board, const struct message *m, uint32_t instrument)
{
    const uint64_t answer = terms(board, m, instrument);
    if (answer != SELKAVORN_TAKEN) return answer;
    struct plain_side *const sides = board->sides[instrument];
    empty(sides);
    for (uint32_t k = 0; k < m->n; k++) {
        struct plain_side *const side = &sides[m->entries[k].kind];
        side->places[side->held++] = m->entries[k].values;
    }
    return replay(board, instrument, m->last) ? SELKAVORN_TAKEN : SELKAVORN_REPLAY_BROKE;
}

/* ---- loops ---- */

/* Gives a W its place in a loop; true where that makes it whole. */
static bool go_on(struct plain_loop *loop, const struct message *m, uint16_t named)
{
    if (loop->come > 0 && loop->reports == m->reports && loop->come == m->number - 1) {
        loop->come++;
        if (m->last < loop->lowest) loop->lowest = m->last;
        loop->named |= named;
    } else {
        *loop = (struct plain_loop){m->reports, m->number == 1, m->last, named};
    }
    return loop->come == loop->reports;
}

/* Each that waits and was not named takes an empty snapshot. One that waits holds no places. */
static void end_loop(struct plain_board *board)
{
    const uint64_t last = board->loop.lowest;
    board->loop.come = 0;
    if (last < board->complete || last > board->number) return;
    for (uint32_t i = 0; i < board->followed; i++)
        if (waits(board, i) && !(board->loop.named >> i & 1)) replay(board, i, last);
}

static uint64_t snapshot(struct plain_board *board, const struct message *m)
{
    const uint32_t i = find(board, m->id);
    const uint64_t answer = take(board, m, i);
    if (go_on(&board->loop, m, i < board->followed ? (uint16_t)(1u << i) : 0)) end_loop(board);
    if (board->waiting == 0) let_go(board, board->number);
    return answer;
}

static uint64_t answer(struct plain_board *board, const uint8_t *msg, size_t msg_n)
{
    struct frame frame;
    struct message m;
    if (!read_frame(msg, msg_n, &frame)) return SELKAVORN_FRAME;
    if (!sum_holds(msg, msg_n) || !is_type(frame.type) || !read_typed(board, &frame, &m)) return refusal(msg, msg_n, &frame);
    return frame.type.at[0] == 'W' ? snapshot(board, &m) : count(board, &m);
}

void plain_open(struct plain_board *board, enum plain_depth depth, const uint64_t *ids, size_t ids_n)
{
    memset(board, 0, sizeof *board);
    board->depth = depth;
    board->followed = (uint32_t)ids_n;
    memcpy(board->ids, ids, ids_n * sizeof *ids);
    board->waiting = (uint16_t)((1u << ids_n) - 1);
}

uint64_t plain_feed(struct plain_board *board, const uint8_t *msg, size_t msg_n)
{
    const uint64_t answered = answer(board, msg, msg_n);
    return answered + 256 * (uint64_t)__builtin_popcount(board->waiting);
}

// bench time DICTIONARY ROUNDS: the time of one call, the proved code beside its peers on the same bytes in the same run.
// bench count DICTIONARY [FEW]: the same calls once each, for callgrind to count their instructions; with FEW, of few cases.
// bench agree: whether the plain reader in C answers what the proved code does, and whether the three readers of digits answer alike: the
// proved one, the proved one before it, which reads one digit a turn, and the plain loop in C; says how often each answer of a feed came,
// and what the ends of loops and empty books of all instruments brought.
// bench recordings: whether it finds the same pieces in each recording; says what the recordings hold.
// `time` writes a table of tab-separated columns; a call of `count` is named in callgrind's own file by the same columns.
#include <algorithm>
#include <cstdio>
#include <cstdlib>
#include <functional>
#include <numeric>
#include <time.h>
#include <valgrind/callgrind.h>

#include "agree.hpp"
#include "digits.h"
#include "loop.h"
#include "peer.hpp"
#include "plain.h"
#include "recordings.hpp"
#include "same.hpp"
#include "selkavorn.h"
#include "selkavorn_lots.h"
#include "store.hpp"
#include "streams.hpp"
#include "values.hpp"
#include "walk.hpp"

namespace {

constexpr int ENTRIES_A_ROUND = 1024;
constexpr int QUEUE = 256;         // entries that fill the queue
constexpr int CALLS_A_ROUND = 256; // of a call that takes no stream
constexpr int ENDS_A_ROUND = 4;    // ends of loops, each on a store of its own: so few that a usual second-level cache holds them
constexpr int EMPTIES_A_ROUND = 4; // messages that empty all books, likewise
constexpr size_t COPIES = 31;      // of a store, at places of their own in memory; a round takes two, so all have their turn
constexpr int AGREED = 10000;      // messages that both readers are asked, a depth kind

constexpr size_t RECORDED_BYTES = 8 << 20; // of a recording that is timed: more than a usual second-level cache holds
constexpr size_t COUNTED_BYTES = 1 << 18;  // of one whose instructions are counted
constexpr size_t STARTS_BYTES = 1 << 18;   // of false starts
constexpr int ROUNDS_FOR_ONE = 3;          // of the other calls, for one round of a recording, which takes longer

[[noreturn]] void fail(const std::string &what) {
    std::fprintf(stderr, "bench: %s\n", what.c_str());
    std::exit(1);
}

const uint8_t *bytes(const std::string &text) { return reinterpret_cast<const uint8_t *>(text.data()); }

uint64_t feed(Store &store, const std::string &message) {
    return selkavorn_feed(store.data(), store.size(), bytes(message), message.size());
}

uint64_t feed(plain_board &board, const std::string &message) { return plain_feed(&board, bytes(message), message.size()); }

// A case: a depth kind, how many entries a message has, and how many instruments wait.
struct Case {
    Depth depth;
    int entries;
    int waiting;
};

// What a case starts from: the stream, and a store and boards whose books are full. Where one waits, the stream fills the queue.
struct Start {
    Stream stream;
    Store store;
    plain_board plain;
    PeerBoard board;
};

void open(Store &store, Depth depth, const std::vector<uint64_t> &ids) {
    if (selkavorn_open(store.data(), store.size(), depth, ids.data(), ids.size()) != SELKAVORN_DONE) fail("the store is not opened");
}

plain_board opened(Depth depth, const std::vector<uint64_t> &ids) {
    plain_board board;
    plain_open(&board, static_cast<plain_depth>(depth), ids.data(), ids.size());
    return board;
}

template <typename Keeper> bool takes(Keeper &keeper, const std::string &snapshot) {
    return SELKAVORN_ANSWER(feed(keeper, snapshot)) == SELKAVORN_TAKEN;
}

template <typename Keeper> void take(Keeper &keeper, const std::string &snapshot) {
    if (!takes(keeper, snapshot)) fail("a snapshot is not taken");
}

Start start(const Case &c, const FIX::DataDictionary &dictionary) {
    Start s;
    s.stream = make_stream(c.depth, (c.waiting ? QUEUE : ENTRIES_A_ROUND) / c.entries, c.entries);
    open(s.store, c.depth, s.stream.ids);
    s.plain = opened(c.depth, s.stream.ids);
    for (int i = 0; i < INSTRUMENTS; i++) {
        s.board.books.push_back(PeerBook());
        s.board.books.back().id = s.stream.ids[i];
        if (!peer_apply(dictionary, s.stream.snapshots[i], s.board)) fail("QuickFIX refuses a snapshot");
        if (i >= INSTRUMENTS - c.waiting) continue;
        take(s.store, s.stream.snapshots[i]);
        take(s.plain, s.stream.snapshots[i]);
    }
    return s;
}

// Copies of a store or a board. A time depends on where in memory it lies, so each round takes other ones.
template <typename Keeper> class Copies {
  public:
    explicit Copies(const Keeper &of) : all(COPIES, of) {}
    void next() { at = (at + 1) % all.size(); }
    void next(const Keeper &of) {
        next();
        all[at] = of;
    }
    Keeper &operator*() { return all[at]; }

  private:
    std::vector<Keeper> all;
    size_t at = 0;
};

// For a round whose calls each take a store or a board of their own.
template <typename Keeper> class Each {
  public:
    Each(const Keeper &of, int calls) : all(static_cast<size_t>(calls), Copies<Keeper>(of)), of(of) {}
    void put_back() {
        for (Copies<Keeper> &copies : all) copies.next(of);
    }
    Keeper &operator[](size_t i) { return *all[i]; }
    size_t size() const { return all.size(); }

  private:
    std::vector<Copies<Keeper>> all;
    const Keeper of;
};

// Something to measure: makes ready for a round, does the round's calls, and says whether all went well.
struct Measured {
    std::string what; // as the columns of the table have it
    size_t calls;
    std::function<void()> ready;
    std::function<bool()> round;
    std::vector<double> ns; // a call, by round
};

// Measures the rounds of all in turn, in one way or another.
using Measure = std::function<void(std::vector<Measured> &)>;

// One call for each message.
template <typename Call> std::function<bool()> for_each(const std::vector<std::string> &messages, Call call) {
    return [&messages, call] {
        bool good = true;
        for (const std::string &message : messages) good &= call(message);
        return good;
    };
}

// One call for each store or board.
template <typename Keeper, typename Call> std::function<bool()> for_each(Each<Keeper> &each, Call call) {
    return [&each, call] {
        bool good = true;
        for (size_t i = 0; i < each.size(); i++) good &= call(each[i]);
        return good;
    };
}

// The same call again and again.
template <typename Call> std::function<bool()> again(Call call) {
    return [call] {
        bool good = true;
        for (int i = 0; i < CALLS_A_ROUND; i++) good &= call();
        return good;
    };
}

std::string columns(const Case &c, size_t length, const char *what) {
    return std::string(c.depth == ORDER_DEPTH ? "order" : "price") + "\t" + std::to_string(c.entries) + "\t" +
           std::to_string(c.waiting) + "\t" + std::to_string(length) + "\t" + what;
}

size_t mean_length(const std::vector<std::string> &messages) {
    size_t length = 0;
    for (const std::string &message : messages) length += message.size();
    return length / messages.size();
}

void check_same(const Case &c, const Store &store, const std::string &peer, const SeenBoard &board) {
    std::string differs = difference(store, board);
    if (differs.empty()) return;
    fail(peer + " holds other books after messages of " + std::to_string(c.entries) + " entries at depth " + std::to_string(c.depth) +
         ", " + std::to_string(c.waiting) + " waiting: instrument " + differs);
}

// A full book that waited is set by its snapshot, and the queue applied to it; then all must hold the same books.
void check_books(const Case &c, const Start &s, Store store, plain_board plain, const PeerBoard &board) {
    for (int i = INSTRUMENTS - c.waiting; i < INSTRUMENTS; i++) {
        take(store, s.stream.snapshots[i]);
        take(plain, s.stream.snapshots[i]);
    }
    check_same(c, store, "QuickFIX's board", seen(board, c.depth));
    check_same(c, store, "the plain board", seen(plain));
}

// All must be Live with an empty book in both.
void check_emptied(const Case &c, const Store &store, const plain_board &plain) {
    const SeenBoard board = seen(plain);
    for (const SeenBook &book : board.books)
        if (book.waiting || !book.sides[0].empty() || !book.sides[1].empty()) fail("a book is not emptied");
    check_same(c, store, "the plain board", board);
}

// Whether the scan finds the store sound: every call on a store scans it before all else, and a state that is given no room is
// refused right after.
bool scan(const uint64_t *store) {
    return selkavorn_state(store, SELKAVORN_STORE_NUMBERS, 1, nullptr, 0) == SELKAVORN_ARGUMENT;
}

// A loop over the numbers of a store that has some. The call is not known to the compiler, so that it is made each time.
template <uint64_t (*LOOP)(const uint64_t *)> bool loop(const uint64_t *store) { return LOOP(store) != 0; }

// Feeding, the scan and the loop that is its floor, the plain reader, and QuickFIX. Where none waits, all 640 places are used in
// the store that is scanned.
void measure_case(const Case &c, const FIX::DataDictionary &dictionary, const Measure &measure) {
    const Start s = start(c, dictionary);
    const std::vector<std::string> &xs = s.stream.changes;
    const size_t length = mean_length(xs);
    const uint64_t waiting = 256u * static_cast<unsigned>(c.waiting);
    Store full = s.store;
    if (c.waiting)
        for (const std::string &x : xs) feed(full, x);
    Copies<Store> stores(s.store), scanned(full);
    Copies<plain_board> plains(s.plain);
    PeerBoard board;
    auto nothing = [] {};
    std::vector<Measured> all = {
        {columns(c, length, "feed"), xs.size(), [&] { stores.next(s.store); },
         for_each(xs, [&](const std::string &x) { return feed(*stores, x) == SELKAVORN_DONE + waiting; }), {}},
        {columns(c, length, "scan"), CALLS_A_ROUND, [&] { scanned.next(); }, again([&] { return scan((*scanned).data()); }), {}},
        {columns(c, length, "loop"), CALLS_A_ROUND, nothing, again([&] { return loop<loop_wide>((*scanned).data()); }), {}},
        {columns(c, length, "plain"), xs.size(), [&] { plains.next(s.plain); },
         for_each(xs, [&](const std::string &x) { return feed(*plains, x) == SELKAVORN_DONE + waiting; }), {}},
        {columns(c, length, "parse"), xs.size(), nothing,
         for_each(xs, [&](const std::string &x) { return peer_parse(dictionary, x); }), {}},
        {columns(c, length, "validate"), xs.size(), nothing,
         for_each(xs, [&](const std::string &x) { return peer_validate(dictionary, x); }), {}},
        {columns(c, length, "book"), xs.size(), [&] { board = s.board; },
         for_each(xs, [&](const std::string &x) { return peer_apply(dictionary, x, board); }), {}},
    };
    measure(all);
    check_books(c, s, *stores, *plains, board);
}

bool quote(const Store &store, uint64_t id) {
    static const std::string now = "20250103-14:00:00.000";
    uint64_t numbers[SELKAVORN_QUOTE_NUMBERS];
    return selkavorn_quote(store.data(), store.size(), id, bytes(now), now.size(), SELKAVORN_LONGEST_LIMIT_S, numbers,
                           SELKAVORN_QUOTE_NUMBERS) == SELKAVORN_DONE;
}

bool sell(const Store &store, uint64_t id, uint64_t quantity) {
    static const std::string now = "20250103-14:00:00.000";
    uint64_t numbers[SELKAVORN_LOT_NUMBERS];
    return selkavorn_sell(store.data(), store.size(), id, quantity, bytes(now), now.size(), SELKAVORN_LONGEST_LIMIT_S, numbers,
                          SELKAVORN_LOT_NUMBERS) == SELKAVORN_DONE;
}

bool write(const Store &store, uint64_t id) {
    static const std::string now = "20250103-14:00:00.000", name = "HUT";
    uint8_t out[SELKAVORN_LONGEST_WRITING];
    return SELKAVORN_ANSWER(selkavorn_write(store.data(), store.size(), id, bytes(name), name.size(), bytes(name), name.size(), 1, 1,
                                            bytes(now), now.size(), out, sizeof out)) == SELKAVORN_DONE;
}

bool state(const Store &store, uint64_t id) {
    uint64_t numbers[SELKAVORN_STATE_NUMBERS];
    return selkavorn_state(store.data(), store.size(), id, numbers, SELKAVORN_STATE_NUMBERS) == SELKAVORN_DONE;
}

bool summary(const Store &store) {
    uint64_t numbers[SELKAVORN_BOARD_NUMBERS];
    return selkavorn_board(store.data(), store.size(), numbers, SELKAVORN_BOARD_NUMBERS) == SELKAVORN_DONE;
}

// The units of a book's bids: a lot of them takes all 20 places. Fails where the bids are fewer, or where a lot that is to be timed
// brings something else than the board's places do.
uint64_t whole_side(const Store &store, const SeenBoard &board, const SeenBook &book) {
    const std::vector<SeenPlace> &bids = book.sides[0];
    if (bids.size() != PLACES) fail("lots are sold to " + std::to_string(bids.size()) + " bids, not to " + std::to_string(PLACES));
    uint64_t units = 0;
    for (const SeenPlace &p : bids) units += p.size;
    for (uint64_t quantity : {uint64_t{1}, units}) {
        const std::string differs = lot_difference(store, board, book, quantity);
        if (!differs.empty()) fail("a lot of " + std::to_string(quantity) + " units: " + differs);
    }
    return units;
}

// The other calls, on full books. A snapshot sets a book of 40 places.
void measure_others(Depth depth, const FIX::DataDictionary &dictionary, const Measure &measure) {
    const Case c = {depth, 0, 0};
    Start s = start({depth, 1, 0}, dictionary);
    for (const std::string &x : s.stream.changes) {
        feed(s.store, x);
        feed(s.plain, x);
    }
    const SeenBoard held = seen(s.plain);
    check_same({depth, 1, 0}, s.store, "the plain board", held);
    const std::vector<std::string> &ws = s.stream.snapshots;
    const SeenBook &book = held.books[0];
    const uint64_t *ids = s.stream.ids.data(), id = book.id, units = whole_side(s.store, held, book);
    Store unheard;
    open(unheard, depth, s.stream.ids);
    const plain_board plain_unheard = opened(depth, s.stream.ids);
    Copies<Store> stores(unheard), asked(s.store);
    Copies<plain_board> plains(plain_unheard);
    PeerBoard board;
    auto nothing = [] {};
    auto reopen = [&] { return selkavorn_open((*stores).data(), (*stores).size(), depth, ids, INSTRUMENTS) == SELKAVORN_DONE; };
    std::vector<Measured> all = {
        {columns(c, 0, "open"), CALLS_A_ROUND, [&] { stores.next(); }, again(reopen), {}},
        {columns(c, mean_length(ws), "snapshot"), ws.size(), [&] { stores.next(unheard); },
         for_each(ws, [&](const std::string &w) { return takes(*stores, w); }), {}},
        {columns(c, mean_length(ws), "plain snapshot"), ws.size(), [&] { plains.next(plain_unheard); },
         for_each(ws, [&](const std::string &w) { return takes(*plains, w); }), {}},
        {columns(c, mean_length(ws), "QuickFIX snapshot"), ws.size(), [&] { board = s.board; },
         for_each(ws, [&](const std::string &w) { return peer_apply(dictionary, w, board); }), {}},
        {columns(c, 0, "quote"), CALLS_A_ROUND, [&] { asked.next(); }, again([&] { return quote(*asked, id); }), {}},
        {columns(c, 0, "sell"), CALLS_A_ROUND, nothing, again([&] { return sell(*asked, id, 1); }), {}},
        {columns(c, 0, "sell, 20 places"), CALLS_A_ROUND, nothing, again([&] { return sell(*asked, id, units); }), {}},
        {columns(c, 0, "write"), CALLS_A_ROUND, nothing, again([&] { return write(*asked, id); }), {}},
        {columns(c, 0, "state"), CALLS_A_ROUND, nothing, again([&] { return state(*asked, id); }), {}},
        {columns(c, 0, "board"), CALLS_A_ROUND, nothing, again([&] { return summary(*asked); }), {}},
    };
    measure(all);
    check_same(c, *stores, "the plain board", seen(*plains));
}

// What the second snapshot of a loop starts from: all 16 wait, the queue is full, and the first has come.
template <typename Keeper> Keeper begun(Keeper keeper, const Loop &loop) {
    for (const std::string &x : loop.changes)
        if (SELKAVORN_ANSWER(feed(keeper, x)) != SELKAVORN_DONE) fail("a change before a loop is not counted");
    if (SELKAVORN_ANSWER(feed(keeper, loop.first)) != SELKAVORN_SNAPSHOT_UNFOLLOWED) fail("a loop is not begun");
    return keeper;
}

// A snapshot that ends a loop of two: it is taken, and so is an empty one by each of the 15 others, whose queued entries are replayed.
// Beside it the same snapshot in a loop of three, which goes on: the others still wait.
void measure_loops(Depth depth, const Measure &measure) {
    const Case c = {depth, 0, 0};
    const int entries = 16; // of an X
    const Loop two = make_loop(depth, QUEUE / entries, entries, 2), three = make_loop(depth, QUEUE / entries, entries, 3);
    Store unheard;
    open(unheard, depth, two.ids);
    const plain_board plain = begun(opened(depth, two.ids), two);
    if (plain.queued != QUEUE) fail("the queue is not full before the end of a loop");
    Each<Store> ends(begun(unheard, two), ENDS_A_ROUND), others(begun(unheard, three), ENDS_A_ROUND);
    Each<plain_board> plains(plain, ENDS_A_ROUND);
    const uint64_t waiting = 256u * (INSTRUMENTS - 1);
    const size_t length = two.second.size();
    std::vector<Measured> all = {
        {columns(c, length, "loop end"), ENDS_A_ROUND, [&] { ends.put_back(); },
         for_each(ends, [&](Store &store) { return feed(store, two.second) == SELKAVORN_TAKEN; }), {}},
        {columns(c, length, "plain loop end"), ENDS_A_ROUND, [&] { plains.put_back(); },
         for_each(plains, [&](plain_board &board) { return feed(board, two.second) == SELKAVORN_TAKEN; }), {}},
        {columns(c, length, "loop goes on"), ENDS_A_ROUND, [&] { others.put_back(); },
         for_each(others, [&](Store &store) { return feed(store, three.second) == SELKAVORN_TAKEN + waiting; }), {}},
    };
    measure(all);
    for (size_t i = 0; i < ends.size(); i++) check_same(c, ends[i], "the plain board", seen(plains[i]));
}

// A store or a board that has taken the snapshots of a stream, so that all 640 places are used.
template <typename Keeper> Keeper filled(Keeper keeper, const Stream &stream) {
    for (const std::string &w : stream.snapshots) take(keeper, w);
    return keeper;
}

Store filled_store(Depth depth, const Stream &stream) {
    Store store;
    open(store, depth, stream.ids);
    return filled(store, stream);
}

// A message with one empty book of all instruments, where all 16 are Live and hold 640 places: all 32 sides are emptied.
void measure_empties(Depth depth, const Measure &measure) {
    const Case c = {depth, 0, 0};
    const Stream stream = make_stream(depth, 0, 1);
    const std::string x = make_empty(1);
    Each<Store> stores(filled_store(depth, stream), EMPTIES_A_ROUND);
    Each<plain_board> plains(filled(opened(depth, stream.ids), stream), EMPTIES_A_ROUND);
    std::vector<Measured> all = {
        {columns(c, x.size(), "empty all"), EMPTIES_A_ROUND, [&] { stores.put_back(); },
         for_each(stores, [&](Store &store) { return feed(store, x) == SELKAVORN_DONE; }), {}},
        {columns(c, x.size(), "plain empty all"), EMPTIES_A_ROUND, [&] { plains.put_back(); },
         for_each(plains, [&](plain_board &board) { return feed(board, x) == SELKAVORN_DONE; }), {}},
    };
    measure(all);
    for (size_t i = 0; i < stores.size(); i++) check_emptied(c, stores[i], plains[i]);
}

// Feeding entries whose prices have 9 digits and 8 decimals. QuickFIX's board holds a price as a double, which has too few digits for
// them, so it has no row.
void measure_prices(Depth depth, const Measure &measure) {
    const Case c = {depth, 0, 0};
    const int entries = 10; // of an X
    const Stream stream = make_stream(depth, ENTRIES_A_ROUND / entries, entries, LONG_IDS, LONG_PRICES);
    const std::vector<std::string> &xs = stream.changes;
    const Store full = filled_store(depth, stream);
    const plain_board plain_full = filled(opened(depth, stream.ids), stream);
    Copies<Store> stores(full);
    Copies<plain_board> plains(plain_full);
    std::vector<Measured> all = {
        {columns(c, mean_length(xs), "long prices"), xs.size(), [&] { stores.next(full); },
         for_each(xs, [&](const std::string &x) { return feed(*stores, x) == SELKAVORN_DONE; }), {}},
        {columns(c, mean_length(xs), "plain long prices"), xs.size(), [&] { plains.next(plain_full); },
         for_each(xs, [&](const std::string &x) { return feed(*plains, x) == SELKAVORN_DONE; }), {}},
    };
    measure(all);
    check_same(c, *stores, "the plain board", seen(*plains));
}

// The scan by the order ids and the prices that a store holds, and the bare loops, each round at one place in memory.
void measure_scans(const Measure &measure) {
    const Case c = {ORDER_DEPTH, 0, 0};
    const Store uniform = filled_store(ORDER_DEPTH, make_stream(ORDER_DEPTH, 0, 1, LONG_IDS)),
                mixed = filled_store(ORDER_DEPTH, make_stream(ORDER_DEPTH, 0, 1, MIXED_IDS)),
                far = filled_store(ORDER_DEPTH, make_stream(ORDER_DEPTH, 0, 1, LONG_IDS, FAR_PRICES));
    Copies<Store> stores(uniform);
    auto nothing = [] {};
    auto scans = again([&] { return scan((*stores).data()); });
    std::vector<Measured> all = {
        {columns(c, 0, "scan"), CALLS_A_ROUND, [&] { stores.next(uniform); }, scans, {}},
        {columns(c, 0, "mixed scan"), CALLS_A_ROUND, [&] { *stores = mixed; }, scans, {}},
        {columns(c, 0, "far scan"), CALLS_A_ROUND, [&] { *stores = far; }, scans, {}},
        {columns(c, 0, "loop"), CALLS_A_ROUND, nothing, again([&] { return loop<loop_wide>((*stores).data()); }), {}},
        {columns(c, 0, "plain loop"), CALLS_A_ROUND, nothing, again([&] { return loop<loop_plain>((*stores).data()); }), {}},
        {columns(c, 0, "scalar loop"), CALLS_A_ROUND, nothing, again([&] { return loop<loop_scalar>((*stores).data()); }), {}},
    };
    measure(all);
}

std::string columns(const Values &v, const char *what) {
    const std::string lengths = (v.shortest == v.longest ? "" : std::to_string(v.shortest) + " to ") + std::to_string(v.longest);
    const size_t digits = v.text.size() - v.places.size(); // each value has a SOH behind it
    return "values\t" + lengths + "\t" + (v.good ? "good" : "bad") + "\t" +
           std::to_string(static_cast<double>(digits) / static_cast<double>(v.places.size())) + "\t" + what;
}

// A reader of digits on all values, one after the other. Its call is not known to the compiler, so that it is made each time.
template <uint64_t (*READ)(const uint8_t *, size_t)> Measured measured_reader(const Values &v, const char *what, uint64_t sum) {
    auto round = [&v, sum] {
        uint64_t read = 0;
        for (const Place &place : v.places) read += READ(bytes(v.text) + place.from, place.length);
        return read == sum;
    };
    return {columns(v, what), v.places.size(), [] {}, round, {}};
}

// The proved reader of digits beside the one before it and its peer in C, and once a call that reads nothing.
void measure_digits(const Measure &measure) {
    const std::vector<Values> sorts = make_values();
    std::vector<Measured> all = {measured_reader<no_digits>(sorts[0], "nothing", 0)};
    for (const Values &v : sorts) {
        all.push_back(measured_reader<selkavorn_gauge_digits>(v, "digits", v.sum));
        all.push_back(measured_reader<selkavorn_gauge_by_one>(v, "by one", v.sum));
        all.push_back(measured_reader<plain_digits>(v, "plain digits", v.sum));
    }
    measure(all);
}

// A recording as it is walked: as it was recorded, or with one byte in 1,000 or in 10 damaged.
struct Walked {
    const char *what;
    std::string bytes;
};

std::vector<Walked> walked(const Recording &r) {
    return {{"salvage", r.bytes},
            {"salvage, 1 byte in 1000 damaged", damaged(r.bytes, 1000)},
            {"salvage, 1 byte in 10 damaged", damaged(r.bytes, 10)}};
}

// The pieces of a recording, which must be those that the plain reader finds.
Pieces checked(const Recording &r, const Walked &w) {
    Pieces pieces = walk(w.bytes);
    const std::string differs = difference(pieces, plain_walk(w.bytes), w.bytes.size());
    if (!differs.empty()) fail("the walk of " + r.name + ", " + w.what + ", differs from the plain one: " + differs);
    return pieces;
}

std::string columns(const Recording &r, const char *what) { return "recording\t" + r.name + "\t" + what; }

Measured measured_walk(const Recording &r, const Walked &w) {
    const size_t pieces = checked(r, w).size();
    return {columns(r, w.what), r.messages.size(), [] {}, [&w, pieces] { return walk_count(w.bytes) == pieces; }, {}};
}

// The walk of messages end to end, whole and damaged, beside QuickFIX's parse of each.
void measure_recording(const Recording &r, const FIX::DataDictionary &dictionary, const Measure &measure) {
    const std::vector<Walked> ways = walked(r);
    std::vector<Measured> all;
    for (const Walked &w : ways) all.push_back(measured_walk(r, w));
    all.push_back({columns(r, "parse"), r.messages.size(), [] {},
                   for_each(r.messages, [&](const std::string &m) { return peer_read(dictionary, m); }), {}});
    measure(all);
}

void measure_starts(const Measure &measure) {
    const Recording r = false_starts(STARTS_BYTES);
    const Walked w = {"salvage", r.bytes};
    std::vector<Measured> all = {measured_walk(r, w)};
    measure(all);
}

void measure_recordings(size_t bytes, const FIX::DataDictionary &dictionary, const Measure &measure) {
    measure_recording(even_recording(bytes), dictionary, measure);
    measure_recording(mixed_recording(bytes), dictionary, measure);
    measure_starts(measure);
}

void do_round(Measured &m) {
    if (!m.round()) fail("a call went wrong: " + m.what);
}

// Nanoseconds of the processor that this thread has had: what other programs take does not count.
double thread_ns() {
    timespec t;
    clock_gettime(CLOCK_THREAD_CPUTIME_ID, &t);
    return static_cast<double>(t.tv_sec) * 1e9 + static_cast<double>(t.tv_nsec);
}

// The mean of the middle half: no odd round counts, and times at several places in memory are joined.
double middle_mean(std::vector<double> &values) {
    std::sort(values.begin(), values.end());
    const auto from = values.begin() + static_cast<long>(values.size() / 4), to = values.end() - static_cast<long>(values.size() / 4);
    return std::accumulate(from, to, 0.0) / static_cast<double>(to - from);
}

// Times the rounds in turn, so that what else the machine does falls on all alike. What a round needs is in the caches: it is done
// once before it is timed.
void time_all(std::vector<Measured> &all, int rounds) {
    for (int round = 0; round < rounds; round++)
        for (Measured &m : all) {
            m.ready();
            do_round(m);
            m.ready();
            double from = thread_ns();
            do_round(m);
            double to = thread_ns();
            m.ns.push_back((to - from) / static_cast<double>(m.calls));
        }
    for (Measured &m : all) std::printf("%s\t%.2f\n", m.what.c_str(), middle_mean(m.ns));
    std::fflush(stdout);
}

// One round to warm up, one that callgrind counts.
void count_all(std::vector<Measured> &all) {
    for (Measured &m : all) {
        m.ready();
        do_round(m);
        m.ready();
        CALLGRIND_TOGGLE_COLLECT;
        do_round(m);
        CALLGRIND_TOGGLE_COLLECT;
        std::string label = m.what + "\t" + std::to_string(m.calls);
        CALLGRIND_DUMP_STATS_AT(label.c_str());
    }
}

// Fails where the readers of digits differ, where the plain reader answers or holds something else, where an answer never came, or where
// the ends of loops or empty books of all instruments brought too little; prints the messages by answer, and what those brought.
void agree() {
    const std::string read = reading_difference();
    if (!read.empty()) fail("the readers of digits differ: " + read);
    for (Depth depth : {ORDER_DEPTH, PRICE_DEPTH}) {
        Brought brought;
        const std::string differs = disagreement(depth, AGREED, brought);
        if (!differs.empty()) fail("the plain reader differs: " + differs);
        for (uint64_t answer = 0; answer <= SELKAVORN_FIELDS; answer++)
            if (brought.answers[answer] == 0) fail("no message was answered " + std::to_string(answer));
        if (brought.empty == 0 || brought.replayed == 0 || brought.broke == 0) fail("the ends of loops brought too little");
        if (brought.emptied == 0 || brought.queued == 0 || brought.met == 0 || brought.refused == 0)
            fail("empty books of all instruments brought too little");
        for (const auto &counted : brought.answers)
            std::printf("%d\t%d\t%d\n", depth, static_cast<int>(counted.first), counted.second);
        std::printf("%d\tends of loops\t%d\t%d\t%d\n", depth, brought.empty, brought.replayed, brought.broke);
        std::printf("%d\tempty books of all\t%d\t%d\t%d\t%d\n", depth, brought.emptied, brought.queued, brought.met, brought.refused);
    }
}

// Prints a row of a recording: its bytes, the messages that were recorded, those that are found, the runs and their bytes.
void describe(const Recording &r, const Walked &w) {
    size_t found = 0, runs = 0, passed = 0;
    for (const Piece &p : checked(r, w)) {
        const bool is_message = p.kind == SELKAVORN_PIECE_MESSAGE;
        found += is_message;
        runs += !is_message;
        passed += is_message ? 0 : p.length;
    }
    std::printf("%s\t%s\t%zu\t%zu\t%zu\t%zu\t%zu\n", r.name.c_str(), w.what, w.bytes.size(), r.messages.size(), found, runs,
                passed);
}

// Fails where a walk finds other pieces than the plain reader.
void recordings() {
    for (const Recording &r : {even_recording(RECORDED_BYTES), mixed_recording(RECORDED_BYTES)})
        for (const Walked &w : walked(r)) describe(r, w);
    const Recording starts = false_starts(STARTS_BYTES);
    describe(starts, {"salvage", starts.bytes});
}

} // namespace

int main(int argc, char **argv) {
    const std::string how = argc > 1 ? argv[1] : "";
    if (how == "agree" && argc == 2) {
        agree();
        return 0;
    }
    if (how == "recordings" && argc == 2) {
        recordings();
        return 0;
    }
    const int rounds = how == "time" && argc == 4 ? std::atoi(argv[3]) : 0;
    const bool count = how == "count" && (argc == 3 || argc == 4), few = argc == 4;
    if (rounds <= 0 && !count)
        fail("usage: bench time DICTIONARY ROUNDS, bench count DICTIONARY [FEW], bench agree, or bench recordings");
    const Measure measure = [&](std::vector<Measured> &all) { count ? count_all(all) : time_all(all, rounds); };
    const Measure seldom = [&](std::vector<Measured> &all) {
        count ? count_all(all) : time_all(all, (rounds + ROUNDS_FOR_ONE - 1) / ROUNDS_FOR_ONE);
    };
    FIX::DataDictionary dictionary(argv[2]);
    if (count && few) {
        for (int entries : {1, 10}) measure_case({ORDER_DEPTH, entries, 0}, dictionary, measure);
        measure_digits(measure);
        return 0;
    }
    for (int waiting : {0, 1})
        for (Depth depth : {ORDER_DEPTH, PRICE_DEPTH})
            for (int entries : {1, 4, 10, 64}) measure_case({depth, entries, waiting}, dictionary, measure);
    for (Depth depth : {ORDER_DEPTH, PRICE_DEPTH}) {
        measure_others(depth, dictionary, measure);
        measure_prices(depth, measure);
        measure_loops(depth, measure);
        measure_empties(depth, measure);
    }
    measure_scans(measure);
    measure_digits(measure);
    measure_recordings(count ? COUNTED_BYTES : RECORDED_BYTES, dictionary, seldom);
}

#include "agree.hpp"

#include <algorithm>

#include "plain.h"
#include "same.hpp"
#include "selkavorn.h"
#include "store.hpp"

namespace {

constexpr int BETWEEN = 50;  // messages between two looks at all books
constexpr int OPENED = 1000; // messages to a board: behind the largest number, which a harmed one may have, none is counted

// Values at the bounds of one field or another, and just outside.
const char *const VALUES[] = {
    "0", "1", "2", "4", "5", "8", "00", "01", "J", "-0", "1.", "-0.5", "1.23456789", "1.234567891", "000000001.1", "0000000001",
    "999999999.99999999", "-999999999.99999999", "999999999.999999999", "1000000000", "20", "21", "64", "65", "65535",
    "65536", "4294967295", "4294967296", "999999999999", "1000000000000", "20240229", "20250229", "00000229", "23:59:60", "24:00:00",
    "12:00:00.00", "20250103-12:00:60.999", "ABCDEFGHIJKLMNOP", "ABCDEFGHIJKLMNOPQ", "A~", "A\x7f", "BVMF", "FIX.4.4"};
const int TAGS[] = {8,   9,   10,  22,  34,  35,  37,  48,  49,  52,  55,    99999, 100000,
                    207, 268, 269, 270, 271, 272, 273, 279, 290, 346, 369, 911};

template <typename T, size_t N> const T &any(const T (&all)[N], Draw &draw) { return all[draw.below(N)]; }

using Fields = std::vector<std::string>; // each with its SOH

// The fields of a message between 35 and 10.
Fields middle(const std::string &message) {
    Fields fields;
    for (size_t from = 0, end; from < message.size(); from = end + 1) {
        end = message.find(SOH, from);
        fields.push_back(message.substr(from, end + 1 - from));
    }
    return Fields(fields.begin() + 3, fields.end() - 1);
}

// Puts another value into the first field of a tag.
void set(Fields &fields, int tag, uint64_t value) {
    const std::string start = std::to_string(tag) + "=";
    for (std::string &f : fields)
        if (f.compare(0, start.size(), start) == 0) {
            f = field(tag, std::to_string(value));
            return;
        }
}

void harm_fields(Fields &fields, Draw &draw) {
    const size_t at = draw.below(static_cast<unsigned>(fields.size())), to = draw.below(static_cast<unsigned>(fields.size()));
    const std::string one = fields[at];
    switch (draw.below(6)) {
    case 0: fields.erase(fields.begin() + static_cast<long>(at)); break;
    case 1: fields.insert(fields.begin() + static_cast<long>(to), one); break;
    case 2: std::swap(fields[at], fields[to]); break;
    case 3: fields[at] = one.substr(0, one.find('=') + 1) + any(VALUES, draw) + SOH; break;
    case 4: fields[at] = field(any(TAGS, draw), any(VALUES, draw)); break;
    default: fields.insert(fields.begin() + static_cast<long>(to), field(any(TAGS, draw), any(VALUES, draw)));
    }
}

void harm_bytes(std::string &message, Draw &draw) {
    static const char BYTES[] = {'0', '1', '9', '=', SOH, '.', '-', ':', 'X', '\0', '\xff'};
    const size_t at = draw.below(static_cast<unsigned>(message.size()));
    switch (draw.below(4)) {
    case 0: message.erase(at, 1); break;
    case 1: message.insert(at, 1, any(BYTES, draw)); break;
    case 2: message.resize(at); break;
    default: message[at] = any(BYTES, draw);
    }
}

// What messages are drawn from.
struct Source {
    Stream few, many, most;           // entries a message
    std::vector<std::string> growing; // changes of books that were empty
    std::string over;                 // a snapshot with 21 bids
};

std::string over_full(const std::string &snapshot) {
    Fields fields = middle(snapshot);
    set(fields, 268, 41);
    std::string joined;
    for (const std::string &f : fields) joined += f;
    const auto start = std::find(fields.begin(), fields.end(), field(269, "0"));
    const Fields first(start, std::find(start, fields.end(), field(290, "1")));
    for (const std::string &f : first) joined += f;
    return message('W', joined + field(290, "21"));
}

// Gives a snapshot its place in a loop. Most go on with the one that is running, or begin one where none is.
void set_loop(Fields &fields, const plain_loop &loop, Draw &draw) {
    const bool runs = loop.come > 0;
    const bool other_number = draw.below(16) == 0, other_reports = draw.below(16) == 0;
    set(fields, 34, other_number ? 1 + draw.below(4) : runs ? loop.come + 1 : 1);
    set(fields, 911, other_reports || !runs ? 1 + draw.below(6) : loop.reports);
}

bool begins_entry(const std::string &f) { return f.compare(0, 4, "279=") == 0; }

// Puts an empty book of all instruments before one of the entries of an X or behind the last; now and then it stands alone. Says whether
// it has 22 or 207, which must not stand in it.
bool add_empty(Fields &fields, Draw &draw) {
    const unsigned wrong = draw.below(24);
    if (draw.below(3) == 0) fields.erase(std::find_if(fields.begin(), fields.end(), begins_entry), fields.end());
    std::vector<size_t> places = {fields.size()};
    for (size_t i = 0; i < fields.size(); i++)
        if (begins_entry(fields[i])) places.push_back(i);
    set(fields, 268, places.size());
    Fields entry = empty_of_all(draw.below(5));
    if (wrong == 0 || wrong == 2) entry.push_back(field(22, "8"));
    if (wrong == 1 || wrong == 2) entry.push_back(field(207, "BVMF"));
    fields.insert(fields.begin() + static_cast<long>(places[draw.below(static_cast<unsigned>(places.size()))]), entry.begin(), entry.end());
    return wrong <= 2;
}

// A message that is drawn.
struct Drawn {
    std::string bytes;
    bool wrong; // an X, not harmed, with an empty book that has 22 or 207 and no 48: it must be refused
};

// The next message: an X, a snapshot or a heartbeat, numbered after what the board holds, and often harmed.
Drawn next(const Source &source, const plain_board &board, Draw &draw) {
    const unsigned sort = draw.below(10);
    const Stream &stream = draw.below(16) == 0 ? source.most : draw.below(2) ? source.few : source.many;
    const unsigned jump = draw.below(60), back = draw.below(3);
    const uint64_t number = jump == 0 ? board.number + 2 : jump == 1 ? std::max<uint64_t>(board.number, 1) : board.number + 1;
    char type = sort < 5 ? 'X' : sort < 9 ? 'W' : '0';
    const std::vector<std::string> &changes = draw.below(3) == 0 ? source.growing : stream.changes;
    Fields fields = type == 'W' ? middle(draw.below(20) ? stream.snapshots[draw.below(INSTRUMENTS)] : source.over)
                                : middle(changes[draw.below(static_cast<unsigned>(changes.size()))]);
    if (type == '0') fields.resize(4);
    bool wrong = type == 'X' && draw.below(24) == 0 && add_empty(fields, draw);
    if (type == 'W') {
        set(fields, 369, back == 0 ? board.complete : back == 1 ? board.number : std::max<uint64_t>(board.number, 1) - 1);
        if (draw.below(20) == 0) set(fields, 369, draw.below(2) ? board.number + 1 : std::max<uint64_t>(board.complete, 1) - 1);
        if (draw.below(20) == 0) set(fields, 48, 7);
        set_loop(fields, board.loop, draw);
    } else {
        set(fields, 34, number);
    }
    if (draw.below(40) == 0) type = "AVfyB0"[draw.below(6)];
    wrong = wrong && type == 'X';
    for (unsigned harms = draw.below(4); harms > 1; harms--) {
        harm_fields(fields, draw);
        wrong = false;
    }
    std::string joined;
    for (const std::string &f : fields) joined += f;
    std::string bytes = message(type, joined);
    if (draw.below(8) != 0) return {bytes, wrong};
    harm_bytes(bytes, draw);
    return {bytes, false};
}

// Counts what a snapshot brought to those that waited and that its loop does not name: it changes them at the end of the loop alone.
// The board still has the names then.
void count_end(const plain_board &was, const plain_board &is, Brought &brought) {
    for (uint32_t i = 0; i < is.followed; i++) {
        const uint16_t bit = static_cast<uint16_t>(1u << i);
        if ((is.loop.named & bit) || !(was.waiting & bit)) continue;
        const bool live = !(is.waiting & bit), empty = is.sides[i][0].held + is.sides[i][1].held == 0;
        brought.empty += live && empty;
        brought.replayed += live && !empty;
        brought.broke += !live && is.reasons[i] != was.reasons[i];
    }
}

int places(const plain_board &board, uint32_t i) { return static_cast<int>(board.sides[i][0].held + board.sides[i][1].held); }

// The number in 369 of a snapshot that was taken.
uint64_t last_of(const std::string &snapshot) {
    const std::string start = SOH + std::string("369=");
    return std::stoull(snapshot.substr(snapshot.find(start) + start.size()));
}

// Counts what empty books of all instruments brought, by a message with this answer.
void count_empties(const plain_board &was, const plain_board &is, const std::string &bytes, uint64_t answer, Brought &brought) {
    auto is_above = [](uint64_t number) {
        return [number](const plain_entry &e) { return e.kind == PLAIN_EMPTY_ALL && e.number > number; };
    };
    int lost = 0;
    for (uint32_t i = 0; i < is.followed; i++)
        lost += !((was.waiting | is.waiting) >> i & 1) && places(was, i) > 0 && places(is, i) == 0;
    brought.emptied += lost > 1;
    brought.queued += is.number > was.number && std::any_of(is.queue, is.queue + is.queued, is_above(was.number));
    brought.met += answer == SELKAVORN_TAKEN && std::any_of(was.queue, was.queue + was.queued, is_above(last_of(bytes)));
}

} // namespace

std::string disagreement(Depth depth, int messages, Brought &brought) {
    const Source source = [depth] {
        Source made = {make_stream(depth, 200, 1), make_stream(depth, 50, 10), make_stream(depth, 10, 64),
                       make_loop(depth, 100, 2, 2).changes, ""};
        made.over = over_full(made.few.snapshots[0]);
        return made;
    }();
    Draw draw;
    Store store;
    plain_board board;
    const std::vector<uint64_t> &ids = source.few.ids;
    for (int n = 0; n < messages; n++) {
        if (n % OPENED == 0) {
            selkavorn_open(store.data(), store.size(), depth, ids.data(), ids.size());
            plain_open(&board, static_cast<plain_depth>(depth), ids.data(), ids.size());
        }
        const Drawn drawn = next(source, board, draw);
        const std::string &bytes = drawn.bytes;
        const uint8_t *const at = reinterpret_cast<const uint8_t *>(bytes.data());
        const plain_board was = board;
        const uint64_t ours = selkavorn_feed(store.data(), store.size(), at, bytes.size());
        const uint64_t theirs = plain_feed(&board, at, bytes.size());
        const uint64_t answer = SELKAVORN_ANSWER(ours);
        brought.answers[answer]++;
        if (answer >= SELKAVORN_TAKEN && answer <= SELKAVORN_REPLAY_BROKE) count_end(was, board, brought);
        count_empties(was, board, bytes, answer, brought);
        brought.refused += drawn.wrong;
        std::string differs;
        if (ours != theirs) differs = "answered " + std::to_string(ours) + " and " + std::to_string(theirs);
        else if (drawn.wrong && answer != SELKAVORN_FIELDS) differs = "both answered " + std::to_string(ours) + ", which must be 14";
        else if ((n + 1) % BETWEEN == 0 || n + 1 == messages) differs = difference(store, seen(board));
        if (!differs.empty()) return "message " + std::to_string(n + 1) + ": " + differs + ": " + bytes;
    }
    return "";
}

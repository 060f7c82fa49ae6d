#include "streams.hpp"

namespace {

constexpr uint64_t FIRST_ID = 3809512, BETWEEN_IDS = 132;

std::string time_of_day(Draw &draw) {
    return "13:" + padded(draw.below(60), 2) + ":" + padded(draw.below(60), 2) + "." + padded(draw.below(1000), 3);
}

std::string head(unsigned number, Draw &draw) {
    return field(49, "BVMF") + field(56, "HUT") + field(34, std::to_string(number)) + field(52, "20250103-" + time_of_day(draw));
}

// What the entries of a stream are like.
struct Kind {
    Depth depth;
    Ids ids;
    Prices prices;
};

std::string order_id(Ids ids, Draw &draw) {
    bool is_short = ids == MIXED_IDS && draw.below(2) == 0;
    return (is_short ? "" : "79900") + padded(draw.below(100000), 5);
}

std::string drawn_price(Prices prices, Draw &draw) {
    if (prices == SHORT_PRICES) return std::to_string(300 + draw.below(50)) + "." + padded(draw.below(100), 2);
    const std::string minus = draw.below(2) == 0 ? "-" : "";
    const unsigned whole = prices == LONG_PRICES ? 100000000 + draw.below(600000000) : 900000000 + draw.below(100000000);
    return minus + std::to_string(whole) + "." + padded(draw.below(100000000), 8);
}

// Price, size, order id or number of orders, date and time.
std::string values(Kind kind, Draw &draw) {
    std::string price = drawn_price(kind.prices, draw);
    std::string by = kind.depth == ORDER_DEPTH ? field(37, order_id(kind.ids, draw)) : field(346, std::to_string(1 + draw.below(99)));
    return field(270, price) + field(271, std::to_string(1 + draw.below(5000))) + by + field(272, "20250103") +
           field(273, time_of_day(draw));
}

// What a snapshot says of its loop.
struct InLoop {
    int number;  // 34
    int reports; // 911
    int last;    // 369
};

std::string snapshot(Kind kind, InLoop in, uint64_t id, Draw &draw) {
    // 369 is a field of QuickFIX's header, so it stands before 48.
    std::string fields = head(in.number, draw) + field(369, std::to_string(in.last)) + field(48, std::to_string(id)) + field(22, "8") +
                         field(207, "BVMF") + field(911, std::to_string(in.reports)) + field(268, std::to_string(2 * PLACES));
    for (int side = 0; side < 2; side++)
        for (int place = 1; place <= PLACES; place++)
            fields += field(269, std::to_string(side)) + values(kind, draw) + field(290, std::to_string(place));
    return message('W', fields);
}

std::vector<uint64_t> followed_ids() {
    std::vector<uint64_t> ids;
    for (int i = 0; i < INSTRUMENTS; i++) ids.push_back(FIRST_ID + BETWEEN_IDS * i);
    return ids;
}

// Places held, by instrument and side.
using Held = int[INSTRUMENTS][2];

enum Action { NEW, CHANGE, DELETE };

std::string entry(Kind kind, Action action, unsigned side, uint64_t id, unsigned place, Draw &draw) {
    return field(279, std::to_string(action)) + field(269, std::to_string(side)) + field(48, std::to_string(id)) + field(22, "8") +
           field(207, "BVMF") + (action == DELETE ? "" : values(kind, draw)) + field(290, std::to_string(place));
}

// An entry that keeps full books full.
std::string full_entry(Kind kind, const std::vector<uint64_t> &ids, Held held, Draw &draw) {
    unsigned instrument = draw.below(INSTRUMENTS), side = draw.below(2), place = 1 + draw.below(PLACES - 1);
    int &places = held[instrument][side];
    bool change = draw.below(2) == 0;
    Action action = change ? CHANGE : places == PLACES ? DELETE : NEW;
    if (action == NEW) places++;
    if (action == DELETE) places--;
    return entry(kind, action, side, ids[instrument], place, draw);
}

// An entry that lets empty books grow.
std::string growing_entry(Kind kind, const std::vector<uint64_t> &ids, Held held, Draw &draw) {
    unsigned instrument = draw.below(INSTRUMENTS), side = draw.below(2);
    int &places = held[instrument][side];
    bool change = places == PLACES || (places > 0 && draw.below(2) == 0);
    if (!change) places++;
    return entry(kind, change ? CHANGE : NEW, side, ids[instrument], 1 + draw.below(static_cast<unsigned>(places)), draw);
}

// An X of as many entries, each given by `next`.
template <typename Next> std::string changes(int number, int entries, Draw &draw, Next next) {
    std::string fields = head(number, draw) + field(268, std::to_string(entries));
    for (int i = 0; i < entries; i++) fields += next();
    return message('X', fields);
}

} // namespace

std::string padded(uint64_t value, size_t width) {
    std::string digits = std::to_string(value);
    return std::string(width - digits.size(), '0') + digits;
}

std::string field(int tag, const std::string &value) { return std::to_string(tag) + "=" + value + SOH; }

std::string message(char type, const std::string &fields) {
    std::string body = field(35, std::string(1, type)) + fields;
    std::string bytes = field(8, "FIX.4.4") + field(9, std::to_string(body.size())) + body;
    unsigned sum = 0;
    for (unsigned char byte : bytes) sum += byte;
    return bytes + field(10, padded(sum % 256, 3));
}

Stream make_stream(Depth depth, int messages, int entries, Ids ids, Prices prices) {
    const Kind kind = {depth, ids, prices};
    Draw draw;
    Stream stream;
    Held held;
    stream.ids = followed_ids();
    for (int i = 0; i < INSTRUMENTS; i++) {
        stream.snapshots.push_back(snapshot(kind, {i + 1, INSTRUMENTS, 0}, stream.ids[i], draw));
        held[i][0] = held[i][1] = PLACES;
    }
    for (int n = 1; n <= messages; n++)
        stream.changes.push_back(changes(n, entries, draw, [&] { return full_entry(kind, stream.ids, held, draw); }));
    return stream;
}

std::vector<std::string> empty_of_all(unsigned action) { return {field(279, std::to_string(action)), field(269, "J")}; }

std::string make_empty(int number) {
    Draw draw;
    return changes(number, 1, draw, [] {
        const std::vector<std::string> fields = empty_of_all(NEW);
        return fields[0] + fields[1];
    });
}

Loop make_loop(Depth depth, int messages, int entries, int reports) {
    const Kind kind = {depth, LONG_IDS, SHORT_PRICES};
    Draw draw;
    Loop loop;
    Held held = {};
    loop.ids = followed_ids();
    for (int n = 1; n <= messages; n++)
        loop.changes.push_back(changes(n, entries, draw, [&] { return growing_entry(kind, loop.ids, held, draw); }));
    loop.first = snapshot(kind, {1, reports, 0}, loop.ids.back() + BETWEEN_IDS, draw);
    loop.second = snapshot(kind, {2, reports, messages}, loop.ids.front(), draw);
    return loop;
}

#include "same.hpp"

#include <algorithm>
#include <cctype>
#include <cmath>

#include "selkavorn.h"
#include "selkavorn_lots.h"

namespace {

const std::string NOW = "20250103-14:00:00.000"; // after the last message of a stream
const std::string SENDER = "HUT", TARGET = "SHED";

const uint8_t *bytes(const std::string &text) { return reinterpret_cast<const uint8_t *>(text.data()); }

// The number that the digits of a text write, whatever stands between them.
uint64_t digits(const std::string &text) {
    uint64_t value = 0;
    for (char c : text)
        if (std::isdigit(static_cast<unsigned char>(c))) value = 10 * value + static_cast<uint64_t>(c - '0');
    return value;
}

// A price of few digits, as those that QuickFIX's board is given have, is exact when a double is rounded to the unit.
SeenPlace seen(const PeerEntry &e) {
    return {std::llround(e.price * SELKAVORN_PRICE_UNIT), static_cast<uint64_t>(std::llround(e.size)), e.order,
            static_cast<uint64_t>(e.orders), digits(e.date), digits(e.time)};
}

SeenPlace seen(const plain_place &p, Depth depth) {
    SeenPlace place = {p.price, p.size, "", p.by, p.date, p.time};
    if (depth == PRICE_DEPTH) return place;
    place.orders = 0;
    for (uint64_t word : {p.by, p.more})
        for (; word; word /= 256) place.order += static_cast<char>(word % 256);
    return place;
}

// Up to 8 bytes of an order id from `at` on, low byte first.
uint64_t word(const std::string &order, size_t at) {
    uint64_t value = 0;
    for (size_t i = std::min(order.size(), at + 8); i > at; i--) value = 256 * value + static_cast<uint8_t>(order[i - 1]);
    return value;
}

// Appends the seven numbers of a side's place 1 in a quote.
void quote_side(const std::vector<SeenPlace> &side, std::vector<uint64_t> &quote) {
    if (side.empty()) {
        quote.insert(quote.end(), 7, 0);
        return;
    }
    const SeenPlace &p = side.front();
    bool ordered = !p.order.empty();
    quote.insert(quote.end(), {1, static_cast<uint64_t>(p.price), p.size, ordered ? word(p.order, 0) : p.orders,
                               ordered ? word(p.order, 8) : 0, p.date, p.time});
}

std::vector<uint64_t> expected_quote(const SeenBoard &board, const SeenBook &book) {
    std::vector<uint64_t> quote = {board.number, board.date, board.time};
    quote_side(book.sides[0], quote);
    quote_side(book.sides[1], quote);
    return quote;
}

std::vector<uint64_t> expected_lot(const SeenBoard &board, const SeenBook &book, uint64_t quantity) {
    int64_t sum = 0;
    uint64_t left = quantity;
    for (const SeenPlace &p : book.sides[0]) {
        const uint64_t units = std::min(left, p.size);
        sum += p.price * static_cast<int64_t>(units);
        left -= units;
    }
    return {board.number, board.date, board.time, static_cast<uint64_t>(sum), left};
}

// A price without needless zero, point or minus.
std::string price_text(int64_t price) {
    std::string rest = padded(std::llabs(price) % SELKAVORN_PRICE_UNIT, SELKAVORN_PRICE_DECIMALS);
    rest.erase(rest.find_last_not_of('0') + 1);
    return (price < 0 ? "-" : "") + std::to_string(std::llabs(price) / SELKAVORN_PRICE_UNIT) + (rest.empty() ? "" : "." + rest);
}

std::string time_text(uint64_t time) {
    return padded(time / 10000000, 2) + ":" + padded(time / 100000 % 100, 2) + ":" + padded(time / 1000 % 100, 2) + "." +
           padded(time % 1000, 3);
}

std::string expected_writing(const SeenBoard &board, const SeenBook &book) {
    std::string fields = field(49, SENDER) + field(56, TARGET) + field(34, "1") + field(52, NOW) + field(48, std::to_string(book.id)) +
                         field(22, "8") + field(207, "BVMF") + field(369, std::to_string(board.number)) + field(911, "1") +
                         field(268, std::to_string(book.sides[0].size() + book.sides[1].size()));
    for (int side = 0; side < 2; side++) {
        int place = 0;
        for (const SeenPlace &p : book.sides[side])
            fields += field(269, std::to_string(side)) + field(270, price_text(p.price)) + field(271, std::to_string(p.size)) +
                      (board.depth == ORDER_DEPTH ? field(37, p.order) : field(346, std::to_string(p.orders))) +
                      field(272, padded(p.date, 8)) + field(273, time_text(p.time)) + field(290, std::to_string(++place));
    }
    return message('W', fields);
}

std::string written(const Store &store, uint64_t id) {
    std::string out(SELKAVORN_LONGEST_WRITING, '\0');
    uint64_t answered = selkavorn_write(store.data(), store.size(), id, bytes(SENDER), SENDER.size(), bytes(TARGET), TARGET.size(), 1,
                                        1, bytes(NOW), NOW.size(), reinterpret_cast<uint8_t *>(&out[0]), out.size());
    out.resize(SELKAVORN_LENGTH(answered));
    return out;
}

// What differs of one instrument, or nothing.
std::string difference(const Store &store, const SeenBoard &board, const SeenBook &book) {
    uint64_t state[SELKAVORN_STATE_NUMBERS];
    if (selkavorn_state(store.data(), store.size(), book.id, state, SELKAVORN_STATE_NUMBERS) != SELKAVORN_DONE) return "no state";
    if (state[SELKAVORN_STATE_WAITING] != book.waiting) return "one of the two waits";
    if (book.waiting) return "";
    if (written(store, book.id) != expected_writing(board, book)) return "the book differs";
    if (board.number == 0) return "";
    std::vector<uint64_t> quote(SELKAVORN_QUOTE_NUMBERS);
    uint64_t answer = selkavorn_quote(store.data(), store.size(), book.id, bytes(NOW), NOW.size(), SELKAVORN_LONGEST_LIMIT_S,
                                      quote.data(), quote.size());
    if (answer != SELKAVORN_DONE) return "it is not quoted: answer " + std::to_string(answer);
    return quote == expected_quote(board, book) ? "" : "the quote differs";
}

} // namespace

SeenBoard seen(const PeerBoard &board, Depth depth) {
    SeenBoard to = {depth, board.number, digits(board.heard.substr(0, 8)), digits(board.heard.substr(9)), {}};
    for (const PeerBook &book : board.books) {
        to.books.push_back({book.id, false, {}});
        for (int side = 0; side < 2; side++)
            for (const PeerEntry &e : book.sides[side]) to.books.back().sides[side].push_back(seen(e));
    }
    return to;
}

SeenBoard seen(const plain_board &board) {
    const Depth depth = board.depth == PLAIN_ORDER_DEPTH ? ORDER_DEPTH : PRICE_DEPTH;
    SeenBoard to = {depth, board.number, board.heard_date, board.heard_time, {}};
    for (uint32_t i = 0; i < board.followed; i++) {
        to.books.push_back({board.ids[i], (board.waiting >> i & 1) != 0, {}});
        for (int side = 0; side < 2; side++)
            for (uint64_t p = 0; p < board.sides[i][side].held; p++)
                to.books.back().sides[side].push_back(seen(board.sides[i][side].places[p], depth));
    }
    return to;
}

std::string difference(const Store &store, const SeenBoard &board) {
    for (const SeenBook &book : board.books) {
        std::string differs = difference(store, board, book);
        if (!differs.empty()) return std::to_string(book.id) + ": " + differs;
    }
    return "";
}

std::string lot_difference(const Store &store, const SeenBoard &board, const SeenBook &book, uint64_t quantity) {
    std::vector<uint64_t> lot(SELKAVORN_LOT_NUMBERS);
    uint64_t answer = selkavorn_sell(store.data(), store.size(), book.id, quantity, bytes(NOW), NOW.size(), SELKAVORN_LONGEST_LIMIT_S,
                                     lot.data(), lot.size());
    if (answer != SELKAVORN_DONE) return "it is not sold: answer " + std::to_string(answer);
    return lot == expected_lot(board, book, quantity) ? "" : "what it brings differs";
}

#include "values.hpp"

#include "digits.h"
#include "streams.hpp"

namespace {

// Too many for the processor to learn which are bad, or how long each is where lengths differ, and so few that a usual second-level cache
// holds them.
constexpr int VALUES_OF_A_SORT = 16384;
constexpr unsigned LONGEST_TRIED = 20; // bytes

bool is_digit(char byte) { return byte >= '0' && byte <= '9'; }

char drawn_digit(unsigned least, Draw &draw) { return static_cast<char>('0' + least + draw.below(10 - least)); }

std::string drawn_digits(unsigned length, Draw &draw) {
    std::string value;
    while (value.size() < length) value += drawn_digit(value.empty() ? 1 : 0, draw);
    return value;
}

// A byte that is no digit: often one of the two next to the digits.
char wrong_byte(Draw &draw) {
    const unsigned which = draw.below(4);
    if (which < 2) return which == 0 ? '/' : ':';
    char byte;
    do byte = static_cast<char>(draw.below(256));
    while (is_digit(byte));
    return byte;
}

Values values_of(unsigned shortest, unsigned longest, bool good) {
    Draw draw;
    Values values = {shortest, longest, good, "", {}, 0};
    for (int i = 0; i < VALUES_OF_A_SORT; i++) {
        const unsigned length = shortest + draw.below(longest - shortest + 1);
        std::string value = drawn_digits(length, draw);
        values.sum += good ? std::stoull(value) : DIGITS_NONE;
        if (!good) value[draw.below(length)] = wrong_byte(draw);
        values.places.push_back({static_cast<uint32_t>(values.text.size()), length});
        values.text += value + SOH;
    }
    return values;
}

// A value with each byte that is no digit in hex.
std::string shown(const std::string &value) {
    const char *const hex = "0123456789abcdef";
    std::string text;
    for (char byte : value) {
        const unsigned code = static_cast<unsigned char>(byte);
        text += is_digit(byte) ? std::string(1, byte) : std::string("\\x") + hex[code / 16] + hex[code % 16];
    }
    return "'" + text + "'";
}

// Says what the readers answer to a value where that differs, or nothing.
std::string difference(const std::string &value) {
    const uint8_t *const at = reinterpret_cast<const uint8_t *>(value.data());
    const uint64_t now = selkavorn_gauge_digits(at, value.size()), by_one = selkavorn_gauge_by_one(at, value.size()),
                   plain = plain_digits(at, value.size());
    if (now == plain && by_one == plain) return "";
    return shown(value) + ": now " + std::to_string(now) + ", by one " + std::to_string(by_one) + ", plain " + std::to_string(plain);
}

// The same for a text and all that differ from it in one byte.
std::string difference_around(const std::string &text) {
    std::string differs = difference(text);
    for (size_t at = 0; at < text.size(); at++)
        for (int byte = 0; byte < 256 && differs.empty(); byte++) {
            std::string value = text;
            value[at] = static_cast<char>(byte);
            differs = difference(value);
        }
    return differs;
}

} // namespace

std::vector<Values> make_values() {
    std::vector<Values> all;
    for (unsigned length : {1, 2, 3, 4, 5, 8, 12, 18})
        for (bool good : {true, false}) all.push_back(values_of(length, length, good));
    for (unsigned longest : {4, 18})
        for (bool good : {true, false}) all.push_back(values_of(1, longest, good));
    return all;
}

std::string reading_difference() {
    std::string differs;
    for (const Values &values : make_values())
        for (const Place &place : values.places)
            if (differs.empty()) differs = difference(values.text.substr(place.from, place.length));
    Draw draw;
    for (unsigned length = 0; length <= LONGEST_TRIED; length++)
        for (const std::string &text : {std::string(length, '0'), std::string(length, '9'), drawn_digits(length, draw)})
            if (differs.empty()) differs = difference_around(text);
    return differs;
}

#include "walk.hpp"

#include <algorithm>
#include <cctype>

#include "plain.h"
#include "selkavorn.h"
#include "streams.hpp"

namespace {

constexpr size_t PIECES_A_CALL = 1024;
constexpr size_t TRAILER = 7;     // bytes of 10=, three digits and SOH
constexpr size_t MOST_DIGITS = 5; // of tag 9

const uint8_t *bytes(const std::string &text) { return reinterpret_cast<const uint8_t *>(text.data()); }

// Hands the numbers of each call's pieces on, and how many pieces they are. Says whether every call was done.
template <typename Take> bool walk_by_calls(const std::string &recording, Take take) {
    static uint64_t room[SELKAVORN_SALVAGE_PIECES + SELKAVORN_PIECE_NUMBERS * PIECES_A_CALL];
    uint64_t from = 0;
    while (from < recording.size()) {
        if (selkavorn_salvage(bytes(recording), recording.size(), from, room, sizeof room / sizeof *room) != SELKAVORN_DONE)
            return false;
        take(room + SELKAVORN_SALVAGE_PIECES, room[SELKAVORN_SALVAGE_COUNT]);
        from = room[SELKAVORN_SALVAGE_NEXT];
    }
    return true;
}

// The length of the stretch that 8 and 9 name from a place on, or 0 where they name none in the recording.
size_t named(const std::string &recording, size_t at) {
    static const std::string BEGIN = field(8, "FIX.4.4") + "9=";
    if (recording.compare(at, BEGIN.size(), BEGIN) != 0) return 0;
    const size_t from = at + BEGIN.size(), most = std::min(from + MOST_DIGITS, recording.size());
    size_t count = 0, i = from;
    for (; i < most && std::isdigit(static_cast<unsigned char>(recording[i])); i++)
        count = 10 * count + static_cast<size_t>(recording[i] - '0');
    if (i == recording.size() || recording[i] != SOH) return 0;
    const size_t length = i + 1 - at + count + TRAILER;
    return length <= recording.size() - at ? length : 0;
}

// The length of the message at a place, or 0. What else the board answers does not matter.
size_t message_length(const std::string &recording, size_t at, plain_board &board) {
    const size_t length = named(recording, at);
    if (length == 0) return 0;
    const uint64_t answer = SELKAVORN_ANSWER(plain_feed(&board, bytes(recording) + at, length));
    return answer == SELKAVORN_FRAME || answer == SELKAVORN_CHECKSUM ? 0 : length;
}

std::string text(const Piece &p) {
    return std::string(p.kind == SELKAVORN_PIECE_MESSAGE ? "a message" : "a passed run") + " of " + std::to_string(p.length) +
           " bytes at " + std::to_string(p.start);
}

bool same(const Piece &a, const Piece &b) { return a.kind == b.kind && a.start == b.start && a.length == b.length; }

} // namespace

size_t walk_count(const std::string &recording) {
    size_t count = 0;
    return walk_by_calls(recording, [&](const uint64_t *, uint64_t n) { count += n; }) ? count : 0;
}

Pieces walk(const std::string &recording) {
    Pieces pieces;
    walk_by_calls(recording, [&](const uint64_t *numbers, uint64_t n) {
        for (; n > 0; n--, numbers += SELKAVORN_PIECE_NUMBERS)
            pieces.push_back({numbers[SELKAVORN_PIECE_KIND], numbers[SELKAVORN_PIECE_START], numbers[SELKAVORN_PIECE_LENGTH]});
    });
    return pieces;
}

Pieces plain_walk(const std::string &recording) {
    const uint64_t id = 1;
    plain_board board;
    plain_open(&board, PLAIN_ORDER_DEPTH, &id, 1);
    Pieces pieces;
    for (size_t at = 0; at < recording.size();) {
        const size_t length = message_length(recording, at, board);
        if (length > 0)
            pieces.push_back({SELKAVORN_PIECE_MESSAGE, at, length});
        else if (pieces.empty() || pieces.back().kind == SELKAVORN_PIECE_MESSAGE)
            pieces.push_back({SELKAVORN_PIECE_PASSED, at, 1});
        else
            pieces.back().length++;
        at += length > 0 ? length : 1;
    }
    return pieces;
}

std::string difference(const Pieces &walked, const Pieces &expected, size_t bytes) {
    uint64_t covered = 0;
    for (size_t i = 0; i < walked.size(); i++) {
        if (i == expected.size()) return text(walked[i]) + " is too many";
        if (!same(walked[i], expected[i])) return text(walked[i]) + ", and not " + text(expected[i]);
        covered += walked[i].length;
    }
    if (walked.size() < expected.size()) return text(expected[walked.size()]) + " is not found";
    return covered == bytes ? "" : std::to_string(covered) + " bytes of " + std::to_string(bytes) + " are covered";
}

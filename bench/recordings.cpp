#include "recordings.hpp"

#include "selkavorn.h"
#include "streams.hpp"

namespace {

constexpr size_t SHORTEST_X = 100; // bytes that every X of a stream has at least
constexpr int DRAWN_FROM = 2048;   // messages of a kind that a mixed recording draws from

void add(Recording &recording, const std::string &bytes) {
    recording.messages.push_back(bytes);
    recording.bytes += bytes;
}

const std::string &any(const std::vector<std::string> &messages, Draw &draw) {
    return messages[draw.below(static_cast<unsigned>(messages.size()))];
}

// The starts of a longest message, the trailer behind the last one. They are made from the last one on, since each names how many
// bytes stand behind it.
std::vector<std::string> block_of_starts() {
    const std::string type = field(35, "0"), trailer = field(10, "999");
    std::vector<std::string> starts;
    for (size_t behind = 0;;) {
        const std::string start = field(8, "FIX.4.4") + field(9, std::to_string(type.size() + behind)) + type;
        if (start.size() + behind + trailer.size() > SELKAVORN_LONGEST_MESSAGE) return starts;
        behind += start.size();
        starts.insert(starts.begin(), starts.empty() ? start + trailer : start);
    }
}

} // namespace

Recording even_recording(size_t bytes) {
    const Stream stream = make_stream(ORDER_DEPTH, static_cast<int>(bytes / SHORTEST_X) + 1, 1);
    Recording recording = {"even", {}, ""};
    for (size_t i = 0; recording.bytes.size() < bytes; i++) add(recording, stream.changes.at(i));
    return recording;
}

Recording mixed_recording(size_t bytes) {
    const Stream ones = make_stream(ORDER_DEPTH, DRAWN_FROM, 1), fours = make_stream(ORDER_DEPTH, DRAWN_FROM, 4),
                 tens = make_stream(ORDER_DEPTH, DRAWN_FROM, 10);
    const std::string head = field(49, "BVMF") + field(56, "HUT") + field(34, "1") + field(52, "20250103-13:00:00.000");
    const std::vector<std::string> heartbeats = {message('0', head)};
    Recording recording = {"mixed", {}, ""};
    Draw draw;
    while (recording.bytes.size() < bytes) {
        const unsigned kind = draw.below(16);
        const std::vector<std::string> &from = kind < 10   ? ones.changes
                                               : kind < 13 ? fours.changes
                                               : kind < 14 ? tens.changes
                                               : kind < 15 ? heartbeats
                                                           : ones.snapshots;
        add(recording, any(from, draw));
    }
    return recording;
}

Recording false_starts(size_t bytes) {
    const std::vector<std::string> block = block_of_starts();
    Recording recording = {"false starts", {}, ""};
    while (recording.bytes.size() < bytes)
        for (const std::string &start : block) add(recording, start);
    return recording;
}

std::string damaged(const std::string &bytes, unsigned cases) {
    Draw draw;
    std::string to = bytes;
    for (char &byte : to)
        if (draw.below(cases) == 0) byte = static_cast<char>(draw.below(256));
    return to;
}

// Recordings to walk: messages end to end, whole or with damaged bytes among them, and starts of messages that are none.
#pragma once
#include <cstddef>
#include <string>
#include <vector>

struct Recording {
    std::string name;
    std::vector<std::string> messages; // those that were recorded; of false starts, the bytes from one to the next
    std::string bytes;                 // all of them end to end
};

// X of 1 entry, at order depth as all recordings are; they have at least so many bytes together.
Recording even_recording(size_t bytes);

// Messages drawn from what a channel sends: of 16, on average, ten X of 1 entry, three of 4, one of 10, a heartbeat and a
// snapshot of 40 entries.
Recording mixed_recording(size_t bytes);

// Starts of messages that are none, as dense as they can stand. Each names a stretch up to the next trailer, which those of one
// longest message share; it says a sum that no message has, so that each stretch is read to its end before it is refused.
Recording false_starts(size_t bytes);

// The bytes, each replaced by a drawn one in one of so many cases.
std::string damaged(const std::string &bytes, unsigned cases);

// Whether the plain reader in C answers what the proved code does, also where messages are lost, repeated and harmed.
#pragma once
#include <cstdint>
#include <map>
#include <string>

#include "streams.hpp"

// What the messages brought.
struct Brought {
    std::map<uint64_t, int> answers; // messages, by their answer
    // Instruments at the ends of loops that did not name them: those that went Live with an empty book, those that did with places, and
    // those that broke.
    int empty = 0, replayed = 0, broke = 0;
    // Empty books of all instruments: messages by which two Live books or more lost all their places, those of which one joined the queue,
    // snapshots that were taken while one above their 369 was queued, and messages that were refused because one had 22 or 207.
    int emptied = 0, queued = 0, met = 0, refused = 0;
};

// Feeds as many drawn messages to both. Says where they first differ, in an answer or in what they then hold, or nothing.
std::string disagreement(Depth depth, int messages, Brought &brought);

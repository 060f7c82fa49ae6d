// Streams of messages to measure with: snapshots that fill every book, then changes that keep them full.
#pragma once
#include <cstdint>
#include <string>
#include <vector>

constexpr int INSTRUMENTS = 16;
constexpr int PLACES = 20;

enum Depth { ORDER_DEPTH = 0, PRICE_DEPTH = 1 };

// Order ids: all of 10 bytes, or some of 10 and some of 5, drawn evenly.
enum Ids { LONG_IDS, MIXED_IDS };

// Prices: of 3 digits and 2 decimals; or of 9 digits and 8 decimals, half of them below 0: less than 700,000,000 from 0, or 900,000,000
// and more.
enum Prices { SHORT_PRICES, LONG_PRICES, FAR_PRICES };

constexpr char SOH = '\1';

// Numbers that look drawn, the same in every run (Knuth's multiplier, the upper half of the state).
struct Draw {
    uint64_t state = 20250103;
    unsigned below(unsigned n) {
        state = state * 6364136223846793005u + 1442695040888963407u;
        return static_cast<unsigned>((state >> 33) % n);
    }
};

struct Stream {
    std::vector<uint64_t> ids;          // the SecurityIDs followed
    std::vector<std::string> snapshots; // a W of 20 bids and 20 offers for each, with 369 = 0
    std::vector<std::string> changes;   // X, numbered from 1
};

// Changes of books that were empty, and the first two snapshots of a loop. The first is of an instrument that is not followed, with
// 369 = 0, so that the end of the loop reaches back to before the first X. The second is of the first instrument that is followed,
// with 369 = the number of the last X.
struct Loop {
    std::vector<uint64_t> ids;        // the SecurityIDs followed
    std::vector<std::string> changes; // X, numbered from 1
    std::string first, second;        // W of 20 bids and 20 offers each
};

// The digits of a number, with zeros before them.
std::string padded(uint64_t value, size_t width);

// A field of a message, its SOH included.
std::string field(int tag, const std::string &value);

// A whole message, from its type and the fields behind it: 8, 9 and 10 are added.
std::string message(char type, const std::string &fields);

// `messages` X of `entries` entries each. Instruments, sides and places are drawn evenly. At a side of 20 places an entry is a
// change or a delete, at one of 19 a change or a new, each as often as the other, so that sides hold 19 or 20.
Stream make_stream(Depth depth, int messages, int entries, Ids ids = LONG_IDS, Prices prices = SHORT_PRICES);

// An empty book (J) of all instruments: the two fields of its entry.
std::vector<std::string> empty_of_all(unsigned action);

// An X with that number and one entry, an empty book of all instruments.
std::string make_empty(int number);

// `messages` X of `entries` entries each, and a loop of `reports` snapshots. Instruments, sides and places are drawn evenly. At a side
// without places an entry is a new, at a full one a change, else a change or a new, each as often as the other.
Loop make_loop(Depth depth, int messages, int entries, int reports);

// Whether a store and a peer's board hold the same books, so that both sides are timed at the same work.
#pragma once
#include <string>
#include <vector>

#include "peer.hpp"
#include "plain.h"
#include "store.hpp"
#include "streams.hpp"

// A board in the words of the header, whoever keeps it: prices in hundred-millionths, dates as YYYYMMDD, times as HHMMSSmmm.
struct SeenPlace {
    int64_t price;
    uint64_t size;
    std::string order; // or empty
    uint64_t orders;   // or 0
    uint64_t date, time;
};

struct SeenBook {
    uint64_t id;
    bool waiting;
    std::vector<SeenPlace> sides[2];
};

struct SeenBoard {
    Depth depth;
    uint64_t number, date, time;
    std::vector<SeenBook> books;
};

SeenBoard seen(const PeerBoard &board, Depth depth);
SeenBoard seen(const plain_board &board);

// Says where a store and a board first differ, or nothing where they are alike. Each instrument is Waiting in both or Live in both.
// One that is Live is quoted, once something is heard, and all numbers of the quote are compared; its book is written as a
// snapshot, and all bytes of that are compared.
std::string difference(const Store &store, const SeenBoard &board);

// Says whether selling so many units of an instrument is refused, or gives another number than its bids in the board do, taken from
// place 1 on; or nothing. Their sum must fit 64 bits.
std::string lot_difference(const Store &store, const SeenBoard &board, const SeenBook &book, uint64_t quantity);

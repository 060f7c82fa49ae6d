/* A side of a book, read from a snapshot (W) that the library wrote. */
#ifndef BOOK_H
#define BOOK_H

#include "recording.h"

struct place {
    uint64_t price; /* in the unit of a price, as its 64 bits */
    uint64_t size;
};

struct side {
    struct place of[SELKAVORN_MOST_PLACES];
    size_t n;
};

/* Reads the side whose entries have this 269. False where an entry is not as the library writes
 * it, with its price, its size and its place, from 1 on. */
bool read_side(const struct piece *snapshot, char kind, struct side *side);

#endif

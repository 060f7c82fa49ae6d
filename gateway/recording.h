/* A recording: messages end to end, with bytes between them that are no message. */
#ifndef RECORDING_H
#define RECORDING_H

#include <stdbool.h>
#include <stddef.h>
#include <stdint.h>

#include "progress.h"
#include "selkavorn.h"

enum {
    SOH = 1,
    RECORDING_BUFFER = 262144, /* bytes at hand at most */
    WALK_PIECES = 256,         /* that one call of the library finds at most */
    WALK_NUMBERS = SELKAVORN_SALVAGE_PIECES + SELKAVORN_PIECE_NUMBERS * WALK_PIECES
};

enum piece_kind { PIECE_MESSAGE, PIECE_PASSED, PIECE_END };

/* A message, a run of passed bytes, or the end. */
struct piece {
    enum piece_kind kind;
    uint64_t place;       /* of its first byte; the recording's first byte is 0 */
    uint64_t length;      /* in bytes */
    const uint8_t *bytes; /* of a message, until the next call */
    bool of_snapshots;    /* it stands in the recording of the snapshot stream */
};

/* A recording being walked. The bytes at hand of which nothing is decided are bytes[start] to
 * bytes[end - 1]. */
struct recording {
    int file;
    int failure;                 /* errno of a failed reading, or 0 */
    bool ended;                  /* nothing follows bytes[end - 1] */
    struct progress *progress;   /* of the reading, or NULL */
    struct piece run;            /* passed bytes up to bytes[start] that are not yet given */
    uint64_t walk[WALK_NUMBERS]; /* what the library found last, by places in bytes */
    uint64_t used;               /* pieces of it that are used up */
    uint64_t before;             /* bytes of the recording that stood before bytes[0] */
    size_t start, end;
    uint8_t bytes[RECORDING_BUFFER];
};

/* Starts at the first byte of an open file. */
void recording_begin(struct recording *recording, int file, struct progress *progress);

/* Gives the next piece. Pieces come in the order of their places and cover every byte once; no two
 * runs of passed bytes touch. A message is given as soon as its last byte is read, unless more
 * bytes could show that one begins before it. */
void recording_next(struct recording *recording, struct piece *piece);

#endif

/* The recordings of a replay: that of the incremental stream, which may hold snapshots too, and
 * where one is given that of the snapshot stream. Of the latter only the snapshots (W) are given:
 * its other messages have numbers of their own.
 *
 * The two are joined by the messages' own times; at equal times the incremental stream comes first.
 * A snapshot is then given after the numbers that were sent before it, which its 369 may name. What
 * has no time is given at once. */
#ifndef STREAMS_H
#define STREAMS_H

#include "files.h"
#include "recording.h"

struct stream {
    struct recording recording;
    struct piece next; /* where it is at hand */
    bool at_hand;
};

struct streams {
    const struct request *request;
    struct stream incremental, snapshots;
    uint64_t left_out; /* messages of the snapshot stream that are no snapshots */
};

/* Starts at the first bytes of the open files. The progress is that of the first. */
void streams_begin(struct streams *streams, const struct request *request, struct files files,
                   struct progress *progress);

/* Gives the next piece. */
void streams_next(struct streams *streams, struct piece *piece);

/* Says on standard error which file could not be read, if one could not. */
enum status streams_status(const struct streams *streams);

#endif

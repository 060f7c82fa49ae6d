/* The line on a terminal that says how far the reading of a long recording is. */
#ifndef PROGRESS_H
#define PROGRESS_H

#include <stdbool.h>
#include <stdint.h>

struct progress {
    bool wanted;
    uint64_t said_mib; /* 0 until the line stands */
    uint64_t size_mib; /* 0 where the size is not known */
};

/* The line is wanted where standard error is a terminal; not while `busy`, if the lines of a replay
 * go to a terminal too. */
void progress_begin(struct progress *progress, int file, bool busy);

/* Says how far the reading is, once for each MiB. */
void progress_at(struct progress *progress, uint64_t place);

/* Wipes the line. */
void progress_end(const struct progress *progress);

#endif

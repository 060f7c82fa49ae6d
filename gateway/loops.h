/* Whole loops of snapshots, as a person is told of them. At the end of a whole loop the library
 * takes an empty snapshot for each instrument that waits and that the loop does not name. Whether a
 * loop is whole is for the library to say: it shows by a snapshot after which another instrument
 * than its own is Live, or waits for another reason. */
#ifndef LOOPS_H
#define LOOPS_H

#include "board.h"

struct loops {
    uint64_t lowest; /* the lowest 369 since the last snapshot with 34 = 1, the loop's if it ends */
    uint64_t taken;  /* how many empty snapshots were taken */
    uint64_t others; /* a bit for each that waited before the message, and is not the message's */
    uint64_t reasons[SELKAVORN_MOST_INSTRUMENTS]; /* of these */
};

/* Looks at the instruments before a message is fed. `before` is the board's heading then. */
void loops_before(struct loops *loops, const struct board *board, const struct request *request,
                  const struct piece *message, const struct heading *before);

/* Looks at them again after it was fed. Counts what the end of a loop changed, and prints a line
 * for each, unless no lines are asked for. */
void loops_after(struct loops *loops, const struct board *board, const struct request *request,
                 const struct piece *message, uint64_t answer);

#endif

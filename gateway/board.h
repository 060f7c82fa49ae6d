/* A board, and what this program itself remembers of the messages that it fed to it. */
#ifndef BOARD_H
#define BOARD_H

#include <stdbool.h>
#include <stddef.h>
#include <stdint.h>

#include "recording.h"
#include "request.h"
#include "selkavorn.h"
#include "words.h"

struct board {
    uint64_t store[SELKAVORN_STORE_NUMBERS];
    char latest[MOMENT_TEXT]; /* the latest tag 52 of all messages that were well-formed */
    bool has_opened_at;       /* a sequence reset whose moment is known opened it afresh */
    int64_t opened_at_ms;     /* that moment */
    bool lost_reset;          /* a sequence reset was lost, and it was not opened afresh since */
    char names[SELKAVORN_MOST_INSTRUMENTS][NAME_TEXT]; /* of the instruments; "" where unknown */
};

/* What a board has counted, and which instruments wait. */
struct heading {
    uint64_t number;     /* of the last counted message, 0 where there is none */
    uint64_t date, time; /* its tag 52, as a quote gives them */
    uint64_t marks;      /* bit i is 1 if instrument i of the request, from 0, waits */
};

/* How an instrument stands on a board. */
struct standing {
    uint64_t answer; /* of the library; where it refuses, the rest is false and 0 */
    bool waiting;
    uint64_t reason; /* why it last broke, of enum selkavorn_reason */
};

/* Opens the board with the depth and the instruments of the request; gives the library's answer. */
uint64_t board_open(struct board *board, const struct request *request);

/* Says what the board has counted and who waits; nothing where the library refuses the store. */
struct heading board_heading(const struct board *board);

/* Says how an instrument stands. */
struct standing board_standing(const struct board *board, uint64_t id);

/* Feeds a message to a board that is kept for this alone: its answers 13 and 14 are those of every
 * board, and any lower one says that the message is well-formed. */
uint64_t judge(const struct request *request, const struct piece *message);

/* Answers of messages that are well-formed, whatever became of them. */
bool is_well_formed(uint64_t answer);

#endif

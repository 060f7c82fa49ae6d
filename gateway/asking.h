/* What a board is asked at one moment: the message that dates what it answers, and why nothing is
 * given of an instrument where that is so. */
#ifndef ASKING_H
#define ASKING_H

#include "board.h"

/* The moment at which a board is asked, and the message that dates what it answers. */
struct dating {
    const char *now; /* "" where there is none */
    bool now_given;  /* by --now */
    bool lost_reset; /* nothing is given, whatever the library answers */
    struct heading heading;
    int64_t age_ms; /* of the heading at `now`; 0 where one of them is missing */
};

/* An instrument that is asked for. */
struct asked {
    uint64_t id;
    const char *name;     /* "" where unknown */
    uint64_t answer;      /* of the library */
    const char *reason;   /* why it is Waiting, with that answer */
    const char *withheld; /* why nothing is given, whatever the library answers; or NULL */
};

void take_dating(const struct board *board, const struct request *request, struct dating *dating);

/* Asks for the state of an instrument, by its place in the request. The answer is SELKAVORN_DONE
 * where it is Live. */
void take_asked(const struct board *board, const struct request *request, size_t place,
                struct asked *asked);

/* Says whether what was asked for is given. */
bool is_given(const struct asked *asked);

enum { WHY_TEXT = 128 };

/* Why nothing is given of an instrument; `given` where something is. */
const char *why_words(const struct asked *asked, const char *given, char text[WHY_TEXT]);

#endif

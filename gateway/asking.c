/* What a board is asked at one moment, and why nothing is given where that is so. */
#include "asking.h"

#include <stdio.h>

void take_dating(const struct board *board, const struct request *request, struct dating *dating)
{
    *dating = (struct dating){.now = request->now != NULL ? request->now : board->latest,
                              .now_given = request->now != NULL,
                              .lost_reset = board->lost_reset,
                              .heading = board_heading(board)};
    if (dating->now[0] != '\0' && dating->heading.number > 0)
        dating->age_ms =
            text_ms(dating->now) - moment_ms(dating->heading.date, dating->heading.time);
}

void take_asked(const struct board *board, const struct request *request, size_t place,
                struct asked *asked)
{
    struct standing standing = board_standing(board, request->ids[place]);
    const char *given = request->names[place];
    *asked = (struct asked){.id = request->ids[place],
                            .name = given[0] != '\0' ? given : board->names[place],
                            .answer = standing.answer,
                            .withheld = board->lost_reset ? "a sequence reset was lost" : NULL};
    if (!standing.waiting)
        return;
    asked->answer = SELKAVORN_WAITING;
    asked->reason = waiting_words(standing.reason);
}

bool is_given(const struct asked *asked)
{
    return asked->withheld == NULL && asked->answer == SELKAVORN_DONE;
}

const char *why_words(const struct asked *asked, const char *given, char text[WHY_TEXT])
{
    if (asked->withheld != NULL)
        return asked->withheld;
    if (asked->answer == SELKAVORN_DONE)
        return given;
    if (asked->answer != SELKAVORN_WAITING)
        return selkavorn_answer_text(asked->answer);
    snprintf(text, WHY_TEXT, "%s, %s", selkavorn_answer_text(asked->answer), asked->reason);
    return text;
}

/* Sequence resets (35=4) of the incremental stream, seen ones and lost ones. */
#include "resets.h"

#include "message.h"

bool is_reset(const struct piece *message, uint64_t answer)
{
    return answer == SELKAVORN_TYPE && message_has_type(message, '4');
}

bool is_repeated_reset(const struct board *board, const struct piece *reset)
{
    int64_t sent_ms;
    return board->has_opened_at && message_time(reset, &sent_ms) && sent_ms <= board->opened_at_ms;
}

/* Milliseconds from the last counted message to this one; 0 where one of them has no time. */
static int64_t since_heard_ms(const struct heading *before, const struct piece *message)
{
    int64_t sent_ms;
    if (before->number == 0 || !message_time(message, &sent_ms))
        return 0;
    return sent_ms - moment_ms(before->date, before->time);
}

bool shows_lost_reset(const struct request *request, const struct heading *before,
                      const struct piece *message, uint64_t answer)
{
    int64_t since_ms = since_heard_ms(before, message);
    if (answer == SELKAVORN_OLD)
        return since_ms > 0;
    bool in_order = answer == SELKAVORN_DONE || answer == SELKAVORN_LET_GO;
    return in_order && request->silence_s > 0 && since_ms > (int64_t)request->silence_s * 1000;
}

bool is_of_before(const struct board *board, const struct piece *message)
{
    int64_t sent_ms;
    return board->has_opened_at && message_time(message, &sent_ms) && sent_ms < board->opened_at_ms;
}

void open_at_reset(struct board *board, const struct request *request, const struct piece *message)
{
    int64_t sent_ms;
    board_open(board, request);
    if (!message_time(message, &sent_ms))
        return;
    board->has_opened_at = true;
    board->opened_at_ms = sent_ms;
}

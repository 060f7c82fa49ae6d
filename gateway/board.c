/* A board: opened, asked what it has counted and how an instrument stands, and one that only judges
 * messages. */
#include "board.h"

uint64_t board_open(struct board *board, const struct request *request)
{
    board->lost_reset = false;
    return selkavorn_open(board->store, SELKAVORN_STORE_NUMBERS, request->depth, request->ids,
                          request->ids_n);
}

struct heading board_heading(const struct board *board)
{
    uint64_t out[SELKAVORN_BOARD_NUMBERS] = {0};
    selkavorn_board(board->store, SELKAVORN_STORE_NUMBERS, out, SELKAVORN_BOARD_NUMBERS);
    return (struct heading){.number = out[SELKAVORN_BOARD_NUMBER],
                            .date = out[SELKAVORN_BOARD_HEARD_DATE],
                            .time = out[SELKAVORN_BOARD_HEARD_TIME],
                            .marks = out[SELKAVORN_BOARD_MARKS]};
}

struct standing board_standing(const struct board *board, uint64_t id)
{
    uint64_t out[SELKAVORN_STATE_NUMBERS] = {0};
    uint64_t answer = selkavorn_state(board->store, SELKAVORN_STORE_NUMBERS, id, out,
                                      SELKAVORN_STATE_NUMBERS);
    return (struct standing){.answer = answer,
                             .waiting = out[SELKAVORN_STATE_WAITING] == 1,
                             .reason = out[SELKAVORN_STATE_REASON]};
}

uint64_t judge(const struct request *request, const struct piece *message)
{
    static uint64_t store[SELKAVORN_STORE_NUMBERS];
    static const uint64_t any = 1;
    static bool opened;
    if (!opened)
        selkavorn_open(store, SELKAVORN_STORE_NUMBERS, request->depth, &any, 1);
    opened = true;
    return SELKAVORN_ANSWER(selkavorn_feed(store, SELKAVORN_STORE_NUMBERS, message->bytes,
                                           (size_t)message->length));
}

bool is_well_formed(uint64_t answer)
{
    return answer < SELKAVORN_FRAME;
}

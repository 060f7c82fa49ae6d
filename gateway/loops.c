/* Whole loops of snapshots, as a person is told of them. */
#include "loops.h"

#include <inttypes.h>
#include <stdio.h>

#include "message.h"

static bool is_among(uint64_t bits, size_t place)
{
    return (bits >> place & 1) == 1;
}

void loops_before(struct loops *loops, const struct board *board, const struct request *request,
                  const struct piece *message, const struct heading *before)
{
    loops->others = 0;
    if (!message_has_type(message, 'W'))
        return;
    uint64_t own = value_number(message_first(message, "48"));
    for (size_t i = 0; i < request->ids_n; i++)
        if (is_among(before->marks, i) && request->ids[i] != own) {
            loops->others |= UINT64_C(1) << i;
            loops->reasons[i] = board_standing(board, request->ids[i]).reason;
        }
}

/* A snapshot with 34 = 1 begins a loop, whatever came before it. */
static void take_lowest(struct loops *loops, const struct piece *snapshot)
{
    uint64_t number = value_number(message_first(snapshot, "369"));
    if (value_number(message_first(snapshot, "34")) == 1 || number < loops->lowest)
        loops->lowest = number;
}

static void print_live(const struct loops *loops, uint64_t id)
{
    printf("%10s  loop whole: %" PRIu64 " Live with an empty book at %" PRIu64 "\n", "",
           id, loops->lowest);
}

static void print_broken(const struct loops *loops, uint64_t id, uint64_t reason)
{
    printf("%10s  loop whole: %" PRIu64 " still Waiting: an empty book at %" PRIu64
           " and the queue do not fit, %s\n",
           "", id, loops->lowest, waiting_words(reason));
}

void loops_after(struct loops *loops, const struct board *board, const struct request *request,
                 const struct piece *message, uint64_t answer)
{
    if (!message_has_type(message, 'W') || !is_well_formed(answer))
        return;
    take_lowest(loops, message);
    for (size_t i = 0; i < request->ids_n; i++) {
        if (!is_among(loops->others, i))
            continue;
        uint64_t id = request->ids[i];
        struct standing now = board_standing(board, id);
        loops->taken += !now.waiting;
        if (request->quote_only)
            continue;
        if (!now.waiting)
            print_live(loops, id);
        else if (now.reason != loops->reasons[i])
            print_broken(loops, id, now.reason);
    }
}

/* A lot of a board. The library gives its sum and what is left, for any quantity: what a place
 * brings is the difference of the sums up to it and up to the place before, so no amount is
 * reckoned here. The places are read from a snapshot that the library writes of the same store.
 * Where the two do not fit together, no lot is given. */
#include "lots.h"

#include <string.h>

#include "book.h"
#include "message.h"
#include "replay.h"

bool is_sale(const struct request *request)
{
    return request->command == COMMAND_SELL;
}

/* Asks the library for a lot of so many units. */
static uint64_t ask(const struct board *board, const struct request *request,
                    const struct lot *lot, uint64_t units, uint64_t numbers[SELKAVORN_LOT_NUMBERS])
{
    const char *now = lot->dating.now;
    return (is_sale(request) ? selkavorn_sell : selkavorn_buy)(
        board->store, SELKAVORN_STORE_NUMBERS, lot->asked.id, units, (const uint8_t *)now,
        strlen(now), request->limit_s, numbers, SELKAVORN_LOT_NUMBERS);
}

/* ---- the places ---- */

/* Reads the side that the lot takes. False where the library does not write it as of message H. */
static bool read_book(const struct board *board, const struct request *request,
                      const struct lot *lot, struct side *side)
{
    uint8_t bytes[SELKAVORN_LONGEST_WRITING];
    struct writing writing = {
        .sender = "LOT", .target = "LOT", .time = lot->dating.now, .number = 1, .of = 1};
    uint64_t answered = write_book(board, lot->asked.id, &writing, bytes, sizeof bytes);
    struct piece snapshot = {
        .kind = PIECE_MESSAGE, .bytes = bytes, .length = SELKAVORN_LENGTH(answered)};
    return SELKAVORN_ANSWER(answered) == SELKAVORN_DONE &&
           value_number(message_first(&snapshot, "369")) == lot->numbers[SELKAVORN_LOT_NUMBER] &&
           read_side(&snapshot, is_sale(request) ? '0' : '1', side);
}

/* Says whether a lot of fewer units has the date of the whole one, and leaves nothing. */
static bool is_part(const uint64_t *part, const uint64_t *whole)
{
    return part[SELKAVORN_LOT_NUMBER] == whole[SELKAVORN_LOT_NUMBER] &&
           part[SELKAVORN_LOT_HEARD_DATE] == whole[SELKAVORN_LOT_HEARD_DATE] &&
           part[SELKAVORN_LOT_HEARD_TIME] == whole[SELKAVORN_LOT_HEARD_TIME] &&
           part[SELKAVORN_LOT_LEFT] == 0;
}

/* Takes the next place, whole or what the lot still wants of it. False where its amount is not its
 * price times its units, as far as 64 bits tell. */
static bool take_place(const struct board *board, const struct request *request, struct lot *lot,
                       const struct place *place)
{
    uint64_t part[SELKAVORN_LOT_NUMBERS], wanted = request->quantity - lot->units;
    uint64_t units = place->size < wanted ? place->size : wanted;
    if (ask(board, request, lot, lot->units + units, part) != SELKAVORN_DONE ||
        !is_part(part, lot->numbers) ||
        part[SELKAVORN_LOT_SUM] - lot->sum != place->price * units)
        return false;
    lot->of[lot->n] = (struct taken){.place = lot->n + 1,
                                     .units = units,
                                     .price = place->price,
                                     .amount = amount_between(lot->sum, part[SELKAVORN_LOT_SUM])};
    lot->n++;
    lot->units += units;
    lot->sum = part[SELKAVORN_LOT_SUM];
    return true;
}

/* Takes the lot place by place. False where the places do not come to what the library gives. */
static bool take_places(const struct board *board, const struct request *request, struct lot *lot)
{
    struct side side;
    if (!read_book(board, request, lot, &side))
        return false;
    for (size_t i = 0; i < side.n && lot->units < request->quantity; i++)
        if (!take_place(board, request, lot, &side.of[i]))
            return false;
    return lot->units + lot->numbers[SELKAVORN_LOT_LEFT] == request->quantity &&
           lot->sum == lot->numbers[SELKAVORN_LOT_SUM];
}

/* ---- the whole ---- */

/* Says whether the lot has the date of what the board counted last. */
static bool is_dated(const struct lot *lot)
{
    const struct heading *heading = &lot->dating.heading;
    return lot->numbers[SELKAVORN_LOT_NUMBER] == heading->number &&
           lot->numbers[SELKAVORN_LOT_HEARD_DATE] == heading->date &&
           lot->numbers[SELKAVORN_LOT_HEARD_TIME] == heading->time;
}

void take_lot(const struct board *board, const struct request *request, struct lot *lot)
{
    *lot = (struct lot){.n = 0};
    take_dating(board, request, &lot->dating);
    take_asked(board, request, 0, &lot->asked);
    if (lot->asked.answer == SELKAVORN_DONE)
        lot->asked.answer = ask(board, request, lot, request->quantity, lot->numbers);
    if (is_given(&lot->asked) && !(is_dated(lot) && take_places(board, request, lot)))
        lot->asked.withheld = "the library's sums and its snapshot disagree";
}

enum status print_lot(const struct board *board, const struct request *request)
{
    static struct lot lot;
    take_lot(board, request, &lot);
    if (request->form == FORM_CSV)
        print_lot_csv(&lot, request);
    else if (request->form == FORM_JSON)
        print_lot_json(&lot, request);
    else
        print_lot_table(&lot, request);
    if (lot.dating.lost_reset)
        return STATUS_LOST_RESET;
    return is_given(&lot.asked) ? STATUS_GOOD : STATUS_NO_QUOTE;
}

/* The quotes of all instruments of a board. */
#include "quotes.h"

#include <inttypes.h>
#include <stdio.h>
#include <string.h>

#include "replay.h"

void take_quotes(const struct board *board, const struct request *request, struct quotes *quotes)
{
    *quotes = (struct quotes){.n = request->ids_n};
    take_dating(board, request, &quotes->dating);
    const char *now = quotes->dating.now;
    for (size_t i = 0; i < quotes->n; i++) {
        struct quoted *quoted = &quotes->of[i];
        struct asked *asked = &quoted->asked;
        take_asked(board, request, i, asked);
        if (asked->answer == SELKAVORN_DONE)
            asked->answer = selkavorn_quote(board->store, SELKAVORN_STORE_NUMBERS, asked->id,
                                            (const uint8_t *)now, strlen(now), request->limit_s,
                                            quoted->numbers, SELKAVORN_QUOTE_NUMBERS);
        quotes->given += is_given(asked);
    }
}

void side_words(const struct request *request, const uint64_t *side, struct side_words *words)
{
    *words = (struct side_words){.held = side[SELKAVORN_SIDE_HELD] == 1};
    if (!words->held)
        return;
    price_words(side[SELKAVORN_SIDE_PRICE], words->price);
    snprintf(words->size, sizeof words->size, "%" PRIu64, side[SELKAVORN_SIDE_SIZE]);
    moment_words(side[SELKAVORN_SIDE_DATE], side[SELKAVORN_SIDE_TIME], words->entered);
    if (request->depth == SELKAVORN_ORDER_DEPTH)
        order_words(side[SELKAVORN_SIDE_BY], side[SELKAVORN_SIDE_MORE], words->order);
    else
        snprintf(words->orders, sizeof words->orders, "%" PRIu64, side[SELKAVORN_SIDE_BY]);
}

enum status print_quotes(const struct board *board, const struct request *request)
{
    static struct quotes quotes;
    take_quotes(board, request, &quotes);
    if (request->form == FORM_CSV)
        print_csv(&quotes, request);
    else if (request->form == FORM_JSON)
        print_json(&quotes, request);
    else
        print_table(&quotes, request);
    if (quotes.dating.lost_reset)
        return STATUS_LOST_RESET;
    return quotes.given > 0 ? STATUS_GOOD : STATUS_NO_QUOTE;
}

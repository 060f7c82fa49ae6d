/* The tables of quotes and of a lot, of 80 columns. No price is printed without the moment at which
 * it was heard. */
#include <inttypes.h>
#include <stdio.h>

#include "lots.h"
#include "quotes.h"

/* ---- what stands above ---- */

static void print_moment(const struct dating *dating, const char *what, const char *they_are)
{
    if (dating->now[0] == '\0')
        printf("\n%s: there is no time in the recording, and --now was not given.\n", what);
    else if (dating->now_given)
        printf("\n%s at %s UTC, the moment of --now.\n", what, dating->now);
    else
        printf("\n%s at %s UTC, the last moment in the recording, since\n"
               "--now was not given. How old %s at present is not known.\n",
               what, dating->now, they_are);
}

static void print_dating(const struct dating *dating, const struct request *request)
{
    char heard[MOMENT_TEXT], age[AGE_TEXT];
    if (dating->heading.number == 0)
        return;
    moment_words(dating->heading.date, dating->heading.time, heard);
    age_words(dating->age_ms, age);
    printf("Last counted: number %" PRIu64 ", sent %s UTC.\n", dating->heading.number, heard);
    printf("Age at %s: %s s. Limit: %" PRIu64 " s.\n",
           dating->now_given ? "that moment" : "the recording's last moment", age,
           request->limit_s);
}

static void print_name(const struct asked *asked)
{
    if (asked->name[0] != '\0')
        puts(asked->name);
}

static void print_lost_reset(void)
{
    puts("A sequence reset was lost, and the board was not opened afresh since.");
}

/* ---- quotes ---- */

/* A SecurityID of 18 digits, a price of 19 bytes and a size of 12 digits fit. */
static const char ROW[] = "%-18s %-5s %19s %12s %s\n";

static void print_side(const struct request *request, const struct quoted *quoted,
                       const char *side, size_t place)
{
    char id[ORDER_TEXT], heard[MOMENT_TEXT];
    struct side_words words;
    snprintf(id, sizeof id, "%" PRIu64, quoted->asked.id);
    moment_words(quoted->numbers[SELKAVORN_QUOTE_HEARD_DATE],
                 quoted->numbers[SELKAVORN_QUOTE_HEARD_TIME], heard);
    side_words(request, quoted->numbers + place, &words);
    printf(ROW, id, side, words.held ? words.price : "empty", words.held ? words.size : "-",
           heard);
}

static void print_quote(const struct request *request, const struct quoted *quoted)
{
    char text[WHY_TEXT];
    print_name(&quoted->asked);
    if (!is_given(&quoted->asked)) {
        printf("%-18" PRIu64 " no quote: %s\n", quoted->asked.id,
               why_words(&quoted->asked, "quote", text));
        return;
    }
    print_side(request, quoted, "bid", SELKAVORN_QUOTE_BID);
    print_side(request, quoted, "offer", SELKAVORN_QUOTE_OFFER);
}

void print_table(const struct quotes *quotes, const struct request *request)
{
    print_moment(&quotes->dating, "Quotes", "they are");
    print_dating(&quotes->dating, request);
    printf(ROW, "instrument", "side", "price", "size", "heard (UTC)");
    for (size_t i = 0; i < quotes->n; i++)
        print_quote(request, &quotes->of[i]);
    if (quotes->dating.lost_reset)
        print_lost_reset();
    else if (quotes->given == 0)
        puts("No quote could be given.");
}

/* ---- a lot ---- */

/* Units of 9 digits, a price of 19 bytes and an amount of 22 fit. */
static const char LOT_ROW[] = "%5s %9s %19s %22s %s\n";

static void print_taken(const struct taken *taken, const char *heard)
{
    char place[ORDER_TEXT], units[ORDER_TEXT], price[PRICE_TEXT], amount[PRICE_TEXT];
    snprintf(place, sizeof place, "%" PRIu64, taken->place);
    snprintf(units, sizeof units, "%" PRIu64, taken->units);
    price_words(taken->price, price);
    amount_words(taken->amount, amount);
    printf(LOT_ROW, place, units, price, amount, heard);
}

/* Prints the sum, and the average where the prices stand; two points behind it say that it goes
 * on. */
static void print_sum(const struct lot *lot, const char *heard)
{
    char units[ORDER_TEXT], sum[PRICE_TEXT], average[AVERAGE_TEXT];
    snprintf(units, sizeof units, "%" PRIu64, lot->units);
    price_words(lot->sum, sum);
    printf(LOT_ROW, "sum", units, "", sum, heard);
    bool ends = average_words(lot->sum, lot->units, average);
    printf("average %*s%s %22s %s\n", ends ? 27 : 25, average, ends ? "" : "..", "", heard);
}

/* Prints what the places give, or that there are none, and what is left. */
static void print_places(const struct lot *lot, const struct request *request)
{
    char heard[MOMENT_TEXT];
    const char *side = is_sale(request) ? "bids" : "offers";
    uint64_t left = lot->numbers[SELKAVORN_LOT_LEFT];
    moment_words(lot->numbers[SELKAVORN_LOT_HEARD_DATE], lot->numbers[SELKAVORN_LOT_HEARD_TIME],
                 heard);
    printf(LOT_ROW, "place", "units", "price", "amount", "heard (UTC)");
    for (size_t i = 0; i < lot->n; i++)
        print_taken(&lot->of[i], heard);
    if (lot->n > 0)
        print_sum(lot, heard);
    else
        printf(LOT_ROW, "-", "0", "empty", "-", heard);
    printf("Left to %s: %" PRIu64 " of %" PRIu64 ".", is_sale(request) ? "sell" : "buy", left,
           request->quantity);
    if (left > 0)
        printf(" The %s %s.", side, lot->n > 0 ? "hold no more" : "are empty");
    putchar('\n');
}

void print_lot_table(const struct lot *lot, const struct request *request)
{
    char text[WHY_TEXT];
    bool sale = is_sale(request);
    print_moment(&lot->dating, "Lot", "it is");
    print_dating(&lot->dating, request);
    print_name(&lot->asked);
    if (is_given(&lot->asked)) {
        printf("%" PRIu64 ": what %s %" PRIu64 " would %s\n", lot->asked.id,
               sale ? "selling" : "buying", request->quantity, sale ? "bring" : "cost");
        print_places(lot, request);
        return;
    }
    printf("%-18" PRIu64 " no lot: %s\n", lot->asked.id, why_words(&lot->asked, "lot", text));
    if (lot->dating.lost_reset)
        print_lost_reset();
    else if (lot->asked.answer == SELKAVORN_SUM_OVER)
        puts("Ask for a smaller lot.");
}

/* Quotes and lots as comma-separated values (RFC 4180, with plain line ends): a row for each side
 * of a quote or place of a lot, and one where there is none. */
#include "csv.h"

#include <inttypes.h>
#include <stdio.h>

#include "lots.h"
#include "quotes.h"

void print_csv_text(const char *text)
{
    putchar('"');
    for (; *text != '\0'; text++) {
        if (*text == '"')
            putchar('"');
        putchar(*text);
    }
    putchar('"');
}

/* Prints the columns that say what instrument it is and whether what was asked for is given. */
static void print_label(const struct asked *asked, const char *given)
{
    char text[WHY_TEXT];
    printf("%" PRIu64 ",", asked->id);
    print_csv_text(asked->name);
    putchar(',');
    if (asked->withheld == NULL)
        printf("%" PRIu64, asked->answer);
    putchar(',');
    print_csv_text(why_words(asked, given, text));
}

/* Prints the columns that date a row. */
static void print_date(const struct dating *dating, const struct request *request)
{
    char heard[MOMENT_TEXT];
    moment_words(dating->heading.date, dating->heading.time, heard);
    if (dating->heading.number > 0)
        printf(",%s,%" PRIu64 ",%" PRId64, heard, dating->heading.number, dating->age_ms);
    else
        printf(",,,");
    printf(",%s,%s,%" PRIu64 "\n", dating->now, dating->now_given ? "given" : "recording",
           request->limit_s);
}

/* ---- quotes ---- */

/* Prints the columns of a side, empty ones where there is none or it holds nothing. */
static void print_side(const char *side, const struct side_words *words)
{
    printf(",%s,%s,%s,", side, words->price, words->size);
    if (words->order[0] != '\0')
        print_csv_text(words->order);
    printf(",%s,%s", words->orders, words->entered);
}

static void print_row(const struct quotes *quotes, const struct request *request,
                      const struct quoted *quoted, const char *side, size_t place)
{
    struct side_words words = {0};
    if (is_given(&quoted->asked))
        side_words(request, quoted->numbers + place, &words);
    print_label(&quoted->asked, "quote");
    print_side(side, &words);
    print_date(&quotes->dating, request);
}

void print_csv(const struct quotes *quotes, const struct request *request)
{
    puts("instrument,name,answer,why,side,price,size,order,orders,entered,heard,number,age_ms,now,"
         "now_from,limit_s");
    for (size_t i = 0; i < quotes->n; i++) {
        const struct quoted *quoted = &quotes->of[i];
        bool given = is_given(&quoted->asked);
        print_row(quotes, request, quoted, given ? "bid" : "", SELKAVORN_QUOTE_BID);
        if (given)
            print_row(quotes, request, quoted, "offer", SELKAVORN_QUOTE_OFFER);
    }
}

/* ---- a lot ---- */

/* Prints the columns of a place, empty ones where none was taken. */
static void print_taken(const struct taken *taken)
{
    char price[PRICE_TEXT], amount[PRICE_TEXT];
    if (taken == NULL) {
        printf(",,,,");
        return;
    }
    price_words(taken->price, price);
    amount_words(taken->amount, amount);
    printf(",%" PRIu64 ",%" PRIu64 ",%s,%s", taken->place, taken->units, price, amount);
}

/* Prints the columns of the whole lot, empty ones where there is none. */
static void print_whole(const struct lot *lot)
{
    char sum[PRICE_TEXT], average[AVERAGE_TEXT];
    if (!is_given(&lot->asked)) {
        printf(",,,,");
        return;
    }
    price_words(lot->sum, sum);
    printf(",%s,%" PRIu64, sum, lot->numbers[SELKAVORN_LOT_LEFT]);
    if (lot->n == 0) {
        printf(",,");
        return;
    }
    bool ends = average_words(lot->sum, lot->units, average);
    printf(",%s,%s", average, ends ? "yes" : "no");
}

static void print_lot_row(const struct lot *lot, const struct request *request,
                          const struct taken *taken)
{
    print_label(&lot->asked, "lot");
    printf(",%s,%" PRIu64, is_sale(request) ? "sell" : "buy", request->quantity);
    print_taken(taken);
    print_whole(lot);
    print_date(&lot->dating, request);
}

void print_lot_csv(const struct lot *lot, const struct request *request)
{
    puts("instrument,name,answer,why,command,quantity,place,units,price,amount,sum,left,average,"
         "average_exact,heard,number,age_ms,now,now_from,limit_s");
    bool places = is_given(&lot->asked) && lot->n > 0;
    if (!places)
        print_lot_row(lot, request, NULL);
    for (size_t i = 0; places && i < lot->n; i++)
        print_lot_row(lot, request, &lot->of[i]);
}

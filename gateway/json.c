/* Quotes, or a lot, as one JSON object. SecurityIDs, prices and amounts are strings, so that no
 * reader rounds them. */
#include <inttypes.h>
#include <stdio.h>

#include "lots.h"
#include "quotes.h"

/* Prints a string, or null for an empty one. All its bytes are 32 or above. */
static void print_text(const char *text)
{
    if (*text == '\0') {
        printf("null");
        return;
    }
    putchar('"');
    for (; *text != '\0'; text++) {
        if (*text == '"' || *text == '\\')
            putchar('\\');
        putchar(*text);
    }
    putchar('"');
}

static void print_named(const char *name, const char *text)
{
    printf("\"%s\": ", name);
    print_text(text);
}

static void print_heading(const struct dating *dating, const struct request *request)
{
    char heard[MOMENT_TEXT];
    moment_words(dating->heading.date, dating->heading.time, heard);
    printf("{\n  ");
    print_named("now", dating->now);
    printf(",\n  \"now_from\": \"%s\",\n  \"limit_s\": %" PRIu64 ",\n  \"lost_reset\": %s,\n",
           dating->now_given ? "given" : "recording", request->limit_s,
           dating->lost_reset ? "true" : "false");
    if (dating->heading.number > 0)
        printf("  \"number\": %" PRIu64 ",\n  \"heard\": \"%s\",\n  \"age_ms\": %" PRId64 ",\n",
               dating->heading.number, heard, dating->age_ms);
    else
        printf("  \"number\": null,\n  \"heard\": null,\n  \"age_ms\": null,\n");
}

/* Prints what instrument it is and whether what was asked for is given. */
static void print_label(const struct asked *asked, const char *given)
{
    char text[WHY_TEXT];
    printf("\"instrument\": \"%" PRIu64 "\", ", asked->id);
    print_named("name", asked->name);
    if (asked->withheld != NULL)
        printf(", \"answer\": null, ");
    else
        printf(", \"answer\": %" PRIu64 ", ", asked->answer);
    print_named("why", why_words(asked, given, text));
}

/* ---- quotes ---- */

static void print_side(const struct request *request, const struct quoted *quoted,
                       const char *name, size_t place)
{
    struct side_words words;
    side_words(request, quoted->numbers + place, &words);
    printf(",\n     \"%s\": ", name);
    if (!words.held) {
        printf("null");
        return;
    }
    putchar('{');
    print_named("price", words.price);
    printf(", \"size\": %s, ", words.size);
    print_named("order", words.order);
    printf(", \"orders\": %s, ", words.orders[0] != '\0' ? words.orders : "null");
    print_named("entered", words.entered);
    putchar('}');
}

static void print_quote(const struct request *request, const struct quoted *quoted)
{
    printf("    {");
    print_label(&quoted->asked, "quote");
    if (is_given(&quoted->asked)) {
        print_side(request, quoted, "bid", SELKAVORN_QUOTE_BID);
        print_side(request, quoted, "offer", SELKAVORN_QUOTE_OFFER);
    }
    putchar('}');
}

void print_json(const struct quotes *quotes, const struct request *request)
{
    print_heading(&quotes->dating, request);
    printf("  \"quotes\": [\n");
    for (size_t i = 0; i < quotes->n; i++) {
        print_quote(request, &quotes->of[i]);
        puts(i + 1 < quotes->n ? "," : "");
    }
    puts("  ]\n}");
}

/* ---- a lot ---- */

/* Prints the sum, what is left, and the average where units were taken. */
static void print_whole(const struct lot *lot)
{
    char sum[PRICE_TEXT], average[AVERAGE_TEXT] = "";
    bool ends = lot->n > 0 && average_words(lot->sum, lot->units, average);
    price_words(lot->sum, sum);
    printf(",\n   ");
    print_named("sum", sum);
    printf(", \"left\": %" PRIu64 ", ", lot->numbers[SELKAVORN_LOT_LEFT]);
    print_named("average", average);
    printf(", \"average_exact\": %s", lot->n == 0 ? "null" : ends ? "true" : "false");
}

static void print_taken(const struct taken *taken)
{
    char price[PRICE_TEXT], amount[PRICE_TEXT];
    price_words(taken->price, price);
    amount_words(taken->amount, amount);
    printf("     {\"place\": %" PRIu64 ", \"units\": %" PRIu64 ", ", taken->place, taken->units);
    print_named("price", price);
    printf(", ");
    print_named("amount", amount);
    putchar('}');
}

static void print_places(const struct lot *lot)
{
    printf(",\n   \"places\": [");
    for (size_t i = 0; i < lot->n; i++) {
        puts(i > 0 ? "," : "");
        print_taken(&lot->of[i]);
    }
    putchar(']');
}

void print_lot_json(const struct lot *lot, const struct request *request)
{
    print_heading(&lot->dating, request);
    printf("  \"lot\": {");
    print_label(&lot->asked, "lot");
    printf(",\n   \"command\": \"%s\", \"quantity\": %" PRIu64,
           is_sale(request) ? "sell" : "buy", request->quantity);
    if (is_given(&lot->asked)) {
        print_whole(lot);
        print_places(lot);
    }
    puts("}\n}");
}

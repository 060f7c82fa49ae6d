/* The smallest whole use of Selkavorn: a store is opened, three messages are fed, a quote is asked.
 *   cc -Iinclude examples/minimal.c target/staticlib/libselkavorn.a
 * It prints what each message was answered, and the quote with its date. */
#include <inttypes.h>
#include <stdio.h>
#include <string.h>

#include "selkavorn.h"

enum { STORE = SELKAVORN_STORE_NUMBERS, COFFEE = 3809512, LIMIT_S = 30 };

static uint64_t store[STORE];

/* A heartbeat, a snapshot of the book as of it, and a better bid; | stands for SOH. */
static const char *const messages[] = {
    "8=FIX.4.4|9=35|35=0|34=1|52=20250103-13:00:00.000|10=097|",
    "8=FIX.4.4|9=196|35=W|34=1|52=20250103-13:00:00.200|48=3809512|22=8|207=BVMF|369=1|911=2|268=2|"
    "269=0|270=318.5|271=4|37=B1|272=20250103|273=12:59:58|290=1|"
    "269=1|270=319|271=2|37=A1|272=20250103|273=12:59:59|290=1|10=141|",
    "8=FIX.4.4|9=133|35=X|34=2|52=20250103-13:00:01.000|268=1|279=0|269=0|48=3809512|22=8|207=BVMF|"
    "270=318.65|271=8|37=B2|272=20250103|273=13:00:01|290=1|10=245|",
};

static void feed(const char *text)
{
    uint8_t message[SELKAVORN_LONGEST_MESSAGE];
    size_t length = strlen(text);
    for (size_t i = 0; i < length; i++)
        message[i] = text[i] == '|' ? 1 : (uint8_t)text[i];
    uint64_t answered = selkavorn_feed(store, STORE, message, length);
    printf("%s; %" PRIu64 " Waiting\n", selkavorn_answer_text(SELKAVORN_ANSWER(answered)),
           SELKAVORN_WAITING_COUNT(answered));
}

/* One side of a quote, in hundred-millionths; an empty side has no price. */
static void print_side(const char *name, const uint64_t side[])
{
    if (side[SELKAVORN_SIDE_HELD])
        printf("%s %" PRId64 " hundred-millionths, size %" PRIu64 "\n", name,
               (int64_t)side[SELKAVORN_SIDE_PRICE], side[SELKAVORN_SIDE_SIZE]);
    else
        printf("%s empty\n", name);
}

/* Asks for a quote at the moment now; 0 where one is given. */
static int quote(const char *now)
{
    uint64_t numbers[SELKAVORN_QUOTE_NUMBERS];
    uint64_t answer = selkavorn_quote(store, STORE, COFFEE, (const uint8_t *)now, strlen(now),
                                      LIMIT_S, numbers, SELKAVORN_QUOTE_NUMBERS);
    if (answer != SELKAVORN_DONE) {
        printf("at %s no quote: %s\n", now, selkavorn_answer_text(answer));
        return 1;
    }
    printf("at %s, as of message %" PRIu64 ", heard %08" PRIu64 " %09" PRIu64 ":\n", now,
           numbers[SELKAVORN_QUOTE_NUMBER], numbers[SELKAVORN_QUOTE_HEARD_DATE],
           numbers[SELKAVORN_QUOTE_HEARD_TIME]);
    print_side("bid", numbers + SELKAVORN_QUOTE_BID);
    print_side("offer", numbers + SELKAVORN_QUOTE_OFFER);
    return 0;
}

int main(void)
{
    uint64_t ids[] = {COFFEE};
    if (selkavorn_open(store, STORE, SELKAVORN_ORDER_DEPTH, ids, 1) != SELKAVORN_DONE)
        return 1;
    for (size_t i = 0; i < sizeof messages / sizeof *messages; i++)
        feed(messages[i]);
    int refused = quote("20250103-13:00:05");
    quote("20250103-13:00:31.001");
    return refused;
}

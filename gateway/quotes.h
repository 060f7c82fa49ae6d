/* The quotes of all instruments of a board, and the forms in which they are printed. */
#ifndef QUOTES_H
#define QUOTES_H

#include "asking.h"

/* One instrument's quote, or why there is none. */
struct quoted {
    struct asked asked;
    uint64_t numbers[SELKAVORN_QUOTE_NUMBERS];
};

struct quotes {
    struct dating dating;
    struct quoted of[SELKAVORN_MOST_INSTRUMENTS];
    size_t n, given;
};

/* A side of a quote in words. */
struct side_words {
    bool held;
    char price[PRICE_TEXT], size[ORDER_TEXT];
    char order[ORDER_TEXT];  /* its id, on an order-depth channel; else "" */
    char orders[ORDER_TEXT]; /* how many, on a price-depth channel; else "" */
    char entered[MOMENT_TEXT];
};

/* Asks the board for all quotes of the request. */
void take_quotes(const struct board *board, const struct request *request, struct quotes *quotes);

/* The side that begins at this place of a quote. */
void side_words(const struct request *request, const uint64_t *side, struct side_words *words);

/* The forms of printing. */
void print_table(const struct quotes *quotes, const struct request *request);
void print_csv(const struct quotes *quotes, const struct request *request);
void print_json(const struct quotes *quotes, const struct request *request);

#endif

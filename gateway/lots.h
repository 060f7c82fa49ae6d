/* A lot: what selling a quantity down the bids brings, or buying it up the offers costs, place by
 * place, and the forms in which it is printed. */
#ifndef LOTS_H
#define LOTS_H

#include "asking.h"
#include "selkavorn_lots.h"

/* A place of which units were taken. */
struct taken {
    uint64_t place; /* from 1 */
    uint64_t units;
    uint64_t price; /* in the unit of a price, as its 64 bits */
    struct amount amount;
};

struct lot {
    struct dating dating;
    struct asked asked;
    uint64_t numbers[SELKAVORN_LOT_NUMBERS]; /* of the whole lot, as the library gives them */
    struct taken of[SELKAVORN_MOST_PLACES];
    size_t n;
    uint64_t units; /* taken of these places */
    uint64_t sum;   /* of their amounts, as its 64 bits */
};

/* Says whether the lot is to be sold; else it is to be bought. */
bool is_sale(const struct request *request);

/* Asks the board for the lot of the request. */
void take_lot(const struct board *board, const struct request *request, struct lot *lot);

/* The forms of printing. */
void print_lot_table(const struct lot *lot, const struct request *request);
void print_lot_csv(const struct lot *lot, const struct request *request);
void print_lot_json(const struct lot *lot, const struct request *request);

#endif

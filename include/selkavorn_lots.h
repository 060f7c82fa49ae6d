/* Selkavorn 3.1, lots: what a quantity brings down the book, for the desk.
 *
 * A library above the books of selkavorn.h, in the same archive, libselkavorn.a. Its two calls take
 * a store that selkavorn_open opened and selkavorn_feed fed, and only read it. What selkavorn.h
 * says of stores, runs, SecurityIDs, moments, ages, duties and answers holds here too, but that the
 * 18 of a quantity stands behind 24. docs/RULES.md has the rules to the last unit, in its section
 * "Lots".
 *
 * Words
 *   lot        a quantity of one instrument, in the units of tag 271.
 *   selling    takes the bids from place 1 on: of each place its size, or what is left of the lot.
 *   buying     takes the offers likewise.
 *   sum        price times units, added over the places that were taken. It is exact, in the unit
 *              of a price: divide by SELKAVORN_PRICE_UNIT. So divided, a sum is
 *              -92,233,720,368.54775808 to 92,233,720,368.54775807; beyond that the lot is 35.
 *   left       the units that no place took. It is above 0 only where the whole side was taken.
 *
 * A lot rests on a quote and is dated as that quote is: by H and the heard moment. Where
 * selkavorn_quote refuses the same id, now and limit, each in room that is long enough, the lot is
 * refused by the same number. It says what the book as of message H would bring. It does not trade,
 * and it knows no fees.
 */
#ifndef SELKAVORN_LOTS_H
#define SELKAVORN_LOTS_H

#include "selkavorn.h"

#ifdef __cplusplus
extern "C" {
#endif

#define SELKAVORN_LOT_NUMBERS 5         /* numbers that a lot writes */
#define SELKAVORN_LARGEST_LOT 999999999 /* units of the largest lot */

/* The numbers of a lot, by their places in the output. */
enum selkavorn_lot_place {
    SELKAVORN_LOT_NUMBER = 0,     /* H */
    SELKAVORN_LOT_HEARD_DATE = 1, /* the date of tag 52 of message H, YYYYMMDD */
    SELKAVORN_LOT_HEARD_TIME = 2, /* its time of day, HHMMSSmmm; a second of 60 stays 60 */
    SELKAVORN_LOT_SUM = 3,        /* the sum: a signed number as its 64 bits */
    SELKAVORN_LOT_LEFT = 4        /* the units left, 0 to the quantity */
};

/* Gives what selling a quantity down an instrument's bids brings.
 *   id          the instrument's SecurityID
 *   quantity    the units of the lot, 1 to SELKAVORN_LARGEST_LOT
 *   now, now_n  the moment at which the lot is to be used
 *   limit_s     the age that is still good, 0 to SELKAVORN_LONGEST_LIMIT_S seconds
 *   out, out_n  room for at least SELKAVORN_LOT_NUMBERS numbers (shorter is 18)
 * Checks run in this order: 17; 18 for id, now, limit_s and the room; 20; 21; 22; 23; 24, as in
 * selkavorn_quote; 18 for the quantity; 35 if the sum after some place, from place 1 on, is below
 * -2^63 or above 2^63 - 1, the last place with the units that were taken of it. Else 0.
 * An empty side gives the sum 0 and the whole quantity left. Writes the first SELKAVORN_LOT_NUMBERS
 * numbers of out on 0 alone, and never those beyond. The store is only read. */
uint64_t selkavorn_sell(const uint64_t *store, size_t store_n, uint64_t id, uint64_t quantity,
                        const uint8_t *now, size_t now_n, uint64_t limit_s, uint64_t *out,
                        size_t out_n);

/* Gives what buying a quantity up an instrument's offers costs: selkavorn_sell with the other
 * side. */
uint64_t selkavorn_buy(const uint64_t *store, size_t store_n, uint64_t id, uint64_t quantity,
                       const uint8_t *now, size_t now_n, uint64_t limit_s, uint64_t *out,
                       size_t out_n);

#ifdef __cplusplus
}
#endif

#endif

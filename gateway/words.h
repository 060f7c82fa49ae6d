/* Reasons, prices, amounts and moments as a person reads them, and the ages between moments. */
#ifndef WORDS_H
#define WORDS_H

#include <stdbool.h>
#include <stdint.h>

enum {
    PRICE_TEXT = 24,       /* a minus, the 20 digits of 64 bits, a point and its zero byte fit */
    AVERAGE_DECIMALS = 12, /* of an average, at most */
    AVERAGE_TEXT = 48,     /* the same with so many decimals fits */
    MOMENT_TEXT = 24,      /* YYYYMMDD-HH:MM:SS.sss and its zero byte fit */
    ORDER_TEXT = 24,       /* 16 bytes, or a number of 20 digits, and its zero byte fit */
    AGE_TEXT = 32          /* any number of milliseconds as seconds, and its zero byte fit */
};

/* Why an instrument is Waiting, from the reason in its state. */
const char *waiting_words(uint64_t reason);

/* An amount in the unit of a price. The difference of two signed numbers of 64 bits is one. */
struct amount {
    bool minus;
    uint64_t size;
};

/* The amount from one number to another, each signed, as its 64 bits. */
struct amount amount_between(uint64_t from, uint64_t to);

/* An amount as a decimal without needless zeros. */
void amount_words(struct amount amount, char text[PRICE_TEXT]);

/* A price, or a sum of prices, in the unit of a price, as its 64 bits: the same. */
void price_words(uint64_t price, char text[PRICE_TEXT]);

/* A sum, as its 64 bits, divided by 1 to SELKAVORN_LARGEST_LOT units, digit by digit: as many
 * decimals as it has, AVERAGE_DECIMALS at most. False where it goes on behind them. */
bool average_words(uint64_t sum, uint64_t units, char text[AVERAGE_TEXT]);

/* A date YYYYMMDD and a time HHMMSSmmm, shaped as tag 52. */
void moment_words(uint64_t date, uint64_t time, char text[MOMENT_TEXT]);

/* The bytes of an order id, from the two numbers that a quote gives for it. */
void order_words(uint64_t by, uint64_t more, char text[ORDER_TEXT]);

/* An age as seconds with three decimals. */
void age_words(int64_t age_ms, char text[AGE_TEXT]);

/* A date YYYYMMDD and a time HHMMSSmmm in milliseconds, as 01 counts an age: days times 86,400,000
 * plus the time of day as written. */
int64_t moment_ms(uint64_t date, uint64_t time);

/* The same of a good moment shaped as tag 52. */
int64_t text_ms(const char *moment);

#endif

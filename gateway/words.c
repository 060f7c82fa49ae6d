/* Reasons, prices, amounts and moments as a person reads them, and the ages between moments. */
#include "words.h"

#include <inttypes.h>
#include <stdio.h>

#include "selkavorn.h"

const char *waiting_words(uint64_t reason)
{
    switch (reason) {
    case SELKAVORN_REASON_NONE: return "no snapshot since opening or the last gap";
    case SELKAVORN_REASON_PLACE: return "an entry's place was not there";
    case SELKAVORN_REASON_NO_ROOM: return "an entry found its side full";
    default: return "a reason that this program does not know";
    }
}

struct amount amount_between(uint64_t from, uint64_t to)
{
    bool minus = (int64_t)to < (int64_t)from;
    return (struct amount){.minus = minus, .size = minus ? from - to : to - from};
}

void amount_words(struct amount amount, char text[PRICE_TEXT])
{
    int width = snprintf(text, PRICE_TEXT, "%s%" PRIu64 ".%0*" PRIu64, amount.minus ? "-" : "",
                         amount.size / SELKAVORN_PRICE_UNIT, SELKAVORN_PRICE_DECIMALS,
                         amount.size % SELKAVORN_PRICE_UNIT);
    while (text[width - 1] == '0')
        text[--width] = '\0';
    if (text[width - 1] == '.')
        text[--width] = '\0';
}

void price_words(uint64_t price, char text[PRICE_TEXT])
{
    amount_words(amount_between(0, price), text);
}

/* What is left of a division is below the divisor, which is below 10^17, so ten times it fits. */
bool average_words(uint64_t sum, uint64_t units, char text[AVERAGE_TEXT])
{
    struct amount amount = amount_between(0, sum);
    uint64_t divisor = units * SELKAVORN_PRICE_UNIT, rest = amount.size % divisor;
    int width = snprintf(text, AVERAGE_TEXT, "%s%" PRIu64 "%s", amount.minus ? "-" : "",
                         amount.size / divisor, rest > 0 ? "." : "");
    for (int i = 0; i < AVERAGE_DECIMALS && rest > 0; i++) {
        text[width++] = (char)('0' + rest * 10 / divisor);
        rest = rest * 10 % divisor;
    }
    text[width] = '\0';
    return rest == 0;
}

void moment_words(uint64_t date, uint64_t time, char text[MOMENT_TEXT])
{
    unsigned minutes = (unsigned)(time / 100000 % 10000), ms = (unsigned)(time % 100000);
    snprintf(text, MOMENT_TEXT, "%08" PRIu64 "-%02u:%02u:%02u.%03u", date % 100000000,
             minutes / 100, minutes % 100, ms / 1000, ms % 1000);
}

void order_words(uint64_t by, uint64_t more, char text[ORDER_TEXT])
{
    for (int i = 0; i < 8; i++) {
        text[i] = (char)(by >> 8 * i & 255);
        text[8 + i] = (char)(more >> 8 * i & 255);
    }
    text[16] = '\0';
}

void age_words(int64_t age_ms, char text[AGE_TEXT])
{
    uint64_t size = age_ms < 0 ? -(uint64_t)age_ms : (uint64_t)age_ms;
    snprintf(text, AGE_TEXT, "%s%" PRIu64 ".%03" PRIu64, age_ms < 0 ? "-" : "", size / 1000,
             size % 1000);
}

/* Days from 1 March of the year -400 to a Gregorian date. Years begin in March here, so that a
 * leap day is a year's last. */
static int64_t days(int64_t year, int64_t month, int64_t day)
{
    int64_t shifted = (month + 9) % 12;
    int64_t years = year + 400 - (month < 3);
    return years * 365 + years / 4 - years / 100 + years / 400 + (shifted * 153 + 2) / 5 + day - 1;
}

int64_t moment_ms(uint64_t date, uint64_t time)
{
    int64_t minutes = (int64_t)(time / 10000000 * 60 + time / 100000 % 100);
    int64_t day = days((int64_t)(date / 10000), (int64_t)(date / 100 % 100), (int64_t)(date % 100));
    return day * 86400000 + minutes * 60000 + (int64_t)(time % 100000);
}

int64_t text_ms(const char *moment)
{
    unsigned date = 0, hour = 0, minute = 0, second = 0, ms = 0;
    sscanf(moment, "%8u-%2u:%2u:%2u.%3u", &date, &hour, &minute, &second, &ms);
    return moment_ms(date, ((hour * 100 + minute) * 100 + second) * UINT64_C(1000) + ms);
}

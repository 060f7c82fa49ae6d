#include "digits.h"

uint64_t plain_digits(const uint8_t *text, size_t text_n)
{
    if (text_n == 0 || text_n > DIGITS_WIDEST) return DIGITS_NONE;
    uint64_t number = 0;
    for (size_t i = 0; i < text_n; i++) {
        const uint8_t digit = (uint8_t)(text[i] - '0');
        if (digit > 9) return DIGITS_NONE;
        number = 10 * number + digit;
    }
    return number;
}

uint64_t no_digits(const uint8_t *text, size_t text_n)
{
    (void)text;
    (void)text_n;
    return 0;
}

#include "loop.h"

#include "selkavorn.h"

enum { WIDTH = 16 };
_Static_assert(SELKAVORN_STORE_NUMBERS % WIDTH == 0, "no number is left over");

uint64_t loop_wide(const uint64_t *store)
{
    uint64_t lanes[WIDTH] = {0}, all = 0;
    for (int i = 0; i < SELKAVORN_STORE_NUMBERS; i += WIDTH)
        for (int lane = 0; lane < WIDTH; lane++) lanes[lane] |= store[i + lane];
    for (int lane = 0; lane < WIDTH; lane++) all |= lanes[lane];
    return all;
}

uint64_t loop_plain(const uint64_t *store)
{
    uint64_t all = 0;
    for (int i = 0; i < SELKAVORN_STORE_NUMBERS; i++) all |= store[i];
    return all;
}

uint64_t loop_scalar(const uint64_t *store)
{
    uint64_t all = 0;
    for (int i = 0; i < SELKAVORN_STORE_NUMBERS; i++) {
        all |= store[i];
        __asm__("" : "+r"(all)); /* the compiler may not take two at once */
    }
    return all;
}

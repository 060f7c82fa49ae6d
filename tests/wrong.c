/* A library whose lots and snapshots disagree, as those of a sound one never do. It stands between
 * the gateway and the library (ld's --wrap), and changes in what that answers the one thing that
 * WRONG names in the environment: of the whole lot, which is asked for first, of its parts, or of
 * the snapshot. tests/lots.sh reads it. */
#include <stdlib.h>
#include <string.h>

#include "selkavorn_lots.h"

uint64_t __real_selkavorn_sell(const uint64_t *store, size_t store_n, uint64_t id,
                               uint64_t quantity, const uint8_t *now, size_t now_n,
                               uint64_t limit_s, uint64_t *out, size_t out_n);
uint64_t __wrap_selkavorn_sell(const uint64_t *store, size_t store_n, uint64_t id,
                               uint64_t quantity, const uint8_t *now, size_t now_n,
                               uint64_t limit_s, uint64_t *out, size_t out_n);
uint64_t __real_selkavorn_write(const uint64_t *store, size_t store_n, uint64_t id,
                                const uint8_t *sender, size_t sender_n, const uint8_t *target,
                                size_t target_n, uint64_t k, uint64_t m, const uint8_t *time,
                                size_t time_n, uint8_t *out, size_t out_n);
uint64_t __wrap_selkavorn_write(const uint64_t *store, size_t store_n, uint64_t id,
                                const uint8_t *sender, size_t sender_n, const uint8_t *target,
                                size_t target_n, uint64_t k, uint64_t m, const uint8_t *time,
                                size_t time_n, uint8_t *out, size_t out_n);

/* Says whether WRONG is this thing of that. */
static int is_wrong(const char *that, const char *thing)
{
    const char *wrong = getenv("WRONG");
    size_t n = strlen(that);
    return wrong != NULL && strncmp(wrong, that, n) == 0 && wrong[n] == '-' &&
           strcmp(wrong + n + 1, thing) == 0;
}

uint64_t __wrap_selkavorn_sell(const uint64_t *store, size_t store_n, uint64_t id,
                               uint64_t quantity, const uint8_t *now, size_t now_n,
                               uint64_t limit_s, uint64_t *out, size_t out_n)
{
    static int asked;
    const char *that = asked++ == 0 ? "whole" : "part";
    uint64_t answer =
        __real_selkavorn_sell(store, store_n, id, quantity, now, now_n, limit_s, out, out_n);
    out[SELKAVORN_LOT_NUMBER] += (uint64_t)is_wrong(that, "number");
    out[SELKAVORN_LOT_HEARD_DATE] += (uint64_t)is_wrong(that, "date");
    out[SELKAVORN_LOT_HEARD_TIME] += (uint64_t)is_wrong(that, "time");
    out[SELKAVORN_LOT_SUM] += (uint64_t)is_wrong(that, "sum");
    out[SELKAVORN_LOT_LEFT] += (uint64_t)is_wrong(that, "left");
    return is_wrong(that, "refused") ? SELKAVORN_SUM_OVER : answer;
}

/* Changes the byte behind the first place at which a text of the message ends. */
static void change(uint8_t *message, size_t n, const char *text, uint8_t byte)
{
    size_t width = strlen(text);
    for (size_t i = 0; i + width < n; i++)
        if (memcmp(message + i, text, width) == 0) {
            message[i + width] = byte;
            return;
        }
}

uint64_t __wrap_selkavorn_write(const uint64_t *store, size_t store_n, uint64_t id,
                                const uint8_t *sender, size_t sender_n, const uint8_t *target,
                                size_t target_n, uint64_t k, uint64_t m, const uint8_t *time,
                                size_t time_n, uint8_t *out, size_t out_n)
{
    uint64_t answered = __real_selkavorn_write(store, store_n, id, sender, sender_n, target,
                                               target_n, k, m, time, time_n, out, out_n);
    size_t n = (size_t)SELKAVORN_LENGTH(answered);
    if (is_wrong("writing", "price"))
        change(out, n, "\001270=", '9');
    if (is_wrong("writing", "size"))
        change(out, n, "\001271=", '9');
    if (is_wrong("writing", "place"))
        change(out, n, "\001290=", '9');
    if (is_wrong("writing", "number"))
        change(out, n, "\001369=", '9');
    if (is_wrong("writing", "side"))
        change(out, n, "\001269=", '1');
    return is_wrong("writing", "refused") ? SELKAVORN_WAITING : answered;
}

/* Readers of digits: each answers the number that 1 to 18 digits write, or DIGITS_NONE. */
#ifndef DIGITS_H
#define DIGITS_H

#include <stddef.h>
#include <stdint.h>

#ifdef __cplusplus
extern "C" {
#endif

#define DIGITS_WIDEST 18
#define DIGITS_NONE UINT64_MAX /* above every number of 18 digits */

/* The proved one, by itself (crates/gauge_c). */
uint64_t selkavorn_gauge_digits(const uint8_t *text, size_t text_n);

/* The proved one before it: one digit a turn. */
uint64_t selkavorn_gauge_by_one(const uint8_t *text, size_t text_n);

/* Its peer in C: a loop, one digit a turn. */
uint64_t plain_digits(const uint8_t *text, size_t text_n);

/* Reads nothing and answers 0: what a call takes by itself. */
uint64_t no_digits(const uint8_t *text, size_t text_n);

#ifdef __cplusplus
}
#endif

#endif

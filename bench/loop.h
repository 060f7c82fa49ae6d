/* Bare loops over the numbers of a store, each joined to the others by |: the least that a scan of a store can take. */
#ifndef LOOP_H
#define LOOP_H

#include <stdint.h>

#ifdef __cplusplus
extern "C" {
#endif

/* Sixteen at a time, so that no number waits for the one before it: the floor. */
uint64_t loop_wide(const uint64_t *store);

/* One after the other, as the compiler makes it quicker by itself. */
uint64_t loop_plain(const uint64_t *store);

/* One after the other, one number to an instruction. */
uint64_t loop_scalar(const uint64_t *store);

#ifdef __cplusplus
}
#endif

#endif

/* The second peer: a plain reader and keeper of books in C, by the same rules as the proved code. It proves nothing and does not
 * look its books over before it uses them, so it is a peer for what a feed does beyond the scan. */
#ifndef PLAIN_H
#define PLAIN_H

#include <stddef.h>
#include <stdint.h>

#ifdef __cplusplus
extern "C" {
#endif

enum { PLAIN_INSTRUMENTS = 16, PLAIN_PLACES = 20, PLAIN_QUEUE = 256 };
enum plain_depth { PLAIN_ORDER_DEPTH, PLAIN_PRICE_DEPTH };
enum plain_kind { PLAIN_BID, PLAIN_OFFER, PLAIN_EMPTY, PLAIN_EMPTY_ALL, PLAIN_PASSED };

/* A place of a side: as many bytes as in a store. */
struct plain_place {
    int64_t price;     /* 270 in hundred-millionths */
    uint64_t size;     /* 271 */
    uint64_t by, more; /* bytes 1 to 8 and 9 to 16 of 37, low byte first; or 346 and 0 */
    uint32_t date;     /* 272, YYYYMMDD */
    uint32_t time;     /* 273, HHMMSSmmm */
};

struct plain_side {
    uint64_t held;
    struct plain_place places[PLAIN_PLACES];
};

/* A bid, an offer or an empty book (J) for a followed instrument, or an empty book for all. */
struct plain_entry {
    uint64_t number;     /* of its message */
    uint32_t instrument; /* 0 where it is for all */
    enum plain_kind kind;
    uint32_t action;
    uint32_t place;
    struct plain_place values;
};

/* The loop of snapshots that is running. */
struct plain_loop {
    uint64_t reports; /* 911 */
    uint64_t come;    /* 0 where none is running */
    uint64_t lowest;  /* 369 */
    uint16_t named;   /* one bit each */
};

struct plain_board {
    enum plain_depth depth;
    uint32_t followed;
    uint64_t ids[PLAIN_INSTRUMENTS];
    uint64_t number;   /* H */
    uint64_t complete; /* B */
    uint32_t heard_date, heard_time;
    uint16_t waiting; /* one bit each */
    uint8_t reasons[PLAIN_INSTRUMENTS];
    uint32_t queued;
    struct plain_loop loop;
    struct plain_side sides[PLAIN_INSTRUMENTS][2];
    struct plain_entry queue[PLAIN_QUEUE];
};

/* Opens a board: nothing counted, every instrument Waiting. */
void plain_open(struct plain_board *board, enum plain_depth depth, const uint64_t *ids, size_t ids_n);

/* Feeds one message; answers what selkavorn_feed does on a sound store: the answer, and 256 for each that waits. */
uint64_t plain_feed(struct plain_board *board, const uint8_t *msg, size_t msg_n);

#ifdef __cplusplus
}
#endif

#endif

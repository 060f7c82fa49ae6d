/* Names of instruments: those that the command line gives, and the symbols of a SecurityList. */
#ifndef NAMES_H
#define NAMES_H

#include "board.h"
#include "message.h"

/* An entry of a SecurityList. */
struct listed {
    struct value symbol; /* tag 55; its bytes are NULL where there is no further entry */
    uint64_t id;         /* tag 48, or 0 */
};

/* Gives the next entry from byte `from` on; sets `from` behind its 55. */
struct listed next_listed(const struct piece *message, size_t *from);

/* A symbol as a name: what cannot stand in one becomes a question mark. */
void symbol_name(struct value symbol, char name[NAME_TEXT]);

/* Takes the names of followed instruments from a message, if it is a SecurityList (35=y). A name
 * that the command line gave stays. */
void take_names(struct board *board, const struct request *request, const struct piece *message);

#endif

/* A side of a book, read from a snapshot (W) that the library wrote. */
#include "book.h"

#include "message.h"

/* Reads what follows the 269 of an entry, from byte `from` on, as the next place of its side. */
static bool read_place(const struct piece *snapshot, size_t *from, struct side *side)
{
    struct place place;
    if (side->n == SELKAVORN_MOST_PLACES ||
        !value_price(message_value(snapshot, "270", from), &place.price))
        return false;
    place.size = value_number(message_value(snapshot, "271", from));
    if (place.size == 0 || value_number(message_value(snapshot, "290", from)) != side->n + 1)
        return false;
    side->of[side->n++] = place;
    return true;
}

bool read_side(const struct piece *snapshot, char kind, struct side *side)
{
    size_t from = 0;
    side->n = 0;
    for (struct value entry = message_value(snapshot, "269", &from); entry.bytes != NULL;
         entry = message_value(snapshot, "269", &from))
        if (entry.length == 1 && entry.bytes[0] == kind && !read_place(snapshot, &from, side))
            return false;
    return true;
}

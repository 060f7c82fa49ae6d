/* Names of instruments: those that the command line gives, and the symbols of a SecurityList. */
#include "names.h"

#include <string.h>

struct listed next_listed(const struct piece *message, size_t *from)
{
    struct listed entry = {.symbol = message_value(message, "55", from)};
    size_t after = *from, at = *from;
    struct value next = message_value(message, "55", &after);
    struct value id = message_value(message, "48", &at);
    /* The 48 behind the next 55 is the next entry's. */
    if (id.bytes != NULL && (next.bytes == NULL || id.bytes < next.bytes))
        entry.id = value_number(id);
    return entry;
}

void symbol_name(struct value symbol, char name[NAME_TEXT])
{
    size_t n = symbol.length < NAME_TEXT - 1 ? symbol.length : NAME_TEXT - 1;
    for (size_t i = 0; i < n; i++) {
        bool good = symbol.bytes[i] >= 32 && symbol.bytes[i] < 127 && symbol.bytes[i] != '"' &&
                    symbol.bytes[i] != '\\';
        name[i] = (char)(good ? symbol.bytes[i] : '?');
    }
    name[n] = '\0';
}

void take_names(struct board *board, const struct request *request, const struct piece *message)
{
    size_t from = 0;
    if (!message_has_type(message, 'y'))
        return;
    for (struct listed entry = next_listed(message, &from); entry.symbol.bytes != NULL;
         entry = next_listed(message, &from))
        for (size_t i = 0; i < request->ids_n; i++)
            if (request->ids[i] == entry.id && request->names[i][0] == '\0')
                symbol_name(entry.symbol, board->names[i]);
}

/* The values of a message that this program shows or remembers. What a message means is for the
 * library to say. */
#ifndef MESSAGE_H
#define MESSAGE_H

#include <stdbool.h>

#include "recording.h"

enum { VALUE_TEXT = 24, NUMBER_TEXT = 64 };

/* A field's value: bytes of the message itself, NULL where the field is missing. */
struct value {
    const uint8_t *bytes;
    size_t length;
};

/* Gives the value of the first field with this tag from byte `from` on; sets `from` behind it. */
struct value message_value(const struct piece *message, const char *tag, size_t *from);

/* Gives the value of the first field with this tag. */
struct value message_first(const struct piece *message, const char *tag);

/* Says whether tag 35 is this letter. */
bool message_has_type(const struct piece *message, char type);

/* Says whether the message is an X or a W. */
bool message_names_instruments(const struct piece *message);

/* Says whether a message that the library counted has an empty book (269=J) without 48, which is of
 * all instruments. */
bool message_empties_all(const struct piece *message);

/* The number that a value of up to 18 digits writes; 0 for any other value. */
uint64_t value_number(struct value value);

/* Sets the price that a value writes by the rule of tag 270, in hundred-millionths, as its 64 bits.
 * False where it writes none. */
bool value_price(struct value value, uint64_t *price);

/* Says whether a value is shaped as tag 52; whether there is such a day is not asked. */
bool value_is_moment(struct value value);

/* Sets the message's own time in milliseconds: that of tag 52, or of 122 where the message says
 * that it is sent once more (43=Y) and 122 stands. False where it has none. */
bool message_time(const struct piece *message, int64_t *ms);

/* A value as text in room for so many bytes: what cannot be printed becomes a question mark, a
 * missing value a minus, and what is too long is cut. */
const char *value_text(struct value value, char *text, size_t room);

/* The same in the room of a column. */
const char *value_words(struct value value, char text[VALUE_TEXT]);

/* A message's type and number in words; for a snapshot (W) its 48 and 369 are the number. */
struct label {
    char type[VALUE_TEXT], number[NUMBER_TEXT];
};
void message_label(const struct piece *message, struct label *label);

#endif

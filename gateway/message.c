/* The values of a message that this program shows or remembers. */
#include "message.h"

#include <stdio.h>
#include <string.h>

#include "words.h"

struct value message_value(const struct piece *message, const char *tag, size_t *from)
{
    size_t tag_bytes = strlen(tag);
    while (*from < message->length) {
        const uint8_t *field = message->bytes + *from;
        const uint8_t *end = memchr(field, SOH, (size_t)message->length - *from);
        size_t width = end ? (size_t)(end - field) : (size_t)message->length - *from;
        *from += width + 1;
        if (width > tag_bytes && memcmp(field, tag, tag_bytes) == 0 && field[tag_bytes] == '=')
            return (struct value){field + tag_bytes + 1, width - tag_bytes - 1};
    }
    return (struct value){NULL, 0};
}

struct value message_first(const struct piece *message, const char *tag)
{
    size_t from = 0;
    return message_value(message, tag, &from);
}

bool message_has_type(const struct piece *message, char type)
{
    struct value value = message_first(message, "35");
    return value.length == 1 && value.bytes[0] == type;
}

bool message_names_instruments(const struct piece *message)
{
    return message_has_type(message, 'X') || message_has_type(message, 'W');
}

/* Says whether the bytes from `from` up to `end`, fields of one entry, are a J without 48. */
static bool is_empty_of_all(const uint8_t *from, const uint8_t *end)
{
    const struct piece entry = {.bytes = from, .length = (uint64_t)(end - from)};
    struct value kind = message_first(&entry, "269");
    return kind.length == 1 && kind.bytes[0] == 'J' && message_first(&entry, "48").bytes == NULL;
}

/* An entry begins at each 279, which stands nowhere else. */
bool message_empties_all(const struct piece *message)
{
    size_t from = 0;
    if (!message_has_type(message, 'X'))
        return false;
    struct value action = message_value(message, "279", &from);
    while (action.bytes != NULL) {
        struct value next = message_value(message, "279", &from);
        const uint8_t *end = next.bytes != NULL ? next.bytes : message->bytes + message->length;
        if (is_empty_of_all(action.bytes, end))
            return true;
        action = next;
    }
    return false;
}

/* Puts the digits that stand in a value from byte `at` on, at most `most` of them, behind those of
 * the number; gives how many they are. */
static size_t add_digits(struct value value, size_t at, size_t most, uint64_t *number)
{
    size_t n = 0;
    for (; n < most && at + n < value.length; n++) {
        uint8_t byte = value.bytes[at + n];
        if (byte < '0' || byte > '9')
            break;
        *number = *number * 10 + (uint64_t)(byte - '0');
    }
    return n;
}

uint64_t value_number(struct value value)
{
    uint64_t number = 0;
    return add_digits(value, 0, 18, &number) == value.length ? number : 0;
}

/* Tag 270 is a minus or nothing, 1 to 9 digits, then nothing or a point and 1 to 8 digits. Those
 * behind the point are filled up with zeros to 8. */
bool value_price(struct value value, uint64_t *price)
{
    enum { MOST_DIGITS = 9 }; /* before the point */
    uint64_t size = 0;
    size_t minus = value.length > 0 && value.bytes[0] == '-';
    size_t digits = add_digits(value, minus, MOST_DIGITS, &size), end = minus + digits;
    size_t point = end < value.length && value.bytes[end] == '.';
    size_t decimals = point ? add_digits(value, end + 1, SELKAVORN_PRICE_DECIMALS, &size) : 0;
    if (digits == 0 || (point && decimals == 0) || end + point + decimals != value.length)
        return false;
    for (; decimals < SELKAVORN_PRICE_DECIMALS; decimals++)
        size *= 10;
    *price = minus ? -size : size;
    return true;
}

bool value_is_moment(struct value value)
{
    static const char shape[] = "00000000-00:00:00.000";
    enum { SHORT = sizeof "00000000-00:00:00" - 1, LONG = sizeof shape - 1 };
    if (value.length != SHORT && value.length != LONG)
        return false;
    for (size_t i = 0; i < value.length; i++) {
        bool digit = value.bytes[i] >= '0' && value.bytes[i] <= '9';
        if (shape[i] == '0' ? !digit : value.bytes[i] != shape[i])
            return false;
    }
    return true;
}

/* FIX 4.4 gives a message that is sent once more a new 52 and its first one in 122; where that is
 * not known, 122 is as 52. */
bool message_time(const struct piece *message, int64_t *ms)
{
    char text[MOMENT_TEXT] = "";
    struct value again = message_first(message, "43"), sent = message_first(message, "52");
    struct value first = message_first(message, "122");
    if (again.length == 1 && again.bytes[0] == 'Y' && value_is_moment(first))
        sent = first;
    if (!value_is_moment(sent))
        return false;
    memcpy(text, sent.bytes, sent.length);
    *ms = text_ms(text);
    return true;
}

const char *value_text(struct value value, char *text, size_t room)
{
    size_t n = value.length < room - 1 ? value.length : room - 1;
    if (value.bytes == NULL)
        return strcpy(text, "-");
    for (size_t i = 0; i < n; i++)
        text[i] = (char)(value.bytes[i] > 32 && value.bytes[i] < 127 ? value.bytes[i] : '?');
    text[n] = '\0';
    return text;
}

const char *value_words(struct value value, char text[VALUE_TEXT])
{
    return value_text(value, text, VALUE_TEXT);
}

void message_label(const struct piece *message, struct label *label)
{
    char first[VALUE_TEXT], second[VALUE_TEXT];
    value_words(message_first(message, "35"), label->type);
    if (message_has_type(message, 'W'))
        snprintf(label->number, sizeof label->number, "48=%s 369=%s",
                 value_words(message_first(message, "48"), first),
                 value_words(message_first(message, "369"), second));
    else
        snprintf(label->number, sizeof label->number, "34=%s",
                 value_words(message_first(message, "34"), first));
}

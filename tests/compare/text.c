#include "text.h"

#include <stdarg.h>
#include <stdio.h>
#include <stdlib.h>

// No answer to an input of at most 4,096 bytes comes near the room; more would be a fault of this program.
static void require_room(const struct text *text, size_t more)
{
    if (text->size + more < TEXT_ROOM)
        return;
    fputs("compare: a text is longer than foreseen\n", stderr);
    exit(2);
}

void text_clear(struct text *text)
{
    text->size = 0;
    text->chars[0] = 0;
}

void text_add(struct text *text, const char *format, ...)
{
    va_list values;
    va_start(values, format);
    int more = vsnprintf(text->chars + text->size, TEXT_ROOM - text->size, format, values);
    va_end(values);
    require_room(text, (size_t)more);
    text->size += (size_t)more;
}

void text_add_hex(struct text *text, const uint8_t *bytes, size_t size)
{
    static const char digits[] = "0123456789abcdef";
    require_room(text, 2 * size + 1);
    for (size_t i = 0; i < size; i++) {
        text->chars[text->size++] = digits[bytes[i] >> 4];
        text->chars[text->size++] = digits[bytes[i] & 15];
    }
    if (size == 0)
        text->chars[text->size++] = '-';
    text->chars[text->size] = 0;
}

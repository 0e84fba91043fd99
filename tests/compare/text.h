// Text that grows at its end.
#ifndef TEXT_H
#define TEXT_H

#include <stddef.h>
#include <stdint.h>

enum { TEXT_ROOM = 1 << 15 };

struct text {
    size_t size;
    char chars[TEXT_ROOM]; // ends with a zero byte
};

void text_clear(struct text *text);
void text_add(struct text *text, const char *format, ...) __attribute__((format(printf, 2, 3)));
void text_add_hex(struct text *text, const uint8_t *bytes, size_t size); // '-' when there are none

#endif

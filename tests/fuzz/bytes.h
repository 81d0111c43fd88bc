/* Bytes that are a card, a text or a molfile, or were one before they were damaged. */
#ifndef FUZZ_BYTES_H
#define FUZZ_BYTES_H

#include <stddef.h>
#include <stdint.h>

#include "chance.h"

enum { MOST_BYTES = 66000 };

struct bytes {
    size_t length;
    uint8_t at[MOST_BYTES];
};

void put(struct bytes *b, uint8_t byte);
void put_text(struct bytes *b, const char *s);

/* damage.c: one byte changed, left out or put in, the end cut off, or bytes after it */
void damage(struct chance *c, struct bytes *b);
void random_bytes(struct chance *c, struct bytes *b);

/* texts.c: items that are mostly sound */
void random_text(struct chance *c, struct bytes *text);
/* a text that just keeps or just passes a limit */
void limit_text(struct chance *c, struct bytes *text);

#endif

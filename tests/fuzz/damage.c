#include "../c/libc.h"
#include "bytes.h"

void put(struct bytes *b, uint8_t byte)
{
    if (b->length < MOST_BYTES)
        b->at[b->length++] = byte;
}

void put_text(struct bytes *b, const char *s)
{
    for (; *s != 0; s++)
        put(b, (uint8_t)*s);
}

/* What stands in texts, and bytes next to it. */
static uint8_t some_byte(struct chance *c)
{
    static const char letters[] = "CHNOSPFIBKX(Cl)(Br)(Si)=*</+-0123456789ahlr@[`{:~ \n";
    return once_in(c, 4) ? (uint8_t)below(c, 256) : (uint8_t)letters[below(c, sizeof letters - 1)];
}

void damage(struct chance *c, struct bytes *b)
{
    size_t at = b->length == 0 ? 0 : below(c, (unsigned)b->length);
    size_t after = b->length - at;
    switch (b->length == 0 ? 2 : below(c, 6)) {
    case 0:
        memmove(b->at + at, b->at + at + 1, after - 1);
        b->length--;
        break;
    case 1:
        b->length = at;
        break;
    case 2:
        if (b->length < MOST_BYTES) {
            memmove(b->at + at + 1, b->at + at, after);
            b->at[at] = some_byte(c);
            b->length++;
        }
        break;
    case 3:
        for (unsigned more = 1 + below(c, 4); more > 0; more--)
            put(b, some_byte(c));
        break;
    case 4:
        b->at[at] = (uint8_t)(b->at[at] ^ 1u << below(c, 8));
        break;
    default:
        b->at[at] = some_byte(c);
    }
}

void random_bytes(struct chance *c, struct bytes *b)
{
    b->length = 0;
    for (unsigned n = below(c, once_in(c, 20) ? 8192 : 40); n > 0; n--)
        put(b, some_byte(c));
}

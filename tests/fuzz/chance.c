/* splitmix64: every seed, 0 too, gives a full period. */
#include "chance.h"

static uint64_t draw(struct chance *c)
{
    uint64_t z = c->state += 0x9e3779b97f4a7c15u;
    z = (z ^ (z >> 30)) * 0xbf58476d1ce4e5b9u;
    z = (z ^ (z >> 27)) * 0x94d049bb133111ebu;
    return z ^ (z >> 31);
}

unsigned below(struct chance *c, unsigned n)
{
    return (unsigned)((draw(c) >> 32) * n >> 32);
}

int once_in(struct chance *c, unsigned n)
{
    return below(c, n) == 0;
}

void shuffle(struct chance *c, uint16_t list[], unsigned n)
{
    for (unsigned i = 0; i < n; i++)
        list[i] = (uint16_t)i;
    for (unsigned i = n; i > 1; i--) {
        unsigned j = below(c, i);
        uint16_t kept = list[i - 1];
        list[i - 1] = list[j];
        list[j] = kept;
    }
}

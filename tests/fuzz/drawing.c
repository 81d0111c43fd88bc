#include "drawing.h"

unsigned bonds_on(const struct drawing *d, unsigned atom)
{
    unsigned n = 0;
    for (unsigned i = 0; i < d->bonds; i++)
        n += d->bond[i][0] == atom || d->bond[i][1] == atom;
    return n;
}

int is_bonded(const struct drawing *d, unsigned a, unsigned b)
{
    for (unsigned i = 0; i < d->bonds; i++)
        if ((d->bond[i][0] == a && d->bond[i][1] == b) || (d->bond[i][0] == b && d->bond[i][1] == a))
            return 1;
    return 0;
}

void join(struct drawing *d, unsigned a, unsigned b)
{
    if (d->bonds == DRAWN_BONDS)
        return;
    uint8_t *bond = d->bond[d->bonds++];
    bond[0] = (uint8_t)a;
    bond[1] = (uint8_t)b;
    bond[2] = 1;
}

/* Few kinds make ties, many break them. */
static uint8_t some_number(struct chance *c, unsigned variety)
{
    static const uint8_t numbers[] = {6,  7,  8,  17, 14, 32, 50, 82, 15, 33, 51, 83,
                                      16, 34, 52, 9,  35, 53, 5,  13, 3,  11, 19, 12};
    return numbers[below(c, variety)];
}

void decorate(struct chance *c, struct drawing *d)
{
    static const unsigned varieties[] = {1, 1, 1, 2, 4, 24};
    unsigned variety = varieties[below(c, 6)];
    unsigned most_hydrogens = below(c, 5);
    unsigned codes = once_in(c, 3) ? 4 : 1;
    unsigned code = once_in(c, 4) ? 4 : 1;
    unsigned left = 128;
    for (unsigned a = 0; a < d->atoms; a++) {
        unsigned h = once_in(c, 2) ? most_hydrogens : below(c, most_hydrogens + 1);
        h = h < left ? h : left;
        left -= h;
        d->number[a] = some_number(c, variety);
        d->hydrogens[a] = (uint8_t)h;
    }
    for (unsigned i = 0; i < d->bonds; i++)
        d->bond[i][2] = (uint8_t)(codes == 1 ? code : 1 + below(c, codes));
}

void renumber(struct chance *c, const struct drawing *d, struct drawing *other, uint16_t to[])
{
    uint16_t order[DRAWN_BONDS];
    shuffle(c, to, d->atoms);
    shuffle(c, order, d->bonds);
    other->atoms = d->atoms;
    other->bonds = d->bonds;
    for (unsigned a = 0; a < d->atoms; a++) {
        other->number[to[a]] = d->number[a];
        other->hydrogens[to[a]] = d->hydrogens[a];
    }
    for (unsigned i = 0; i < d->bonds; i++) {
        const uint8_t *bond = d->bond[order[i]];
        unsigned turned = below(c, 2);
        other->bond[i][0] = (uint8_t)to[bond[turned]];
        other->bond[i][1] = (uint8_t)to[bond[1 - turned]];
        other->bond[i][2] = bond[2];
    }
}

static uint8_t *put_field(uint8_t *card, uint8_t tag, unsigned length)
{
    card[0] = tag;
    card[1] = (uint8_t)(length >> 8);
    card[2] = (uint8_t)length;
    return card + 3;
}

size_t card_of_drawing(const struct drawing *d, uint8_t *card)
{
    uint8_t *end = put_field(card, 1, 2 * d->atoms);
    for (unsigned a = 0; a < d->atoms; a++) {
        *end++ = d->number[a];
        *end++ = d->hydrogens[a];
    }
    end = put_field(end, 2, 3 * d->bonds);
    for (unsigned i = 0; i < 3 * d->bonds; i++)
        *end++ = d->bond[i / 3][i % 3];
    return (size_t)(end - card);
}

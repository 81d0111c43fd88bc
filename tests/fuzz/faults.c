/* One fault in a sound drawing, for each refusal that a card can get past its layout. */
#include "drawing.h"

static void spoil_hydrogens(struct chance *c, struct drawing *d)
{
    if (once_in(c, 2)) {
        d->hydrogens[below(c, d->atoms)] = (uint8_t)(5 + below(c, 251));
        return;
    }
    for (unsigned a = 0; a < d->atoms; a++)
        d->hydrogens[a] = (uint8_t)(once_in(c, 16) ? 3 : 2 + (a < 32 ? 2 : 0));
}

/* To 65 atoms or past them, each on the chain's end, so that only their number is wrong. */
static void spoil_size(struct chance *c, struct drawing *d)
{
    unsigned wanted = 64 + below(c, 3);
    while (d->atoms < wanted && d->bonds < DRAWN_BONDS) {
        d->number[d->atoms] = 6;
        d->hydrogens[d->atoms] = 0;
        join(d, d->atoms - 1, d->atoms);
        d->atoms++;
    }
}

/* Bonds past the 80th or past the sixth on an atom. */
static void spoil_bonds(struct chance *c, struct drawing *d)
{
    unsigned a = below(c, d->atoms);
    int on_one_atom = once_in(c, 2);
    for (unsigned tries = 0; tries < 300 && d->bonds < 82; tries++) {
        unsigned b = below(c, d->atoms);
        if (!on_one_atom)
            a = below(c, d->atoms);
        if (a != b && !is_bonded(d, a, b) && (on_one_atom || (bonds_on(d, a) < 6 && bonds_on(d, b) < 6)))
            join(d, a, b);
    }
}

static void spoil_one_bond(struct chance *c, struct drawing *d)
{
    static const uint8_t codes[] = {0, 5, 6, 255};
    uint8_t *bond = d->bond[below(c, d->bonds)];
    switch (below(c, 4)) {
    case 0: bond[below(c, 2)] = (uint8_t)(d->atoms + below(c, 256 - d->atoms)); break;
    case 1: bond[0] = bond[1]; break;
    case 2: bond[2] = codes[below(c, 4)]; break;
    default: join(d, bond[1], bond[0]); break;
    }
}

/* Leaves a bond out, which parts a chain or a tree; or adds an atom that nothing joins. */
static void part(struct chance *c, struct drawing *d)
{
    if (d->bonds > 0 && once_in(c, 2)) {
        unsigned gone = below(c, d->bonds--);
        for (unsigned i = 0; i < 3; i++)
            d->bond[gone][i] = d->bond[d->bonds][i];
    } else {
        d->number[d->atoms] = 6;
        d->hydrogens[d->atoms++] = 0;
    }
}

void spoil(struct chance *c, struct drawing *d)
{
    switch (below(c, 6)) {
    case 0: d->number[below(c, d->atoms)] = (uint8_t)below(c, 256); break;
    case 1: spoil_hydrogens(c, d); break;
    case 2: spoil_size(c, d); break;
    case 3: spoil_bonds(c, d); break;
    case 4: part(c, d); break;
    default:
        if (d->bonds == 0 || once_in(c, 8))
            d->atoms = 0;
        else
            spoil_one_bond(c, d);
    }
}

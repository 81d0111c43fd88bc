/* Connected skeletons within the limits: at most 64 atoms, 80 bonds, 6 bonds on an atom. */
#include "../c/libc.h"
#include "drawing.h"

static void draw_chain(struct drawing *d, unsigned atoms)
{
    d->atoms = atoms;
    for (unsigned a = 1; a < atoms; a++)
        join(d, a - 1, a);
}

static void draw_ring(struct drawing *d, unsigned atoms)
{
    draw_chain(d, atoms);
    if (atoms > 2)
        join(d, atoms - 1, 0);
}

/* Every atom but the first hangs on one before it: on the fewest-numbered one with a place left, or on any. */
static void draw_tree(struct chance *c, struct drawing *d, unsigned atoms, unsigned branches)
{
    int even = once_in(c, 2);
    d->atoms = 1;
    while (d->atoms < atoms) {
        unsigned on = even ? (d->atoms - 1) / branches : below(c, d->atoms);
        if (bonds_on(d, on) < 6)
            join(d, on, d->atoms++);
    }
}

/* Two rings of k atoms, each atom joined to its fellow; k = 4 is cubane. */
static void draw_prism(struct drawing *d, unsigned k)
{
    d->atoms = 2 * k;
    for (unsigned i = 0; i < k; i++) {
        join(d, i, (i + 1) % k);
        join(d, k + i, k + (i + 1) % k);
        join(d, i, k + i);
    }
}

/* Every atom joined to every other, k at most 7. */
static void draw_complete(struct drawing *d, unsigned k)
{
    d->atoms = k;
    for (unsigned a = 0; a < k; a++)
        for (unsigned b = a + 1; b < k; b++)
            join(d, a, b);
}

static void draw_grid(struct drawing *d, unsigned wide, unsigned high)
{
    d->atoms = wide * high;
    for (unsigned a = 0; a < d->atoms; a++) {
        if (a % wide + 1 < wide)
            join(d, a, a + 1);
        if (a + wide < d->atoms)
            join(d, a, a + wide);
    }
}

/* Bonds between atoms that have none yet, as far as the limits go. */
static void add_bonds(struct chance *c, struct drawing *d, unsigned wanted)
{
    for (unsigned tries = 4 * wanted; tries > 0 && wanted > 0 && d->bonds < 80; tries--) {
        unsigned a = below(c, d->atoms), b = below(c, d->atoms);
        if (a != b && !is_bonded(d, a, b) && bonds_on(d, a) < 6 && bonds_on(d, b) < 6) {
            join(d, a, b);
            wanted--;
        }
    }
}

/* Mostly small, at times anything up to the limit, at times the limit. */
static unsigned some_size(struct chance *c)
{
    switch (below(c, 12)) {
    case 0: return 64;
    case 1: return 1 + below(c, 64);
    case 2:
    case 3: return 1 + below(c, 24);
    default: return 1 + below(c, 10);
    }
}

void draw_skeleton(struct chance *c, struct drawing *d)
{
    unsigned size = some_size(c);
    memset(d, 0, sizeof *d);
    switch (below(c, 10)) {
    case 0: draw_chain(d, size); break;
    case 1: draw_ring(d, size); break;
    case 2: draw_prism(d, 3 + below(c, size < 24 ? 4 : 24)); break;
    case 3: draw_complete(d, 1 + below(c, 7)); break;
    case 4: draw_grid(d, 1 + below(c, 5), 1 + below(c, 7)); break;
    default: draw_tree(c, d, size, 1 + below(c, 5)); break;
    }
    if (once_in(c, 2))
        add_bonds(c, d, once_in(c, 8) ? 80 : below(c, 6));
}

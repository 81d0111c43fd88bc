#include "../c/libc.h"
#include "../reference/molecule.h"
#include "molfile.h"

unsigned list_atom(struct molfile *m, const char *symbol)
{
    if (m->atoms == LISTED)
        return LISTED;
    memcpy(m->symbol[m->atoms], symbol, strlen(symbol) + 1);
    return ++m->atoms;
}

void list_bond(struct molfile *m, unsigned a, unsigned b, unsigned code)
{
    if (m->bonds == LISTED)
        return;
    uint16_t *bond = m->bond[m->bonds++];
    bond[0] = (uint16_t)a;
    bond[1] = (uint16_t)b;
    bond[2] = (uint16_t)code;
}

void list_drawing(struct chance *c, const struct drawing *d, struct molfile *m)
{
    m->atoms = m->bonds = 0;
    for (unsigned a = 0; a < d->atoms; a++) {
        int kind = kind_of_number(d->number[a]);
        list_atom(m, kind == NO_KIND ? strange_symbol(c) : symbol_of_kind(kind));
    }
    for (unsigned i = 0; i < d->bonds; i++)
        list_bond(m, d->bond[i][0] + 1u, d->bond[i][1] + 1u, d->bond[i][2]);
    for (unsigned a = 0; a < d->atoms; a++)
        for (unsigned h = 0; h < d->hydrogens[a]; h++)
            list_bond(m, a + 1, list_atom(m, "H"), 1);
}

void renumber_molfile(struct chance *c, const struct molfile *m, struct molfile *other)
{
    uint16_t to[LISTED], order[LISTED];
    shuffle(c, to, m->atoms);
    shuffle(c, order, m->bonds);
    other->atoms = m->atoms;
    other->bonds = m->bonds;
    for (unsigned a = 0; a < m->atoms; a++)
        memcpy(other->symbol[to[a]], m->symbol[a], sizeof m->symbol[a]);
    for (unsigned i = 0; i < m->bonds; i++) {
        const uint16_t *bond = m->bond[order[i]];
        unsigned turned = below(c, 2);
        for (unsigned end = 0; end < 2; end++) {
            unsigned atom = bond[end ^ turned];
            int is_there = atom >= 1 && atom <= m->atoms;
            other->bond[i][end] = (uint16_t)(is_there ? to[atom - 1] + 1u : atom);
        }
        other->bond[i][2] = bond[2];
    }
}

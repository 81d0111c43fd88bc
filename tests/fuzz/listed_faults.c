/* Faults that no line of a molfile shows by itself, and molfiles about the limits. */
#include "../c/libc.h"
#include "molfile.h"

const char *strange_symbol(struct chance *c)
{
    static const char *const symbols[] = {"D",  "T",  "A",  "Q",   "*",   "R#",  "CL", "c",  "cl", "Xx",
                                          "He", "h",  "L",  "C C", "CCC", "Cl1", "X",  "LP", "C,", "Hg"};
    return symbols[below(c, 20)];
}

static void change_symbol(struct chance *c, struct molfile *m)
{
    static const char *const symbols[] = {"H", "C", "Cl", "Mg"};
    const char *symbol = once_in(c, 2) ? strange_symbol(c) : symbols[below(c, 4)];
    memcpy(m->symbol[below(c, m->atoms)], symbol, strlen(symbol) + 1);
}

static void change_bond(struct chance *c, struct molfile *m)
{
    static const uint16_t codes[] = {0, 2, 3, 4, 5, 6, 9, 10, 101, 999};
    uint16_t *bond = m->bond[below(c, m->bonds)];
    unsigned not_there[] = {0, m->atoms + 1, 999};
    switch (below(c, 4)) {
    case 0: bond[below(c, 2)] = (uint16_t)(not_there[below(c, 3)] % 1000); break;
    case 1: bond[0] = bond[1]; break;
    case 2: bond[below(c, 2)] = (uint16_t)(1 + below(c, m->atoms)); break;
    default: bond[2] = codes[below(c, 10)]; break;
    }
}

/* Leaves a bond out, so that an H is without one or the molecule parted. */
static void drop_bond(struct chance *c, struct molfile *m)
{
    unsigned gone = below(c, m->bonds--);
    memcpy(m->bond[gone], m->bond[m->bonds], sizeof m->bond[gone]);
}

static void double_bond(struct chance *c, struct molfile *m)
{
    const uint16_t *bond = m->bond[below(c, m->bonds)];
    unsigned turned = below(c, 2);
    list_bond(m, bond[turned], bond[1 - turned], once_in(c, 4) ? 2 : bond[2]);
}

void spoil_molfile(struct chance *c, struct molfile *m)
{
    unsigned fault = below(c, 8);
    if (m->atoms == 0 || (m->bonds == 0 && fault > 3))
        fault = 0;
    switch (fault) {
    case 0: list_atom(m, once_in(c, 2) ? "H" : "C"); break;
    case 1: change_symbol(c, m); break;
    case 2: list_bond(m, 1 + below(c, m->atoms), 1 + below(c, m->atoms), 1 + below(c, 2)); break;
    case 3:
        m->bonds = once_in(c, 2) ? 0 : m->bonds;
        for (unsigned a = below(c, 2); a < m->atoms; a++)
            memcpy(m->symbol[a], "H", 2);
        m->atoms = once_in(c, 2) ? 0 : m->atoms;
        break;
    case 4: drop_bond(c, m); break;
    case 5: double_bond(c, m); break;
    default: change_bond(c, m); break;
    }
}

static void list_chain(struct molfile *m, unsigned atoms)
{
    for (unsigned a = 0; a < atoms; a++) {
        unsigned next = list_atom(m, "C");
        if (a > 0)
            list_bond(m, next - 1, next, 1);
    }
}

static void hang(struct molfile *m, unsigned on, unsigned atoms, const char *symbol)
{
    for (; atoms > 0; atoms--)
        list_bond(m, on, list_atom(m, symbol), 1);
}

/* Bonds between atoms 20 apart; with 17 of them a chain of 64 has 80 bonds. Whether a bond of an H to an atom that is
 * not there counts among them shows only here. */
static void list_rings(struct chance *c, struct molfile *m, unsigned rings)
{
    list_chain(m, 64);
    for (unsigned i = 0; i < rings; i++)
        list_bond(m, 2 * i + 1, 2 * i + 21, 1);
    if (once_in(c, 4))
        list_bond(m, list_atom(m, once_in(c, 2) ? "H" : "C"), 999, 1);
}

void limit_molfile(struct chance *c, struct molfile *m)
{
    m->atoms = m->bonds = 0;
    switch (below(c, 5)) {
    case 0: list_chain(m, 63 + below(c, 4)); break;
    case 1: list_rings(c, m, 16 + below(c, 4)); break;
    case 2:
        list_chain(m, 33);
        for (unsigned a = 1; a <= 31; a++)
            hang(m, a, 4, "H");
        hang(m, 32, below(c, 5), "H");
        hang(m, 33, below(c, 3), "H");
        break;
    case 3:
        list_chain(m, 1);
        hang(m, 1, below(c, 9), "C");
        hang(m, 1, 2 + below(c, 4), "H");
        break;
    default:
        list_chain(m, 40 + below(c, 20));
        hang(m, 1, 900 + below(c, 100), once_in(c, 2) ? "H" : "C");
        break;
    }
    if (once_in(c, 2))
        hang(m, 1 + below(c, m->atoms), 1 + below(c, 4), "H");
    if (once_in(c, 4))
        spoil_molfile(c, m);
}

/* 02, §1: what a molfile lists, judged from 1 on and its hydrogens folded. */
#include "listing.h"
#include "molecule.h"

enum { MOST_MOLFILE = 65536, NOWHERE = -1 };

struct folding {
    const struct listing *l;
    struct molecule *m;
    /* of each listed atom: its number in the molecule, NOWHERE for an H */
    int atom[MOST_LISTED];
    /* whether an H has its one bond */
    int bonded[MOST_LISTED];
};

static int is_there(const struct listing *l, int number)
{
    return number >= 1 && number <= l->atoms;
}

static int is_h(const struct listing *l, int number)
{
    return is_there(l, number) && l->kind[number - 1] == HYDROGEN;
}

/* "the limits on atoms and bonds leave out H and its bonds, and H alone is 1" */
static int judge_counts(const struct listing *l)
{
    int atoms = 0, bonds = 0;
    for (int a = 1; a <= l->atoms; a++)
        atoms += !is_h(l, a);
    for (int b = 0; b < l->bonds; b++)
        bonds += !is_h(l, l->bond[b][0]) && !is_h(l, l->bond[b][1]);
    if (atoms == 0)
        return NOTHING_THERE;
    return atoms > MOST_ATOMS || bonds > MOST_BONDS ? OVER_LIMIT : ACCEPTED;
}

static int fold_atoms(struct folding *f)
{
    for (int a = 0; a < f->l->atoms; a++) {
        int kind = f->l->kind[a];
        if (kind == NO_KIND)
            return UNKNOWN_KIND;
        f->atom[a] = NOWHERE;
        if (kind != HYDROGEN) {
            f->m->kind[f->m->atoms] = kind;
            f->atom[a] = f->m->atoms++;
        }
    }
    return ACCEPTED;
}

/* "Hydrogens listed as atoms are folded by the text's H rule": one bond, single, to an atom that isn't H. */
static int fold_h(struct folding *f, int h, int on, int code)
{
    if (f->atom[on] == NOWHERE || code != 1 || f->bonded[h])
        return H_RULE;
    f->bonded[h] = 1;
    f->m->hydrogens[f->atom[on]]++;
    f->m->all_hydrogens++;
    return ACCEPTED;
}

/* "bonds to H judged by 7 after 5" */
static int fold_bond(struct folding *f, const int bond[3])
{
    if (!is_there(f->l, bond[0]) || !is_there(f->l, bond[1]))
        return NOT_THERE;
    int a = bond[0] - 1, b = bond[1] - 1;
    if (f->atom[a] == NOWHERE)
        return fold_h(f, a, b, bond[2]);
    if (f->atom[b] == NOWHERE)
        return fold_h(f, b, a, bond[2]);
    return add_bond(f->m, f->atom[a], f->atom[b], bond[2]);
}

/* "once all bonds are judged, an H without a bond is 7, then hydrogens on one atom and their total are 4, then 8" */
static int judge_whole(const struct folding *f)
{
    for (int a = 0; a < f->l->atoms; a++)
        if (f->atom[a] == NOWHERE && !f->bonded[a])
            return H_RULE;
    for (int a = 0; a < f->m->atoms; a++)
        if (f->m->hydrogens[a] > MOST_HYDROGENS_ON_ATOM)
            return OVER_LIMIT;
    if (f->m->all_hydrogens > MOST_HYDROGENS)
        return OVER_LIMIT;
    return is_connected(f->m) ? ACCEPTED : NOT_CONNECTED;
}

static int fold(const struct listing *l, struct molecule *m)
{
    struct folding f = {.l = l, .m = m};
    int refusal = judge_counts(l);
    if (refusal == ACCEPTED)
        refusal = fold_atoms(&f);
    for (int b = 0; b < l->bonds && refusal == ACCEPTED; b++)
        refusal = fold_bond(&f, l->bond[b]);
    return refusal == ACCEPTED ? judge_whole(&f) : refusal;
}

/* "A file longer than 65,536 bytes is 4 before all else." */
int read_molfile(const uint8_t *file, size_t length, struct molecule *m, size_t *place)
{
    struct listing l;
    clear_molecule(m);
    *place = 0;
    if (length > MOST_MOLFILE)
        return OVER_LIMIT;
    if (!read_lines(file, length, &l, place))
        return BROKEN_LINE;
    *place = 0;
    return fold(&l, m);
}

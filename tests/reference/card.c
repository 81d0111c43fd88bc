/* 01, "The card" and "Order for a card": bytes to a molecule, and a molecule to bytes. */
#include "molecule.h"

/* The two fields of a card whose layout is sound. */
struct fields {
    const uint8_t *atoms;
    size_t atoms_length;
    const uint8_t *bonds;
    size_t bonds_length;
};

/* Takes a field with this tag from the front of the bytes left; 0 if none stands there. */
static int take_field(const uint8_t **at, size_t *left, int tag, const uint8_t **value, size_t *length)
{
    if (*left < 3 || (*at)[0] != tag)
        return 0;
    *length = (size_t)(*at)[1] * 256 + (*at)[2];
    if (*left - 3 < *length)
        return 0;
    *value = *at + 3;
    *at += 3 + *length;
    *left -= 3 + *length;
    return 1;
}

/* "Tag 1, then tag 2, each once and nothing after"; whole numbers of atoms and bonds. */
static int sound_layout(const uint8_t *card, size_t length, struct fields *f)
{
    if (!take_field(&card, &length, 1, &f->atoms, &f->atoms_length))
        return 0;
    if (!take_field(&card, &length, 2, &f->bonds, &f->bonds_length))
        return 0;
    return length == 0 && f->atoms_length % 2 == 0 && f->bonds_length % 3 == 0;
}

/* "atoms in order (3, then 4 for its hydrogens); 4 for their total" */
static int read_atoms(const uint8_t *value, size_t count, struct molecule *m)
{
    for (size_t i = 0; i < count; i++) {
        int kind = kind_of_number(value[2 * i]);
        int hydrogens = value[2 * i + 1];
        if (kind == NO_KIND)
            return UNKNOWN_KIND;
        if (hydrogens > MOST_HYDROGENS_ON_ATOM)
            return OVER_LIMIT;
        m->kind[i] = kind;
        m->hydrogens[i] = hydrogens;
        m->all_hydrogens += hydrogens;
    }
    m->atoms = (int)count;
    return m->all_hydrogens > MOST_HYDROGENS ? OVER_LIMIT : ACCEPTED;
}

static int read_bonds(const uint8_t *value, size_t count, struct molecule *m)
{
    for (size_t i = 0; i < count; i++) {
        const uint8_t *bond = value + 3 * i;
        if (bond[0] >= m->atoms || bond[1] >= m->atoms)
            return NOT_THERE;
        int refusal = add_bond(m, bond[0], bond[1], bond[2]);
        if (refusal != ACCEPTED)
            return refusal;
    }
    return ACCEPTED;
}

int read_card(const uint8_t *card, size_t length, struct molecule *m)
{
    struct fields f;
    clear_molecule(m);
    if (!sound_layout(card, length, &f))
        return BROKEN;
    if (f.atoms_length == 0)
        return NOTHING_THERE;
    if (f.atoms_length / 2 > MOST_ATOMS || f.bonds_length / 3 > MOST_BONDS)
        return OVER_LIMIT;
    int refusal = read_atoms(f.atoms, f.atoms_length / 2, m);
    if (refusal == ACCEPTED)
        refusal = read_bonds(f.bonds, f.bonds_length / 3, m);
    if (refusal == ACCEPTED && !is_connected(m))
        refusal = NOT_CONNECTED;
    return refusal;
}

static uint8_t *put_header(uint8_t *out, int tag, int length)
{
    *out++ = (uint8_t)tag;
    *out++ = (uint8_t)(length / 256);
    *out++ = (uint8_t)(length % 256);
    return out;
}

/* "each bond has its lower atom first, and bonds ascend by first then second atom" */
size_t write_card(const struct molecule *m, uint8_t *out)
{
    uint8_t *end = put_header(out, 1, 2 * m->atoms);
    for (int a = 0; a < m->atoms; a++) {
        *end++ = (uint8_t)number_of_kind(m->kind[a]);
        *end++ = (uint8_t)m->hydrogens[a];
    }
    end = put_header(end, 2, 3 * m->bonds);
    for (int a = 0; a < m->atoms; a++)
        for (int b = a + 1; b < m->atoms; b++)
            if (m->code[a][b] != 0) {
                *end++ = (uint8_t)a;
                *end++ = (uint8_t)b;
                *end++ = m->code[a][b];
            }
    return (size_t)(end - out);
}

/* A molecule as document 01 describes it, and what the reference does with one.
 * Written from documents 01 and 02, §1, and the readings of them that docs/DECISIONS.md lists, not from the code of
 * crates/. */
#ifndef REFERENCE_MOLECULE_H
#define REFERENCE_MOLECULE_H

#include <stddef.h>
#include <stdint.h>

enum {
    MOST_ATOMS = 64,
    MOST_BONDS = 80,
    MOST_HYDROGENS = 128,
    MOST_BONDS_ON_ATOM = 6,
    MOST_HYDROGENS_ON_ATOM = 4,
    MOST_TEXT = 4096,
    /* 01: "2,048 bytes hold any name" */
    MOST_NAME = 2048,
    /* two fields of three bytes, 64 atoms of two bytes, 80 bonds of three */
    MOST_CARD = 3 + 2 * MOST_ATOMS + 3 + 3 * MOST_BONDS,
    KINDS = 24,
    HYDROGEN = 0,
    NO_KIND = -1
};

enum {
    ACCEPTED = 0,
    NOTHING_THERE = 1,
    BROKEN = 2,
    UNKNOWN_KIND = 3,
    OVER_LIMIT = 4,
    NOT_THERE = 5,
    BAD_BOND = 6,
    H_RULE = 7,
    NOT_CONNECTED = 8,
    OVER_ALLOWANCE = 9,
    NO_ROOM = 10,
    BROKEN_LINE = 11
};

struct molecule {
    int atoms;
    int bonds;
    int all_hydrogens;
    int kind[MOST_ATOMS];
    int hydrogens[MOST_ATOMS];
    int degree[MOST_ATOMS];
    int neighbour[MOST_ATOMS][MOST_BONDS_ON_ATOM];
    /* 0 where two atoms have no bond */
    uint8_t code[MOST_ATOMS][MOST_ATOMS];
};

/* kinds.c */
int kind_of_number(int atomic_number);
int kind_of_symbol(char capital, char small);
int number_of_kind(int kind);
const char *symbol_of_kind(int kind);

/* molecule.c */
void clear_molecule(struct molecule *m);
int add_bond(struct molecule *m, int a, int b, int code);
int is_connected(const struct molecule *m);

/* card.c */
int read_card(const uint8_t *card, size_t length, struct molecule *m);
size_t write_card(const struct molecule *m, uint8_t *out);

/* text.c */
int read_text(const uint8_t *text, size_t length, struct molecule *m, size_t *place);

/* molfile.c: 02, §1 */
int read_molfile(const uint8_t *file, size_t length, struct molecule *m, size_t *place);

/* numbering.c */
struct numbering {
    uint32_t leaves;
    /* ranks of a numbering that gives the least table */
    int rank[MOST_ATOMS];
    int class_mark[MOST_ATOMS];
};
int number_molecule(const struct molecule *m, uint32_t allowance, struct numbering *numbering);
void renumber_molecule(const struct molecule *m, const int rank[], struct molecule *canonical);

/* name.c */
size_t write_name(const struct molecule *canonical, uint8_t *out);

#endif

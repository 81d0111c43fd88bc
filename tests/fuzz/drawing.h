/* A molecule as somebody drew it: atoms and bonds in some order, sound or not. */
#ifndef FUZZ_DRAWING_H
#define FUZZ_DRAWING_H

#include <stddef.h>
#include <stdint.h>

#include "chance.h"

/* room for one more than each limit, and some */
enum { DRAWN_ATOMS = 80, DRAWN_BONDS = 100, DRAWN_CARD = 6 + 2 * DRAWN_ATOMS + 3 * DRAWN_BONDS + 8 };

struct drawing {
    unsigned atoms;
    unsigned bonds;
    uint8_t number[DRAWN_ATOMS];
    uint8_t hydrogens[DRAWN_ATOMS];
    uint8_t bond[DRAWN_BONDS][3];
};

/* skeletons.c: the bare bonds of a connected molecule within all limits */
void draw_skeleton(struct chance *c, struct drawing *d);

/* drawing.c */
unsigned bonds_on(const struct drawing *d, unsigned atom);
int is_bonded(const struct drawing *d, unsigned a, unsigned b);
/* a single bond more; none once there is no room for it, which two faults in one drawing can reach */
void join(struct drawing *d, unsigned a, unsigned b);
/* gives a skeleton kinds, hydrogens and codes, within all limits */
void decorate(struct chance *c, struct drawing *d);
/* the same molecule with its atoms renumbered, its bonds shuffled and some turned round; to[a] is the new number of a */
void renumber(struct chance *c, const struct drawing *d, struct drawing *other, uint16_t to[]);
/* faults.c: one fault, or more hydrogens, atoms or bonds than the limits allow */
void spoil(struct chance *c, struct drawing *d);
/* drawing.c: the card of a drawing, its length at most DRAWN_CARD */
size_t card_of_drawing(const struct drawing *d, uint8_t *card);

#endif

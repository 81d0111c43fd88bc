/* What a molfile lists, before it is written as lines: hydrogens are atoms here. Sound or not. */
#ifndef FUZZ_MOLFILE_H
#define FUZZ_MOLFILE_H

#include "bytes.h"
#include "drawing.h"

enum { LISTED = 999 };

struct molfile {
    unsigned atoms;
    unsigned bonds;
    char symbol[LISTED][4];
    /* two atoms, which count from 1, and the code */
    uint16_t bond[LISTED][3];
};

/* listed.c: an atom and its number; a bond; nothing once 999 are listed */
unsigned list_atom(struct molfile *m, const char *symbol);
void list_bond(struct molfile *m, unsigned a, unsigned b, unsigned code);
/* each atom of the drawing, then each of its hydrogens with its bond */
void list_drawing(struct chance *c, const struct drawing *d, struct molfile *m);
/* the same molecule with its atoms renumbered, H included, its bonds shuffled and some turned round */
void renumber_molfile(struct chance *c, const struct molfile *m, struct molfile *other);

/* listed_faults.c: one fault in atoms or bonds; what just keeps or just passes a limit */
const char *strange_symbol(struct chance *c);
void spoil_molfile(struct chance *c, struct molfile *m);
void limit_molfile(struct chance *c, struct molfile *m);

/* molfile_lines.c: the file, sound as to its lines, in a style that chance decides */
void write_molfile(struct chance *c, const struct molfile *m, struct bytes *file);

/* line_faults.c: one fault in the lines, a field, a count or an ending */
void damage_lines(struct chance *c, struct bytes *file);
/* blanks that no rule looks at, up to a length about the longest that is read */
void lengthen(struct chance *c, struct bytes *file);

#endif

/* What a molfile lists: its atoms and bonds as they stand on its lines, of which only the form is judged. */
#ifndef REFERENCE_LISTING_H
#define REFERENCE_LISTING_H

#include <stddef.h>
#include <stdint.h>

/* a count of three columns is at most 999 */
enum { MOST_LISTED = 999 };

struct listing {
    int atoms;
    int bonds;
    /* of each atom: HYDROGEN, a kind, or NO_KIND */
    int kind[MOST_LISTED];
    /* of each bond: two atoms, which count from 1, and the code */
    int bond[MOST_LISTED][3];
};

/* lines.c: 0 at the first line that is broken, unsupported or missing, whose offset is then the place */
int read_lines(const uint8_t *file, size_t length, struct listing *l, size_t *place);

#endif

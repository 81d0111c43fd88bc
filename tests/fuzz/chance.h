/* Chance that a seed decides: the same seed gives the same inputs on every machine. */
#ifndef FUZZ_CHANCE_H
#define FUZZ_CHANCE_H

#include <stdint.h>

struct chance {
    uint64_t state;
};

/* a number below n, which is at least 1 */
unsigned below(struct chance *c, unsigned n);
/* true once in n times */
int once_in(struct chance *c, unsigned n);
/* the numbers below n, in any order */
void shuffle(struct chance *c, uint16_t list[], unsigned n);

#endif

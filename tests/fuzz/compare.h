/* Library and reference asked the same. */
#ifndef FUZZ_COMPARE_H
#define FUZZ_COMPARE_H

#include "../c/operations.h"

enum { LENT = 4096 };

struct tally {
    unsigned long inputs;
    unsigned long by_refusal[12];
};

struct outcome {
    struct scallopgrid_answer answer;
    uint8_t out[LENT];
};

/* Asks both and ends the program at the first difference in a number or a lent byte; otherwise the answer. */
void compare(struct tally *tally, const struct request *request, size_t room, struct outcome *outcome);

/* Ends the program if two calls that must get the same answer did not. */
void must_agree(const struct request *one, const struct outcome *of_one, const struct request *other,
                const struct outcome *of_other, size_t room);

#endif

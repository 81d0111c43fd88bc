/* Bytes lent to the library so that a step over their ends is seen. */
#ifndef TESTS_LENT_H
#define TESTS_LENT_H

#include "operations.h"

/* the longest output lent, and the longest input: a molfile, and some bytes past its limit */
enum { GUARD = 64, MOST_LENT = 8192, MOST_INPUT = 65600 };

/* An output between guard bytes; every byte of it has a known value before a call. */
struct output {
    uint8_t bytes[GUARD + MOST_LENT + GUARD];
};

/* An input whose last byte is the last of a page, with a page that nobody may read after it. */
struct input {
    uint8_t *end;
};

struct input make_input(void);

/* Asks the library with both lent so, and sees to it that it kept to document 01's rules on lent bytes: the input and
 * every byte of the output that the answer does not cover are as before. 0 if it did not. */
int ask_lent(struct input input, struct output *output, const struct request *request, size_t room,
             struct scallopgrid_answer *answer);

/* The lent bytes of an output. */
const uint8_t *lent_bytes(const struct output *output);

#endif

/* Vectors: lines that the program `answers` takes, with the lines that it must print. */
#ifndef TESTS_VECTORS_H
#define TESTS_VECTORS_H

#include "operations.h"

enum { MOST_ROOM = 4096 };

struct vector {
    struct request request;
    size_t room;
    struct scallopgrid_answer answer;
    const uint8_t *out;
};

struct vectors {
    size_t count;
    struct vector *all;
};

/* Reads both files; ends the program if they are not there or not of this form. */
struct vectors read_vectors(const char *requests_path, const char *answers_path);

#endif

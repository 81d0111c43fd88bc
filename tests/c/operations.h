/* The five functions under one roof, for the library and for the reference. */
#ifndef TESTS_OPERATIONS_H
#define TESTS_OPERATIONS_H

#include "../../include/scallopgrid.h"

enum { OPERATIONS = 5 };
enum operation { NAME, READ, CANON, MARKS, MOL };

/* What one call is given, but for the lent bytes. */
struct request {
    enum operation operation;
    uint16_t allowance;
    const uint8_t *in;
    size_t in_length;
};

/* The words of the program `answers`. */
extern const char *const operation_words[OPERATIONS];

struct scallopgrid_answer ask_library(const struct request *request, uint8_t *out, size_t room);

int same_numbers(struct scallopgrid_answer a, struct scallopgrid_answer b);

/* Prints the line that `answers` takes, and the line that it prints. */
void print_request(const struct request *request, size_t room);
void print_answer(struct scallopgrid_answer answer, const uint8_t *out);

#endif

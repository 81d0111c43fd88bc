/* What is timed: lists of requests. */
#ifndef BENCH_LOADS_H
#define BENCH_LOADS_H

#include "../c/vectors.h"

enum { MOST_REQUESTS = 4096, MOST_LOAD_BYTES = 1 << 16 };

struct load {
    size_t count;
    struct request requests[MOST_REQUESTS];
    size_t used;
    uint8_t bytes[MOST_LOAD_BYTES];
};

/* every card or molfile of the vectors that is refused by nothing but allowance and room, named */
void load_named(struct load *load, const struct vectors *vectors, enum operation operation);
/* cards with many leaves, or with many passes for few leaves */
void load_cubane(struct load *load);
void load_perfluorohexane(struct load *load);
void load_chain(struct load *load);
/* a card with few leaves: a chain of carbons with two hydrogens each */
void load_alkane(struct load *load, unsigned carbons);
void load_tree(struct load *load, uint16_t allowance);
/* the deepest tree of markings: nearly every atom has twins */
void load_hubs(struct load *load, uint16_t allowance);
/* texts of about this length */
void load_texts(struct load *load, size_t length);

/* molfiles.c: the load's one card as a molfile with its hydrogens listed, filled up to this length */
enum filled { IN_COMMENT, WITH_PROPERTIES, IN_EACH_LINE };
void turn_into_molfile(struct load *load, size_t length, enum filled filled);
/* 65,536 bytes that list 700 hydrogens on one carbon, which is refused when every bond is judged */
void load_crowded_molfile(struct load *load);

#endif

/* The items of a text, as the reference cuts them. */
#ifndef REFERENCE_ITEMS_H
#define REFERENCE_ITEMS_H

#include <stddef.h>
#include <stdint.h>

enum item_type { ATOM, REFERENCE, RING_BOND };

struct item {
    enum item_type type;
    /* the code that its mark stands for, 1 where it has none */
    int code;
    /* of an atom: HYDROGEN, a kind, or NO_KIND */
    int kind;
    /* of the others: whether the number counts steps up, and the number */
    int steps_up;
    int number;
    size_t length;
};

/* items.c: cuts the item at the front of the text; 0 if none stands there */
int cut_item(const uint8_t *text, size_t left, struct item *item);

#endif

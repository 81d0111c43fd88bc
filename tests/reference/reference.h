/* The five answers of documents 01 and 02 by the reference, in the form of include/scallopgrid.h. */
#ifndef REFERENCE_H
#define REFERENCE_H

#include "../../include/scallopgrid.h"

struct scallopgrid_answer reference_name(const uint8_t *in, size_t in_length, uint16_t allowance, uint8_t *out,
                                         size_t room);
struct scallopgrid_answer reference_card(const uint8_t *in, size_t in_length, uint8_t *out, size_t room);
struct scallopgrid_answer reference_canonical(const uint8_t *in, size_t in_length, uint16_t allowance, uint8_t *out,
                                              size_t room);
struct scallopgrid_answer reference_marks(const uint8_t *in, size_t in_length, uint16_t allowance, uint8_t *out,
                                          size_t room);
struct scallopgrid_answer reference_molfile_name(const uint8_t *in, size_t in_length, uint16_t allowance, uint8_t *out,
                                                 size_t room);

/* The card that a molfile folds to, at most SCALLOPGRID_MOST_CARD bytes; 0 if one of 11 and 1 to 8 refuses the file. */
size_t reference_folded(const uint8_t *in, size_t in_length, uint8_t *card);

#endif

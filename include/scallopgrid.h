/* Scallopgrid for C: names, cards and class marks of molecules, from cards, texts and molfiles.
 *
 * Link with libboundary.a, which `./scallopgrid lib` writes (x86-64 Linux). Of the C library it needs memcpy and memset
 * alone.
 *
 * What a caller keeps:
 * - `in` has `in_length` bytes to read, and `out` has `room` bytes to write. A pointer may be null where its length
 *   is 0.
 * - The two do not overlap, and nobody else writes to either during the call, or reads `out`.
 * - No length is above PTRDIFF_MAX, as no object of C is.
 * - The stack has 64 KiB left.
 *
 * What the library keeps, whatever the bytes are:
 * - It never reads past in_length, never writes to `in`, and never writes past `length` of the answer.
 * - It keeps nothing between calls and allocates nothing: any number of threads may call at once.
 * - It always returns. The work of naming is bounded by the allowance: at most allowance + 1 complete numberings.
 *
 * Accepted (refusal 0): place is 0, length is the number of bytes written to the front of `out`, and the bytes of
 * `out` after them are as before. leaves is the number of complete numberings, 0 where a text was read.
 * Refused: leaves and length are 0, and every byte of `out` is as before. place is 0 except for a text, where it is
 * the offset of the faulty item's first byte, or the length of the text for a fault seen only at its end and for
 * SCALLOPGRID_NO_ROOM; and for SCALLOPGRID_BROKEN_LINE of a molfile, where it is the offset of the line's first byte,
 * or the length of the file for a line that is missing.
 */
#ifndef SCALLOPGRID_H
#define SCALLOPGRID_H

#include <stddef.h>
#include <stdint.h>

#ifdef __cplusplus
extern "C" {
#endif

enum scallopgrid_refusal {
    SCALLOPGRID_ACCEPTED = 0,
    SCALLOPGRID_EMPTY = 1,          /* text of length 0, card with no atoms, or molfile with none but H */
    SCALLOPGRID_BROKEN = 2,         /* card layout or text grammar broken */
    SCALLOPGRID_UNKNOWN_KIND = 3,   /* kind not in the table; H on a card */
    SCALLOPGRID_OVER_LIMIT = 4,     /* a limit passed, length of a text (4,096) or molfile (65,536) among them */
    SCALLOPGRID_NOT_THERE = 5,      /* atom or place not there */
    SCALLOPGRID_BAD_BOND = 6,       /* bond to itself, second bond on a pair, code not 1 to 4 */
    SCALLOPGRID_H_RULE = 7,         /* H rule broken */
    SCALLOPGRID_NOT_CONNECTED = 8,  /* card or molfile not connected */
    SCALLOPGRID_OVER_ALLOWANCE = 9, /* leaf count above the allowance */
    SCALLOPGRID_NO_ROOM = 10,       /* room shorter than what must be written */
    SCALLOPGRID_BROKEN_LINE = 11    /* a line of a molfile broken, unsupported or missing */
};

enum {
    SCALLOPGRID_MOST_NAME = 2048, /* room that holds any name */
    SCALLOPGRID_MOST_CARD = 374,  /* room that holds any card written: 64 atoms, 80 bonds */
    SCALLOPGRID_MOST_MARKS = 64   /* room that holds the class marks of any card */
};

struct scallopgrid_answer {
    uint8_t refusal;
    size_t place;
    uint32_t leaves;
    size_t length;
};

/* The functions of the archive. A pointer is never null here: call the inline functions below, which see to that. */
struct scallopgrid_answer scallopgrid_name_of(const uint8_t *in, size_t in_length, uint16_t allowance, uint8_t *out,
                                              size_t room);
struct scallopgrid_answer scallopgrid_card_of(const uint8_t *in, size_t in_length, uint8_t *out, size_t room);
struct scallopgrid_answer scallopgrid_canonical_of(const uint8_t *in, size_t in_length, uint16_t allowance,
                                                   uint8_t *out, size_t room);
struct scallopgrid_answer scallopgrid_marks_of(const uint8_t *in, size_t in_length, uint16_t allowance, uint8_t *out,
                                               size_t room);
struct scallopgrid_answer scallopgrid_name_of_molfile(const uint8_t *in, size_t in_length, uint16_t allowance,
                                                      uint8_t *out, size_t room);

/* The name of a card. */
static inline struct scallopgrid_answer scallopgrid_name(const uint8_t *in, size_t in_length, uint16_t allowance,
                                                         uint8_t *out, size_t room)
{
    uint8_t none = 0;
    return scallopgrid_name_of(in_length ? in : &none, in_length, allowance, room ? out : &none, room);
}

/* The card of a text: atoms in the order written, hydrogens folded, bonds ascending. */
static inline struct scallopgrid_answer scallopgrid_card(const uint8_t *in, size_t in_length, uint8_t *out,
                                                         size_t room)
{
    uint8_t none = 0;
    return scallopgrid_card_of(in_length ? in : &none, in_length, room ? out : &none, room);
}

/* The canonical card of a card: ranks as atom order. */
static inline struct scallopgrid_answer scallopgrid_canonical(const uint8_t *in, size_t in_length, uint16_t allowance,
                                                              uint8_t *out, size_t room)
{
    uint8_t none = 0;
    return scallopgrid_canonical_of(in_length ? in : &none, in_length, allowance, room ? out : &none, room);
}

/* The class marks of a card: one byte for each atom, in the card's order. */
static inline struct scallopgrid_answer scallopgrid_marks(const uint8_t *in, size_t in_length, uint16_t allowance,
                                                          uint8_t *out, size_t room)
{
    uint8_t none = 0;
    return scallopgrid_marks_of(in_length ? in : &none, in_length, allowance, room ? out : &none, room);
}

/* The name of a V2000 molfile: its atoms and bonds, with the hydrogens that it lists folded and none added. place is
 * the byte offset of the line for SCALLOPGRID_BROKEN_LINE, 0 else. */
static inline struct scallopgrid_answer scallopgrid_molfile_name(const uint8_t *in, size_t in_length,
                                                                 uint16_t allowance, uint8_t *out, size_t room)
{
    uint8_t none = 0;
    return scallopgrid_name_of_molfile(in_length ? in : &none, in_length, allowance, room ? out : &none, room);
}

#ifdef __cplusplus
}
#endif

#endif

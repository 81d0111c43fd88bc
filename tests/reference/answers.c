/* 01, "Numbers of refusal", and 02, §1: the five answers, in the order of refusals. */
#include "../c/libc.h"
#include "molecule.h"
#include "reference.h"

static struct scallopgrid_answer refuse(int refusal, size_t place)
{
    return (struct scallopgrid_answer){.refusal = (uint8_t)refusal, .place = place};
}

/* 10 is the last thing judged: nothing is written before. */
static struct scallopgrid_answer hand_over(const uint8_t *bytes, size_t length, uint32_t leaves, size_t place,
                                           uint8_t *out, size_t room)
{
    if (room < length)
        return refuse(NO_ROOM, place);
    memcpy(out, bytes, length);
    return (struct scallopgrid_answer){.leaves = leaves, .length = length};
}

static int read_and_number(const uint8_t *card, size_t length, uint16_t allowance, struct molecule *m,
                           struct numbering *numbering)
{
    int refusal = read_card(card, length, m);
    return refusal != ACCEPTED ? refusal : number_molecule(m, allowance, numbering);
}

/* The name of a molecule that was read without a refusal. */
static struct scallopgrid_answer name_molecule(const struct molecule *m, uint16_t allowance, uint8_t *out, size_t room)
{
    struct molecule canonical;
    struct numbering numbering;
    uint8_t name[MOST_NAME];
    int refusal = number_molecule(m, allowance, &numbering);
    if (refusal != ACCEPTED)
        return refuse(refusal, 0);
    renumber_molecule(m, numbering.rank, &canonical);
    return hand_over(name, write_name(&canonical, name), numbering.leaves, 0, out, room);
}

struct scallopgrid_answer reference_name(const uint8_t *in, size_t in_length, uint16_t allowance, uint8_t *out,
                                         size_t room)
{
    struct molecule m;
    int refusal = read_card(in, in_length, &m);
    return refusal != ACCEPTED ? refuse(refusal, 0) : name_molecule(&m, allowance, out, room);
}

struct scallopgrid_answer reference_molfile_name(const uint8_t *in, size_t in_length, uint16_t allowance, uint8_t *out,
                                                 size_t room)
{
    struct molecule m;
    size_t place;
    int refusal = read_molfile(in, in_length, &m, &place);
    return refusal != ACCEPTED ? refuse(refusal, place) : name_molecule(&m, allowance, out, room);
}

size_t reference_folded(const uint8_t *in, size_t in_length, uint8_t *card)
{
    struct molecule m;
    size_t place;
    return read_molfile(in, in_length, &m, &place) == ACCEPTED ? write_card(&m, card) : 0;
}

struct scallopgrid_answer reference_canonical(const uint8_t *in, size_t in_length, uint16_t allowance, uint8_t *out,
                                              size_t room)
{
    struct molecule m, canonical;
    struct numbering numbering;
    uint8_t card[MOST_CARD];
    int refusal = read_and_number(in, in_length, allowance, &m, &numbering);
    if (refusal != ACCEPTED)
        return refuse(refusal, 0);
    renumber_molecule(&m, numbering.rank, &canonical);
    return hand_over(card, write_card(&canonical, card), numbering.leaves, 0, out, room);
}

struct scallopgrid_answer reference_marks(const uint8_t *in, size_t in_length, uint16_t allowance, uint8_t *out,
                                          size_t room)
{
    struct molecule m;
    struct numbering numbering;
    uint8_t marks[MOST_ATOMS];
    int refusal = read_and_number(in, in_length, allowance, &m, &numbering);
    if (refusal != ACCEPTED)
        return refuse(refusal, 0);
    for (int a = 0; a < m.atoms; a++)
        marks[a] = (uint8_t)numbering.class_mark[a];
    return hand_over(marks, (size_t)m.atoms, numbering.leaves, 0, out, room);
}

struct scallopgrid_answer reference_card(const uint8_t *in, size_t in_length, uint8_t *out, size_t room)
{
    struct molecule m;
    uint8_t card[MOST_CARD];
    size_t place;
    int refusal = read_text(in, in_length, &m, &place);
    if (refusal != ACCEPTED)
        return refuse(refusal, place);
    return hand_over(card, write_card(&m, card), 0, in_length, out, room);
}

/* 02, §1: the lines of a molfile, each judged in the form that is due at its place. */
#include "listing.h"

#include "molecule.h"

struct lines {
    const uint8_t *file;
    size_t length;
    /* the line in hand: its offset, and its columns without what ends it */
    size_t place;
    const uint8_t *at;
    size_t columns;
    /* the offset after it */
    size_t next;
};

/* A line ends with LF, and one CR directly before it belongs to the end; the last line needs neither. A line that is
 * missing has the file's length as its offset. */
static int take_line(struct lines *f)
{
    size_t end = f->place = f->next;
    if (end == f->length)
        return 0;
    while (end < f->length && f->file[end] != '\n')
        end++;
    int has_end = end < f->length;
    f->next = end + (size_t)has_end;
    f->at = f->file + f->place;
    f->columns = end - f->place;
    if (has_end && f->columns > 0 && f->at[f->columns - 1] == '\r')
        f->columns--;
    return 1;
}

/* Columns count from 1, and a field that is cut off is blank. */
static uint8_t column(const struct lines *f, size_t c)
{
    return c <= f->columns ? f->at[c - 1] : ' ';
}

/* The first column of from .. to that is not blank, to + 1 if all are. */
static size_t past_blanks(const struct lines *f, size_t from, size_t to)
{
    while (from <= to && column(f, from) == ' ')
        from++;
    return from;
}

static int is_sign(uint8_t byte)
{
    return byte == '+' || byte == '-';
}

static int is_digit(uint8_t byte)
{
    return byte >= '0' && byte <= '9';
}

/* Blanks, digits, blanks, and only blanks for 0; whether the columns from .. to have that form. */
static int take_number(const struct lines *f, size_t from, size_t to, int *number)
{
    *number = 0;
    from = past_blanks(f, from, to);
    if (from > to)
        return 1;
    size_t first = from;
    for (; from <= to && is_digit(column(f, from)); from++)
        *number = *number * 10 + (column(f, from) - '0');
    return from > first && past_blanks(f, from, to) > to;
}

/* A number that may have a sign directly before its digits, and is 0. */
static int is_zero(const struct lines *f, size_t from, size_t to)
{
    int number;
    size_t first = past_blanks(f, from, to);
    if (first <= to && is_sign(column(f, first))) {
        if (first == to || !is_digit(column(f, first + 1)))
            return 0;
        from = first + 1;
    }
    return take_number(f, from, to, &number) && number == 0;
}

/* Whether the columns from .. to, without the blanks around, are this word. */
static int is_word(const struct lines *f, size_t from, size_t to, const char *word)
{
    from = past_blanks(f, from, to);
    for (; *word != 0; word++, from++)
        if (from > to || column(f, from) != (uint8_t)*word)
            return 0;
    return past_blanks(f, from, to) > to;
}

/* Columns 1-3 atoms, 4-6 bonds, 34-39 the version. */
static int read_counts(const struct lines *f, struct listing *l)
{
    return take_number(f, 1, 3, &l->atoms) && take_number(f, 4, 6, &l->bonds) && is_word(f, 34, 39, "V2000");
}

/* Columns 32-34 the symbol, which is not blank; 35-36 the mass difference and 37-39 the charge, both 0. */
static int read_atom(const struct lines *f, int *kind)
{
    int charge;
    *kind = NO_KIND;
    for (int k = HYDROGEN; k <= KINDS; k++)
        if (is_word(f, 32, 34, symbol_of_kind(k)))
            *kind = k;
    return past_blanks(f, 32, 34) <= 34 && is_zero(f, 35, 36) && take_number(f, 37, 39, &charge) && charge == 0;
}

/* Columns 1-3 and 4-6 the atoms, 7-9 the code; all nine are there. */
static int read_bond(const struct lines *f, int bond[3])
{
    return f->columns >= 9 && take_number(f, 1, 3, &bond[0]) && take_number(f, 4, 6, &bond[1]) &&
           take_number(f, 7, 9, &bond[2]);
}

static int begins_with(const struct lines *f, const char *word)
{
    for (size_t c = 1; *word != 0; word++, c++)
        if (c > f->columns || f->at[c - 1] != (uint8_t)*word)
            return 0;
    return 1;
}

static int is_end(const struct lines *f)
{
    return begins_with(f, "M  END") && past_blanks(f, 7, f->columns) > f->columns;
}

/* "A non-zero charge, isotope or radical entry [..] is unsupported": an entry is a blank, an atom in three columns, a
 * blank, a value in three. */
static int is_zero_entry(const struct lines *f, size_t before, int atoms)
{
    int atom;
    return column(f, before + 1) == ' ' && take_number(f, before + 2, before + 4, &atom) && atom >= 1 &&
           atom <= atoms && column(f, before + 5) == ' ' && is_zero(f, before + 6, before + 8);
}

/* Columns 7-9 the number of entries, 1 to 8, then the entries and only blanks. */
static int is_zero_property(const struct lines *f, int atoms)
{
    int entries;
    if (!begins_with(f, "M  CHG") && !begins_with(f, "M  RAD") && !begins_with(f, "M  ISO"))
        return 0;
    if (!take_number(f, 7, 9, &entries) || entries < 1 || entries > 8)
        return 0;
    size_t last = 9 + 8 * (size_t)entries;
    if (f->columns < last)
        return 0;
    for (size_t before = 9; before < last; before += 8)
        if (!is_zero_entry(f, before, atoms))
            return 0;
    return past_blanks(f, last + 1, f->columns) > f->columns;
}

/* "property lines to `M  END`, where reading ends" */
static int read_properties(struct lines *f, int atoms)
{
    while (take_line(f)) {
        if (is_end(f))
            return 1;
        if (!is_zero_property(f, atoms))
            return 0;
    }
    return 0;
}

/* "three header lines, counts line, atom lines, bond lines, property lines" */
static int read_all(struct lines *f, struct listing *l)
{
    for (int header = 0; header < 3; header++)
        if (!take_line(f))
            return 0;
    if (!take_line(f) || !read_counts(f, l))
        return 0;
    for (int a = 0; a < l->atoms; a++)
        if (!take_line(f) || !read_atom(f, &l->kind[a]))
            return 0;
    for (int b = 0; b < l->bonds; b++)
        if (!take_line(f) || !read_bond(f, l->bond[b]))
            return 0;
    return read_properties(f, l->atoms);
}

int read_lines(const uint8_t *file, size_t length, struct listing *l, size_t *place)
{
    struct lines f = {.file = file, .length = length};
    int sound = read_all(&f, l);
    *place = f.place;
    return sound;
}

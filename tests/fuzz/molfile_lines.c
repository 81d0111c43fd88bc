/* Molfiles as several writers lay them out: columns, header lines, endings and what nobody looks at by chance. */
#include "../c/libc.h"
#include "molfile.h"

enum { COLUMNS = 80 };

/* How one file is written throughout. */
struct style {
    /* how lines end: 0 LF, 1 CR and LF, 2 now so, now so */
    unsigned endings;
    /* 0 blanks before a number, 1 blanks behind it, 2 zeros before it */
    unsigned numbers;
    /* what stands in the columns that are skipped: 0 what most writers put there, 1 blanks, 2 anything */
    unsigned skipped;
    /* where atom and bond lines end: 34 and 9 at the least */
    unsigned atom_columns, bond_columns;
};

struct line {
    uint8_t at[COLUMNS];
};

static struct style some_style(struct chance *c)
{
    static const unsigned of_atoms[] = {34, 35, 36, 37, 39, 42, 69, 69, 69, COLUMNS};
    static const unsigned of_bonds[] = {9, 10, 12, 21, 21, COLUMNS};
    return (struct style){
        .endings = once_in(c, 3) ? below(c, 3) : 0,
        .numbers = once_in(c, 3) ? below(c, 3) : 0,
        .skipped = once_in(c, 3) ? below(c, 3) : 0,
        .atom_columns = of_atoms[below(c, 10)],
        .bond_columns = of_bonds[below(c, 6)],
    };
}

/* Any byte but the one that ends a line. */
static uint8_t any_byte(struct chance *c)
{
    static const char likely[] = "0123456789 -.\tMENDV2000CH$\r";
    uint8_t byte = once_in(c, 3) ? (uint8_t)below(c, 256) : (uint8_t)likely[below(c, sizeof likely - 1)];
    return byte == '\n' ? ' ' : byte;
}

/* A line whose columns are skipped so far; usual is what most writers have there. */
static void begin_line(struct chance *c, const struct style *s, struct line *l, const char *usual)
{
    memset(l->at, ' ', COLUMNS);
    if (s->skipped == 0)
        memcpy(l->at, usual, strlen(usual));
    for (unsigned i = 0; i < COLUMNS && s->skipped == 2; i++)
        l->at[i] = any_byte(c);
}

static void put_at(struct line *l, unsigned column, const char *text, unsigned columns)
{
    memset(l->at + column - 1, ' ', columns);
    memcpy(l->at + column - 1, text, strlen(text));
}

static void put_number_at(const struct style *s, struct line *l, unsigned column, unsigned number)
{
    uint8_t *at = l->at + column - 1;
    uint8_t digits[3] = {(uint8_t)('0' + number / 100), (uint8_t)('0' + number / 10 % 10),
                         (uint8_t)('0' + number % 10)};
    unsigned zeros = s->numbers == 2 ? 0 : number < 10 ? 2 : number < 100 ? 1 : 0;
    memset(at, ' ', 3);
    if (s->numbers == 1)
        memcpy(at, digits + zeros, 3 - zeros);
    else
        memcpy(at + zeros, digits + zeros, 3 - zeros);
}

static void put_ending(struct chance *c, const struct style *s, struct bytes *file)
{
    int with_cr = s->endings == 2 ? once_in(c, 2) : s->endings == 1;
    put_text(file, with_cr ? "\r\n" : "\n");
}

static void end_line(struct chance *c, const struct style *s, const struct line *l, unsigned columns,
                     struct bytes *file)
{
    for (unsigned i = 0; i < columns; i++)
        put(file, l->at[i]);
    put_ending(c, s, file);
}

static void write_headers(struct chance *c, const struct style *s, struct bytes *file)
{
    static const char *const usual[] = {"", "ethanol", "  -ISIS-  11152402332D", "M  END", "  Mrv", " "};
    for (int header = 0; header < 3; header++) {
        if (s->skipped == 2)
            for (unsigned n = below(c, 90); n > 0; n--)
                put(file, any_byte(c));
        else
            put_text(file, usual[below(c, 6)]);
        put_ending(c, s, file);
    }
}

static void write_counts(struct chance *c, const struct style *s, const struct molfile *m, struct bytes *file)
{
    struct line l;
    begin_line(c, s, &l, "  0  0  0  0  0  0  0  0  0  0999");
    put_number_at(s, &l, 1, m->atoms);
    put_number_at(s, &l, 4, m->bonds);
    put_at(&l, 34, s->numbers == 1 ? "V2000" : " V2000", 6);
    end_line(c, s, &l, 39 + (s->skipped == 2 ? below(c, 30) : 0), file);
}

static void write_atom(struct chance *c, const struct style *s, const char *symbol, struct bytes *file)
{
    static const char *const zeros[] = {" 0", " 0", " 0", "0 ", "  ", "00", "-0", "+0"};
    struct line l;
    begin_line(c, s, &l, "   -1.2990    0.7500    0.0000 C   0  0  0  0  0  0  0  0  0  0  0  0");
    unsigned letters = (unsigned)strlen(symbol);
    put_at(&l, 32, "", 3);
    put_at(&l, 32 + (s->numbers == 2 ? below(c, 4 - letters) : 0), symbol, letters);
    /* a sign cut off from its digit would break the line */
    put_at(&l, 35, zeros[below(c, s->atom_columns == 35 ? 6 : 8)], 2);
    put_number_at(s, &l, 37, 0);
    end_line(c, s, &l, s->atom_columns, file);
}

static void write_bond(struct chance *c, const struct style *s, const uint16_t bond[3], struct bytes *file)
{
    struct line l;
    begin_line(c, s, &l, "  1  2  1  0  0  0  0");
    for (unsigned i = 0; i < 3; i++)
        put_number_at(s, &l, 1 + 3 * i, bond[i]);
    end_line(c, s, &l, s->bond_columns, file);
}

/* Entries of value 0, up to eight, and at times blanks behind them. */
static void write_property(struct chance *c, const struct style *s, unsigned atoms, struct bytes *file)
{
    static const char *const words[] = {"M  CHG", "M  RAD", "M  ISO"};
    static const char *const zeros[] = {"  0", "  0", "  0", "0  ", "000", " -0", "+00", "   "};
    struct line l;
    unsigned entries = 1 + below(c, 8);
    memset(l.at, ' ', COLUMNS);
    put_at(&l, 1, words[below(c, 3)], 6);
    put_number_at(s, &l, 7, entries);
    for (unsigned i = 0; i < entries; i++) {
        put_number_at(s, &l, 11 + 8 * i, 1 + below(c, atoms));
        put_at(&l, 15 + 8 * i, zeros[below(c, 8)], 3);
    }
    end_line(c, s, &l, 9 + 8 * entries + (once_in(c, 4) ? below(c, 8) : 0), file);
}

/* "`M  END`, where reading ends": after it anything, or not even an end of the line. */
static void write_end(struct chance *c, const struct style *s, struct bytes *file)
{
    put_text(file, "M  END");
    for (unsigned blanks = once_in(c, 6) ? below(c, 5) : 0; blanks > 0; blanks--)
        put(file, ' ');
    if (once_in(c, 6))
        return;
    put_ending(c, s, file);
    if (once_in(c, 6))
        put_text(file, "> <name>\nethanol\n\n$$$$\n");
    if (once_in(c, 6))
        for (unsigned n = below(c, 40); n > 0; n--)
            put(file, (uint8_t)below(c, 256));
}

/* Mostly none, at times so many that the file is long; with 64 atoms and 128 H it stays below 65,536 bytes. */
static unsigned some_properties(struct chance *c)
{
    return once_in(c, 200) ? 100 + below(c, 280) : once_in(c, 3) ? below(c, 4) : 0;
}

void write_molfile(struct chance *c, const struct molfile *m, struct bytes *file)
{
    struct style s = some_style(c);
    file->length = 0;
    write_headers(c, &s, file);
    write_counts(c, &s, m, file);
    for (unsigned a = 0; a < m->atoms; a++)
        write_atom(c, &s, m->symbol[a], file);
    for (unsigned b = 0; b < m->bonds; b++)
        write_bond(c, &s, m->bond[b], file);
    for (unsigned n = m->atoms == 0 ? 0 : some_properties(c); n > 0; n--)
        write_property(c, &s, m->atoms, file);
    write_end(c, &s, file);
}

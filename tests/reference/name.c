/* 01, "Writing the name", over a molecule whose atoms stand in the order of their ranks. */
#include "molecule.h"

enum { NOT_WRITTEN = -1 };

struct writing {
    const struct molecule *m;
    uint8_t *out;
    size_t length;
    int places;
    /* the place at which the next item goes on, and whether the last byte is a digit */
    int cursor;
    int after_digit;
    int place[MOST_ATOMS];
    uint8_t traced[MOST_ATOMS][MOST_ATOMS];
};

static void put_byte(struct writing *w, char byte)
{
    w->out[w->length++] = (uint8_t)byte;
    w->after_digit = byte >= '0' && byte <= '9';
}

static void put_number(struct writing *w, int number)
{
    if (number >= 10)
        put_number(w, number / 10);
    put_byte(w, (char)('0' + number % 10));
}

static void put_mark(struct writing *w, int code)
{
    static const char marks[5] = {0, 0, '=', '*', '<'};
    if (marks[code] != 0)
        put_byte(w, marks[code]);
}

static void put_symbol(struct writing *w, int kind)
{
    const char *symbol = symbol_of_kind(kind);
    int two_letters = symbol[1] != 0;
    if (two_letters)
        put_byte(w, '(');
    put_byte(w, symbol[0]);
    if (two_letters) {
        put_byte(w, symbol[1]);
        put_byte(w, ')');
    }
    w->cursor = w->places++;
}

/* "Whenever the cursor isn't at the atom being served, the atom's place is written first, with + only if a digit
 * stands before it." */
static void serve(struct writing *w, int atom)
{
    if (w->cursor == w->place[atom])
        return;
    if (w->after_digit)
        put_byte(w, '+');
    put_number(w, w->place[atom]);
    w->cursor = w->place[atom];
}

static void trace_bond(struct writing *w, int from, int to)
{
    int code = w->m->code[from][to];
    w->traced[from][to] = w->traced[to][from] = 1;
    serve(w, from);
    put_mark(w, code);
    if (w->place[to] != NOT_WRITTEN) {
        put_byte(w, '/');
        put_number(w, w->place[to]);
        w->cursor = w->place[to];
    }
}

/* "symbol; then its hydrogens, each H an atom; then, by ascending rank, each neighbour whose bond isn't yet traced" */
static void write_atom(struct writing *w, int atom)
{
    put_symbol(w, w->m->kind[atom]);
    w->place[atom] = w->cursor;
    for (int h = 0; h < w->m->hydrogens[atom]; h++) {
        serve(w, atom);
        put_symbol(w, HYDROGEN);
    }
    for (int to = 0; to < w->m->atoms; to++) {
        if (w->m->code[atom][to] == 0 || w->traced[atom][to])
            continue;
        trace_bond(w, atom, to);
        if (w->place[to] == NOT_WRITTEN)
            write_atom(w, to);
    }
}

size_t write_name(const struct molecule *canonical, uint8_t *out)
{
    struct writing w = {.m = canonical, .out = out};
    for (int a = 0; a < canonical->atoms; a++)
        w.place[a] = NOT_WRITTEN;
    write_atom(&w, 0);
    return w.length;
}

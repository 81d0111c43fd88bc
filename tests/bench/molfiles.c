/* Cards of a load as molfiles, laid out as most writers do and filled up to a length. */
#include "../c/libc.h"
#include "../reference/molecule.h"
#include "loads.h"

/* What a file has beyond its molecule: bytes of the comment, property lines, columns more in atom and bond lines. */
struct filling {
    size_t comment, properties, columns;
};

static const char property[] = "M  CHG  8   1   0   1   0   1   0   1   0   1   0   1   0   1   0   1   0\n";

static void put_text(struct load *load, const char *text)
{
    size_t n = strlen(text);
    memcpy(load->bytes + load->used, text, n);
    load->used += n;
}

static void put_times(struct load *load, char byte, size_t times)
{
    memset(load->bytes + load->used, byte, times);
    load->used += times;
}

/* In three columns. */
static void put_number(struct load *load, unsigned number)
{
    char columns[4] = {number < 100 ? ' ' : (char)('0' + number / 100),
                       number < 10 ? ' ' : (char)('0' + number / 10 % 10), (char)('0' + number % 10), 0};
    put_text(load, columns);
}

static void put_atom(struct load *load, const char *symbol, size_t more)
{
    put_text(load, "   -1.2990    0.7500    0.0000 ");
    put_text(load, symbol);
    put_times(load, ' ', 3 - strlen(symbol));
    put_text(load, " 0  0  0  0  0  0  0  0  0  0  0  0");
    put_times(load, '0', more);
    put_text(load, "\n");
}

static void put_bond(struct load *load, unsigned a, unsigned b, unsigned code, size_t more)
{
    put_number(load, a);
    put_number(load, b);
    put_number(load, code);
    put_text(load, "  0  0  0  0");
    put_times(load, '0', more);
    put_text(load, "\n");
}

static void put_molecule(struct load *load, const struct molecule *m, size_t more)
{
    int h = m->atoms;
    for (int a = 0; a < m->atoms; a++)
        put_atom(load, symbol_of_kind(m->kind[a]), more);
    for (int i = 0; i < m->all_hydrogens; i++)
        put_atom(load, "H", more);
    for (int a = 0; a < m->atoms; a++)
        for (int b = a + 1; b < m->atoms; b++)
            if (m->code[a][b] != 0)
                put_bond(load, (unsigned)a + 1, (unsigned)b + 1, m->code[a][b], more);
    for (int a = 0; a < m->atoms; a++)
        for (int i = 0; i < m->hydrogens[a]; i++)
            put_bond(load, (unsigned)a + 1, (unsigned)++h, 1, more);
}

static void write_file(struct load *load, const struct molecule *m, struct filling f)
{
    load->used = 0;
    put_text(load, "a molecule\n  -ISIS-  11152402332D\n");
    put_times(load, 'c', f.comment);
    put_text(load, "\n");
    put_number(load, (unsigned)(m->atoms + m->all_hydrogens));
    put_number(load, (unsigned)(m->bonds + m->all_hydrogens));
    put_text(load, "  0  0  0  0  0  0  0  0999 V2000\n");
    put_molecule(load, m, f.columns);
    for (size_t i = 0; i < f.properties; i++)
        put_text(load, property);
    put_text(load, "M  END\n");
}

/* Written once without filling, to know what is left over. */
static void fill_up(struct load *load, const struct molecule *m, size_t length, enum filled filled)
{
    struct filling f = {0};
    write_file(load, m, f);
    size_t left = load->used < length ? length - load->used : 0;
    size_t lines = (size_t)(m->atoms + m->bonds + 2 * m->all_hydrogens);
    if (filled == WITH_PROPERTIES)
        f.properties = left / strlen(property);
    if (filled == IN_EACH_LINE)
        f.columns = left / lines;
    f.comment = left - f.properties * strlen(property) - f.columns * lines;
    write_file(load, m, f);
}

void turn_into_molfile(struct load *load, size_t length, enum filled filled)
{
    struct molecule m;
    read_card(load->bytes, load->used, &m);
    fill_up(load, &m, length, filled);
    load->requests[0] = (struct request){MOL, load->requests[0].allowance, load->bytes, load->used};
}

void load_crowded_molfile(struct load *load)
{
    struct molecule m;
    clear_molecule(&m);
    m.atoms = 1;
    m.kind[0] = kind_of_symbol('C', 0);
    m.hydrogens[0] = m.all_hydrogens = 700;
    fill_up(load, &m, 65536, IN_COMMENT);
    load->count = 1;
    load->requests[0] = (struct request){MOL, 0, load->bytes, load->used};
}

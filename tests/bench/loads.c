#include "loads.h"

#include "../c/libc.h"

enum { CARBON = 6, FLUORINE = 9, ALLOWANCE = 4096, MOST = 64 };

static int is_sound(struct scallopgrid_answer answer)
{
    return answer.refusal == SCALLOPGRID_ACCEPTED || answer.refusal == SCALLOPGRID_OVER_ALLOWANCE ||
           answer.refusal == SCALLOPGRID_NO_ROOM;
}

void load_named(struct load *load, const struct vectors *vectors, enum operation operation)
{
    load->count = 0;
    for (size_t i = 0; i < vectors->count && load->count < MOST_REQUESTS; i++)
        if (vectors->all[i].request.operation == operation && is_sound(vectors->all[i].answer)) {
            struct request *request = &load->requests[load->count++];
            *request = vectors->all[i].request;
            request->allowance = ALLOWANCE;
        }
}

/* A card under the pen: atoms first, then bonds. */
struct pen {
    unsigned atoms, bonds;
    uint8_t atom[MOST][2];
    uint8_t bond[MOST + 16][3];
};

static unsigned add_atom(struct pen *pen, uint8_t number, uint8_t hydrogens)
{
    pen->atom[pen->atoms][0] = number;
    pen->atom[pen->atoms][1] = hydrogens;
    return pen->atoms++;
}

static void add_bond(struct pen *pen, unsigned a, unsigned b)
{
    uint8_t *bond = pen->bond[pen->bonds++];
    bond[0] = (uint8_t)a;
    bond[1] = (uint8_t)b;
    bond[2] = 1;
}

static void put_bytes(struct load *load, const void *bytes, size_t n)
{
    memcpy(load->bytes + load->used, bytes, n);
    load->used += n;
}

static void put_header(struct load *load, uint8_t tag, unsigned length)
{
    uint8_t header[3] = {tag, (uint8_t)(length >> 8), (uint8_t)length};
    put_bytes(load, header, sizeof header);
}

/* The load that names this one card. */
static void load_card(struct load *load, const struct pen *pen, uint16_t allowance)
{
    load->used = 0;
    put_header(load, 1, 2 * pen->atoms);
    put_bytes(load, pen->atom, 2 * pen->atoms);
    put_header(load, 2, 3 * pen->bonds);
    put_bytes(load, pen->bond, 3 * pen->bonds);
    load->count = 1;
    load->requests[0] = (struct request){NAME, allowance, load->bytes, load->used};
}

void load_cubane(struct load *load)
{
    struct pen pen = {0};
    for (unsigned corner = 0; corner < 8; corner++)
        add_atom(&pen, CARBON, 1);
    for (unsigned corner = 0; corner < 8; corner++)
        for (unsigned way = 1; way < 8; way *= 2)
            if ((corner & way) == 0)
                add_bond(&pen, corner, corner | way);
    load_card(load, &pen, ALLOWANCE);
}

void load_perfluorohexane(struct load *load)
{
    struct pen pen = {0};
    for (unsigned c = 0; c < 6; c++) {
        add_atom(&pen, CARBON, 0);
        if (c > 0)
            add_bond(&pen, c - 1, c);
    }
    for (unsigned c = 0; c < 6; c++)
        for (unsigned f = c == 0 || c == 5 ? 3 : 2; f > 0; f--)
            add_bond(&pen, c, add_atom(&pen, FLUORINE, 0));
    load_card(load, &pen, ALLOWANCE);
}

static void load_carbons(struct load *load, unsigned carbons, uint8_t hydrogens)
{
    struct pen pen = {0};
    for (unsigned c = 0; c < carbons; c++) {
        add_atom(&pen, CARBON, hydrogens);
        if (c > 0)
            add_bond(&pen, c - 1, c);
    }
    load_card(load, &pen, ALLOWANCE);
}

void load_chain(struct load *load)
{
    load_carbons(load, 64, 0);
}

void load_alkane(struct load *load, unsigned carbons)
{
    load_carbons(load, carbons, 2);
}

/* A binary tree of 63 atoms: more leaves than any allowance. */
void load_tree(struct load *load, uint16_t allowance)
{
    struct pen pen = {0};
    for (unsigned c = 0; c < 63; c++) {
        add_atom(&pen, CARBON, 0);
        if (c > 0)
            add_bond(&pen, (c - 1) / 2, c);
    }
    load_card(load, &pen, allowance);
}

/* A chain of 12 atoms with six bonds each, all but those of the chain to fluorines. */
void load_hubs(struct load *load, uint16_t allowance)
{
    struct pen pen = {0};
    for (unsigned hub = 0; hub < 12; hub++) {
        add_atom(&pen, CARBON, 0);
        if (hub > 0)
            add_bond(&pen, hub - 1, hub);
    }
    for (unsigned hub = 0; hub < 12; hub++)
        for (unsigned f = hub == 0 || hub == 11 ? 5 : 4; f > 0; f--)
            add_bond(&pen, hub, add_atom(&pen, FLUORINE, 0));
    load_card(load, &pen, allowance);
}

/* Atoms and hydrogens as far as the limits go, then references, with places and with steps up in turn. */
void load_texts(struct load *load, size_t length)
{
    load->used = 0;
    for (unsigned c = 0; c < 40; c++)
        put_bytes(load, "CH-1H-1", 7);
    while (load->used + 7 <= length)
        put_bytes(load, "+117-38", 7);
    load->count = 1;
    load->requests[0] = (struct request){READ, 0, load->bytes, load->used};
}

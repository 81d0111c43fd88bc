/* 01, "The text" and "Order for text": items judged one by one into a molecule with its hydrogens folded. */
#include "items.h"
#include "molecule.h"

/* Every atom of a text has a place, hydrogens too; a text has at most one H more than a molecule holds. */
enum { MOST_PLACES = MOST_ATOMS + MOST_HYDROGENS + 1, NOWHERE = -1 };

struct reading {
    struct molecule *m;
    int places;
    int cursor;
    /* the atom of the molecule at a place, NOWHERE for an H */
    int atom[MOST_PLACES];
    /* the place to which it was attached when it was written */
    int attached_to[MOST_PLACES];
    /* whether an H has its one bond */
    int bonded[MOST_PLACES];
};

static int is_h(const struct reading *r, int place)
{
    return r->atom[place] == NOWHERE;
}

static int fold_h(struct reading *r, int place)
{
    int atom = r->atom[place];
    if (r->m->hydrogens[atom] == MOST_HYDROGENS_ON_ATOM || r->m->all_hydrogens == MOST_HYDROGENS)
        return OVER_LIMIT;
    r->m->hydrogens[atom]++;
    r->m->all_hydrogens++;
    return ACCEPTED;
}

static void put_place(struct reading *r, int atom)
{
    r->atom[r->places] = atom;
    r->attached_to[r->places] = r->cursor;
    r->bonded[r->places] = atom == NOWHERE && r->cursor != NOWHERE;
    r->cursor = r->places++;
}

static int put_h(struct reading *r, int code)
{
    int refusal = ACCEPTED;
    if (r->cursor != NOWHERE) {
        if (is_h(r, r->cursor) || code != 1)
            return H_RULE;
        refusal = fold_h(r, r->cursor);
    }
    if (refusal == ACCEPTED)
        put_place(r, NOWHERE);
    return refusal;
}

static int put_heavy(struct reading *r, int kind, int code)
{
    struct molecule *m = r->m;
    int from = r->cursor;
    int to_h = from != NOWHERE && is_h(r, from);
    if (to_h && (r->bonded[from] || code != 1))
        return H_RULE;
    if (m->atoms == MOST_ATOMS)
        return OVER_LIMIT;
    m->kind[m->atoms++] = kind;
    put_place(r, m->atoms - 1);
    if (to_h) {
        r->bonded[from] = 1;
        return fold_h(r, r->cursor);
    }
    return from == NOWHERE ? ACCEPTED : add_bond(m, r->atom[from], m->atoms - 1, code);
}

/* The place that an item names, NOWHERE if there is none. */
static int place_named(const struct reading *r, const struct item *item)
{
    if (!item->steps_up)
        return item->number < r->places ? item->number : NOWHERE;
    int place = r->cursor;
    for (int step = 0; step < item->number && place != NOWHERE; step++)
        place = r->attached_to[place];
    return place;
}

static int go_to_place(struct reading *r, const struct item *item)
{
    int to = place_named(r, item);
    if (to == NOWHERE)
        return NOT_THERE;
    int refusal = ACCEPTED;
    if (item->type == RING_BOND) {
        if (is_h(r, r->cursor) || is_h(r, to))
            return H_RULE;
        refusal = add_bond(r->m, r->atom[r->cursor], r->atom[to], item->code);
    }
    r->cursor = to;
    return refusal;
}

/* "the first faulty item, by 2, 3, 5, 7, 6, 4"; the form of the item is sound. */
static int judge_item(struct reading *r, const struct item *item)
{
    if (r->places == 0 && (item->type != ATOM || item->code != 1))
        return BROKEN;
    if (item->type != ATOM)
        return go_to_place(r, item);
    if (item->kind == NO_KIND)
        return UNKNOWN_KIND;
    return item->kind == HYDROGEN ? put_h(r, item->code) : put_heavy(r, item->kind, item->code);
}

int read_text(const uint8_t *text, size_t length, struct molecule *m, size_t *place)
{
    struct reading r = {.m = m, .cursor = NOWHERE};
    struct item item;
    clear_molecule(m);
    *place = 0;
    if (length == 0)
        return NOTHING_THERE;
    if (length > MOST_TEXT)
        return OVER_LIMIT;
    while (*place < length) {
        if (!cut_item(text + *place, length - *place, &item))
            return BROKEN;
        int refusal = judge_item(&r, &item);
        if (refusal != ACCEPTED)
            return refusal;
        *place += item.length;
    }
    /* only a first H can be without a bond, and only where nothing else was written */
    return m->atoms == 0 ? H_RULE : ACCEPTED;
}

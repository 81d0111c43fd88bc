/* Texts by the grammar of document 01, most items sound, a few not. */
#include "../c/libc.h"
#include "bytes.h"

static void put_number(struct bytes *b, unsigned n)
{
    if (n >= 10)
        put_number(b, n / 10);
    put(b, (uint8_t)('0' + n % 10));
}

static void put_mark(struct chance *c, struct bytes *b)
{
    if (once_in(c, 4))
        put(b, (uint8_t)"=*<"[below(c, 3)]);
}

static void put_atom(struct chance *c, struct bytes *b)
{
    static const char *const symbols[] = {"N", "O", "S", "P", "F", "I", "B", "K", "(Cl)", "(Br)", "(Si)", "(Mg)", "(Na)"};
    static const char *const strange[] = {"X", "(Xx)", "(C)", "Cl", "(CL)", "Q", "(He)", "(cl)", "J"};
    if (once_in(c, 60))
        put_text(b, strange[below(c, 9)]);
    else
        put_text(b, once_in(c, 3) ? symbols[below(c, 13)] : "C");
}

/* The number of an atom that is mostly there, or of steps up. */
static void put_target(struct chance *c, struct bytes *b, unsigned places)
{
    if (once_in(c, 3)) {
        put(b, '-');
        put_number(b, 1 + below(c, once_in(c, 8) ? places + 1 : 2));
    } else {
        put_number(b, once_in(c, 40) ? below(c, 1200) : below(c, places + 1 - !once_in(c, 20)));
    }
}

static void put_reference(struct chance *c, struct bytes *b, unsigned places)
{
    uint8_t last = b->at[b->length - 1];
    if (once_in(c, 3) || (last >= '0' && last <= '9' && !once_in(c, 20))) {
        put(b, '+');
        put_number(b, below(c, places));
    } else {
        put_target(c, b, places);
    }
}

/* H mostly with steps back to its atom, as writers of texts do. */
static void put_hydrogen(struct chance *c, struct bytes *b)
{
    put_text(b, once_in(c, 40) ? "=H" : "H");
    if (!once_in(c, 5))
        put_text(b, "-1");
}

void random_text(struct chance *c, struct bytes *text)
{
    unsigned places = 1;
    unsigned hydrogens = 1 + below(c, 6);
    text->length = 0;
    if (once_in(c, 10))
        put(text, 'H');
    else
        put_atom(c, text);
    for (unsigned items = below(c, once_in(c, 8) ? 220 : 14); items > 0; items--) {
        switch (below(c, 6 + hydrogens)) {
        case 0:
            put_mark(c, text);
            put(text, '/');
            put_target(c, text, places);
            break;
        case 1: put_reference(c, text, places); break;
        case 2:
        case 3:
        case 4:
        case 5:
            put_mark(c, text);
            put_atom(c, text);
            places++;
            break;
        default:
            put_hydrogen(c, text);
            places++;
        }
    }
}

/* 32 carbons of a chain take 128 hydrogens; the n after them one more each. */
static void many_hydrogens(struct bytes *text, unsigned carbons, unsigned more)
{
    for (unsigned i = 0; i < carbons; i++)
        put_text(text, "CH-1H-1H-1H-1");
    for (unsigned i = 0; i < more; i++)
        put_text(text, "CH-1");
}

static void many_on_one(struct bytes *text, unsigned atoms, const char *what)
{
    put(text, 'C');
    for (unsigned i = 0; i < atoms; i++) {
        put_text(text, what);
        put_text(text, "0");
    }
}

/* A chain of 64, and ring bonds between atoms 20 apart; with 17 of them it has 80 bonds. */
static void many_bonds(struct bytes *text, unsigned rings)
{
    for (unsigned i = 0; i < 64; i++)
        put(text, 'C');
    for (unsigned i = 0; i < rings; i++) {
        put(text, '+');
        put_number(text, 2 * i);
        put(text, '/');
        put_number(text, 2 * i + 20);
    }
}

/* About 4,096 bytes, nearly all of them references. */
static void long_text(struct chance *c, struct bytes *text)
{
    static const char *const references[] = {"+0", "+1", "+2-1", "+2-2", "+1-1"};
    size_t wanted = 4090 + below(c, 9);
    put_text(text, once_in(c, 2) ? "CCC" : "CCHH-1");
    while (text->length < wanted)
        put_text(text, references[below(c, 5)]);
}

void limit_text(struct chance *c, struct bytes *text)
{
    static const char *const hung[] = {"C", "H", "=O"};
    text->length = 0;
    switch (below(c, 5)) {
    case 0:
        for (unsigned n = 63 + below(c, 3); n > 0; n--)
            put(text, 'C');
        break;
    case 1: many_hydrogens(text, 31 + below(c, 2), below(c, 6)); break;
    case 2: many_on_one(text, 3 + below(c, 6), hung[below(c, 3)]); break;
    case 3: many_bonds(text, 16 + below(c, 3)); break;
    default: long_text(c, text); break;
    }
    if (once_in(c, 4))
        damage(c, text);
}

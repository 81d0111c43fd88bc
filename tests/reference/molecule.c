/* Making a molecule bond by bond, and whether it is connected. */
#include "molecule.h"

#include "../c/libc.h"

void clear_molecule(struct molecule *m)
{
    memset(m, 0, sizeof *m);
}

/* 01, "Order for a card": "bonds in order (5, 6, 4)"; 5 is the caller's, who knows how atoms are named.
 * The bond is added if none of 6 and 4 refuses it. */
int add_bond(struct molecule *m, int a, int b, int code)
{
    if (a == b || m->code[a][b] != 0 || code < 1 || code > 4)
        return BAD_BOND;
    if (m->bonds == MOST_BONDS || m->degree[a] == MOST_BONDS_ON_ATOM || m->degree[b] == MOST_BONDS_ON_ATOM)
        return OVER_LIMIT;
    m->code[a][b] = m->code[b][a] = (uint8_t)code;
    m->neighbour[a][m->degree[a]++] = b;
    m->neighbour[b][m->degree[b]++] = a;
    m->bonds++;
    return ACCEPTED;
}

int is_connected(const struct molecule *m)
{
    int reached[MOST_ATOMS] = {0};
    int waiting[MOST_ATOMS];
    int found = 1;
    waiting[0] = 0;
    reached[0] = 1;
    for (int next = 0; next < found; next++) {
        int atom = waiting[next];
        for (int i = 0; i < m->degree[atom]; i++) {
            int other = m->neighbour[atom][i];
            if (!reached[other]) {
                reached[other] = 1;
                waiting[found++] = other;
            }
        }
    }
    return found == m->atoms;
}

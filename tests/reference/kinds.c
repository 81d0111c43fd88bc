/* 01, "Kinds": 24 kinds in this order, with their atomic numbers. */
#include "molecule.h"

static const struct {
    char symbol[3];
    int number;
} kinds[KINDS + 1] = {
    {"H", 1},   {"C", 6},   {"Si", 14}, {"Ge", 32}, {"Sn", 50}, {"Pb", 82}, {"N", 7},   {"P", 15},  {"As", 33},
    {"Sb", 51}, {"Bi", 83}, {"O", 8},   {"S", 16},  {"Se", 34}, {"Te", 52}, {"F", 9},   {"Cl", 17}, {"Br", 35},
    {"I", 53},  {"B", 5},   {"Al", 13}, {"Li", 3},  {"Na", 11}, {"K", 19},  {"Mg", 12},
};

/* "H (1) occurs only in text": on a card it is no kind. */
int kind_of_number(int atomic_number)
{
    for (int kind = 1; kind <= KINDS; kind++)
        if (kinds[kind].number == atomic_number)
            return kind;
    return NO_KIND;
}

/* small is 0 for a symbol of one letter */
int kind_of_symbol(char capital, char small)
{
    for (int kind = HYDROGEN; kind <= KINDS; kind++)
        if (kinds[kind].symbol[0] == capital && kinds[kind].symbol[1] == small)
            return kind;
    return NO_KIND;
}

int number_of_kind(int kind)
{
    return kinds[kind].number;
}

const char *symbol_of_kind(int kind)
{
    return kinds[kind].symbol;
}

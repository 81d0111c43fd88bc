/* 01, "The text": the items, each by its form alone. */
#include "items.h"

#include "molecule.h"

static int is_capital(uint8_t byte)
{
    return byte >= 'A' && byte <= 'Z';
}

static int is_small(uint8_t byte)
{
    return byte >= 'a' && byte <= 'z';
}

static int is_digit(uint8_t byte)
{
    return byte >= '0' && byte <= '9';
}

/* The code of a mark, 0 for any other byte. */
static int code_of_mark(uint8_t byte)
{
    switch (byte) {
    case '=': return 2;
    case '*': return 3;
    case '<': return 4;
    default: return 0;
    }
}

/* Each cut_ function returns the number of bytes that it took, 0 if the form is broken. */

/* "the longest run of digits: 1 to 3 digits, no leading zero except 0 itself" */
static size_t cut_number(const uint8_t *text, size_t left, int *number)
{
    size_t digits = 0;
    *number = 0;
    while (digits < left && is_digit(text[digits])) {
        if (digits < 3)
            *number = *number * 10 + (text[digits] - '0');
        digits++;
    }
    if (digits > 3 || (digits > 1 && text[0] == '0'))
        return 0;
    return digits;
}

/* A number, or "- and a number", which is "not 0 after -". */
static size_t cut_target(const uint8_t *text, size_t left, struct item *item)
{
    item->steps_up = left > 0 && text[0] == '-';
    if (!item->steps_up)
        return cut_number(text, left, &item->number);
    size_t digits = cut_number(text + 1, left - 1, &item->number);
    return digits == 0 || item->number == 0 ? 0 : 1 + digits;
}

/* "a capital letter [..]; or a two-letter symbol in parentheses, capital then small" */
static size_t cut_symbol(const uint8_t *text, size_t left, struct item *item)
{
    if (is_capital(text[0])) {
        item->kind = kind_of_symbol((char)text[0], 0);
        return left > 1 && is_small(text[1]) ? 0 : 1;
    }
    if (left < 4 || !is_capital(text[1]) || !is_small(text[2]) || text[3] != ')')
        return 0;
    item->kind = kind_of_symbol((char)text[1], (char)text[2]);
    return 4;
}

static size_t cut_reference(const uint8_t *text, size_t left, struct item *item)
{
    if (text[0] != '+')
        return cut_target(text, left, item);
    item->steps_up = 0;
    size_t digits = cut_number(text + 1, left - 1, &item->number);
    return digits == 0 ? 0 : 1 + digits;
}

int cut_item(const uint8_t *text, size_t left, struct item *item)
{
    int code = code_of_mark(text[0]);
    size_t mark = code != 0;
    item->code = code != 0 ? code : 1;
    text += mark;
    left -= mark;
    if (left == 0)
        return 0;
    size_t body;
    if (is_capital(text[0]) || text[0] == '(') {
        item->type = ATOM;
        body = cut_symbol(text, left, item);
    } else if (text[0] == '/') {
        item->type = RING_BOND;
        body = cut_target(text + 1, left - 1, item);
        body += body != 0;
    } else {
        item->type = REFERENCE;
        body = mark != 0 ? 0 : cut_reference(text, left, item);
    }
    item->length = mark + body;
    return body != 0;
}

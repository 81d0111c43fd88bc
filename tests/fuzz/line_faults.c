/* One fault in the lines of a molfile that was sound before. */
#include "../c/libc.h"
#include "molfile.h"

/* Puts bytes in the place of some; what would pass the most bytes is not done. */
static void splice(struct bytes *b, size_t at, size_t gone, const char *with, size_t n)
{
    if (b->length - gone + n > MOST_BYTES)
        return;
    memmove(b->at + at + n, b->at + at + gone, b->length - at - gone);
    memcpy(b->at + at, with, n);
    b->length += n - gone;
}

/* The offset behind the line's last column, before what ends it. */
static size_t columns_end(const struct bytes *b, size_t line)
{
    size_t end = line;
    while (end < b->length && b->at[end] != '\n')
        end++;
    return end < b->length && end > line && b->at[end - 1] == '\r' ? end - 1 : end;
}

static size_t next_line(const struct bytes *b, size_t line)
{
    while (line < b->length && b->at[line] != '\n')
        line++;
    return line < b->length ? line + 1 : line;
}

static size_t line_of_number(const struct bytes *b, unsigned number)
{
    size_t line = 0;
    while (number-- > 0)
        line = next_line(b, line);
    return line;
}

/* The number of the last line that is read, or of the last line at all. */
static unsigned last_line(const struct bytes *b)
{
    unsigned number = 0;
    for (size_t line = 0; line < b->length; line = next_line(b, line), number++)
        if (number > 3 && b->length - line >= 6 && memcmp(b->at + line, "M  END", 6) == 0)
            return number;
    return number;
}

/* Any line that is read, the counts line and those about the last more often. */
static size_t some_line(struct chance *c, const struct bytes *b)
{
    unsigned last = last_line(b);
    unsigned back = below(c, 3);
    switch (below(c, 4)) {
    case 0: return line_of_number(b, 3);
    case 1: return line_of_number(b, back < last ? last - back : 0);
    default: return line_of_number(b, below(c, last + 1));
    }
}

/* Another text in some columns; a line that is too short gets blanks before it. */
static void put_columns(struct bytes *b, size_t line, unsigned column, const char *text, size_t n)
{
    while (columns_end(b, line) < line + column - 1 + n && b->length < MOST_BYTES)
        splice(b, columns_end(b, line), 0, " ", 1);
    if (line + column - 1 + n <= b->length)
        memcpy(b->at + line + column - 1, text, n);
}

static void spoil_field(struct chance *c, struct bytes *b)
{
    static const char *const fields[] = {"   ", "  0", "  1", "1  ", " 1 ", "1 1", " -1", " +0", " -0", "- 0", "0-0",
                                         "  +", "\t 1", "1.0", "abc", "999", "00 ", "  x", "\r  ", "  2", "  4", "0x1",
                                         "  9", " 13", "C  ", "Cl ", " H ", "065", "081", "129", "  8", "  5"};
    static const uint8_t columns[] = {1, 4, 7, 10, 11, 14, 15, 18, 19, 22, 32, 35, 36, 37, 40};
    unsigned n = once_in(c, 3) ? 1 + below(c, 3) : 3;
    put_columns(b, some_line(c, b), columns[below(c, 15)], fields[below(c, 32)] + 3 - n, n);
}

static void spoil_byte_of_field(struct chance *c, struct bytes *b)
{
    static const char bytes[] = " 0019-+\t\rCHM\xff";
    static const uint8_t from[] = {1, 31, 34, 10};
    /* the 0 after the letters counts as one of the bytes */
    char byte = bytes[below(c, sizeof bytes)];
    put_columns(b, some_line(c, b), from[below(c, 4)] + below(c, 9), &byte, 1);
}

/* Three bytes where a symbol stands. */
static void spoil_symbol(struct chance *c, struct bytes *b)
{
    static const char symbols[][4] = {"C\0 ", "C\0\0", "\0C ", "Cl\0", "H\0 ", "C\t ", "C\r ", "cl ",
                                      "CL ",  " C ",   "  C",  " Cl",  "C l",  "   ",  " H ",  "D  "};
    put_columns(b, some_line(c, b), 32, symbols[below(c, 16)], 3);
}

static void spoil_counts(struct chance *c, struct bytes *b)
{
    static const char *const versions[] = {" V2000", "V2000 ", " V3000", " v2000", "V 2000",
                                           "XV2000", "V2000X", "      ", "V20000", "\tV2000"};
    size_t line = line_of_number(b, 3);
    unsigned column = once_in(c, 2) ? 1 : 4;
    if (once_in(c, 3)) {
        put_columns(b, line, 34, versions[below(c, 10)], 6);
    } else {
        /* one more or one less, where the last digit allows */
        size_t digit = line + column + 1;
        if (digit < b->length)
            b->at[digit] = (uint8_t)(b->at[digit] + (once_in(c, 2) ? 1 : -1));
    }
}

static void add_line(struct chance *c, struct bytes *b)
{
    static const char *const lines[] = {
        "\n", " \n", "\r\n", "\r", "M  END\n", "M  END  \n", "M  ENDX\n", "M  END\r", "M  EN\n", "m  end\n", "M END\n",
        " M  END\n", "M  END\t\n", "$$$$\n", "A    1\n", "V    1 x\n", "G    1  2\n", "S  SKP  1\n",
        "M  STY  1   1 SUP\n", "M  ALS   1  2 F C   N   \n", "M  CHG  0\n", "M  CHG\n", "M  CHG  1   1   0\n",
        "M  CHG  1   1   1\n", "M  CHG  1   1  -1\n", "M  RAD  1   1   2\n", "M  ISO  1   1  13\n",
        "M  ISO  1   1   0\n", "M  CHG  2   1   0\n", "M  CHG  1   0   0\n", "M  CHG  1 999   0\n",
        "M  CHG  1   1  -0\n", "M  CHG  1   1 +0 \n", "M  CHG  1   1 + 0\n", "M  CHG  1   1    0\n",
        "M  CHG  1   1   0 x\n", "M  CHG  1   1   0   \n", "M  CHG  1  1   0 \n", "M  CHG  1x  1   0\n",
        "M  CHG  1   1x  0\n", "M  CHG  1   1\n", "M  CHG  1   1   \n", "M  CHG  1   1  \n", "M  CHG001 001 000\n",
        "M  CHG1   1   0  \n", "M  CHG  1  +1   0\n", "M  CHG -1   1   0\n", "M  CHG  1       0\n",
        "M  CHG  9   1   0   1   0   1   0   1   0   1   0   1   0   1   0   1   0   1   0\n",
        "M  ISO  8   1   0   1   0   1   0   1   0   1   0   1   0   1   0   1   0\n",
        "M  RAD  2   1   0   1   3\n", "M  CHG  1   1   0\r\n", "M  CHG  1   1   0\r\r\n", "  1  2  1\n",
        "    0.0000    0.0000    0.0000 H   0  0\n"};
    const char *line = lines[below(c, sizeof lines / sizeof *lines)];
    splice(b, some_line(c, b), 0, line, strlen(line));
}

/* Left out, cut short, doubled, or the file cut off behind it. */
static void spoil_line(struct chance *c, struct bytes *b)
{
    static const uint8_t ends[] = {0, 3, 6, 8, 9, 16, 17, 31, 32, 34, 35, 36, 38, 39};
    size_t line = some_line(c, b), next = next_line(b, line), end = columns_end(b, line);
    size_t cut = line + ends[below(c, 14)];
    char copy[256];
    switch (below(c, 4)) {
    case 0: splice(b, line, next - line, "", 0); break;
    case 1:
        if (cut < end)
            splice(b, cut, end - cut, "", 0);
        break;
    case 2:
        if (next - line <= sizeof copy) {
            memcpy(copy, b->at + line, next - line);
            splice(b, next, 0, copy, next - line);
        }
        break;
    default: b->length = once_in(c, 2) ? end : next; break;
    }
}

/* An end of a line changed: what was two lines is one, what was one is two, or a CR stands for itself. */
static void spoil_ending(struct chance *c, struct bytes *b)
{
    static const char *const ends[] = {"", "\r", "\n", "\r\n", "\r\r\n", "\n\r", "\n\n", " \n", "\r \n"};
    size_t line = some_line(c, b);
    const char *end = ends[below(c, 9)];
    size_t from = columns_end(b, line);
    splice(b, from, next_line(b, line) - from, end, strlen(end));
    if (once_in(c, 3))
        b->length = from + strlen(end) < b->length ? from + strlen(end) : b->length;
}

void damage_lines(struct chance *c, struct bytes *file)
{
    switch (below(c, 9)) {
    case 0: spoil_counts(c, file); break;
    case 1: spoil_line(c, file); break;
    case 2: spoil_ending(c, file); break;
    case 3: damage(c, file); break;
    case 4: spoil_byte_of_field(c, file); break;
    case 5: spoil_symbol(c, file); break;
    case 6:
    case 7: add_line(c, file); break;
    default: spoil_field(c, file); break;
    }
}

void lengthen(struct chance *c, struct bytes *file)
{
    static char blanks[MOST_BYTES];
    size_t wanted = 65530 + below(c, 12);
    if (file->length >= wanted)
        return;
    memset(blanks, ' ', sizeof blanks);
    size_t at = once_in(c, 4) ? file->length : columns_end(file, some_line(c, file));
    splice(file, at, 0, blanks, wanted - file->length);
}

#include "vectors.h"

#include "libc.h"

enum { MOST_FILE = 1 << 26 };

static _Noreturn void bad(const char *path, const char *why)
{
    printf("%s: %s\n", path, why);
    exit(2);
}

/* The whole file with a 0 after it. */
static char *read_file(const char *path)
{
    char *bytes = malloc(MOST_FILE);
    size_t length = 0;
    int file = open(path, 0);
    if (file < 0 || bytes == NULL)
        bad(path, "cannot be read");
    for (long more; (more = read(file, bytes + length, MOST_FILE - 1 - length)) > 0;)
        length += (size_t)more;
    close(file);
    if (length == MOST_FILE - 1)
        bad(path, "is too long");
    bytes[length] = 0;
    return bytes;
}

static size_t count_lines(const char *text)
{
    size_t lines = 0;
    for (; *text != 0; text++)
        lines += *text == '\n';
    return lines;
}

static size_t take_number(char **at)
{
    size_t number = strtoul(*at, at, 10);
    *at += **at == ' ';
    return number;
}

static unsigned digit_value(char digit)
{
    return (unsigned)(digit <= '9' ? digit - '0' : digit - 'a' + 10);
}

/* Turns the hexadecimal up to the end of the line into bytes where it stands, and goes past the line. */
static uint8_t *take_bytes(char **at, size_t *length)
{
    uint8_t *bytes = (uint8_t *)*at;
    char *from = *at;
    *length = 0;
    if (*from == '-')
        from++;
    for (; *from != '\n' && *from != 0; from += 2)
        bytes[(*length)++] = (uint8_t)(digit_value(from[0]) * 16 + digit_value(from[1]));
    *at = from + (*from == '\n');
    return bytes;
}

static void take_request(char **at, struct vector *v, const char *path)
{
    for (unsigned o = 0; o < OPERATIONS; o++) {
        size_t letters = strlen(operation_words[o]);
        if (strncmp(*at, operation_words[o], letters) == 0 && (*at)[letters] == ' ') {
            v->request.operation = (enum operation)o;
            *at += letters + 1;
            v->request.allowance = (uint16_t)take_number(at);
            v->room = take_number(at);
            v->request.in = take_bytes(at, &v->request.in_length);
            return;
        }
    }
    bad(path, "has a line that is no request");
}

static void take_answer(char **at, struct vector *v, const char *path)
{
    size_t length;
    v->answer.refusal = (uint8_t)take_number(at);
    v->answer.place = take_number(at);
    v->answer.leaves = (uint32_t)take_number(at);
    v->answer.length = take_number(at);
    v->out = take_bytes(at, &length);
    if (length != v->answer.length)
        bad(path, "has a line whose length is not that of its bytes");
}

struct vectors read_vectors(const char *requests_path, const char *answers_path)
{
    char *requests = read_file(requests_path);
    char *answers = read_file(answers_path);
    struct vectors vectors = {.count = count_lines(requests)};
    if (vectors.count == 0 || vectors.count != count_lines(answers))
        bad(answers_path, "has not a line for each request");
    vectors.all = malloc(vectors.count * sizeof *vectors.all);
    for (size_t i = 0; i < vectors.count; i++) {
        take_request(&requests, &vectors.all[i], requests_path);
        take_answer(&answers, &vectors.all[i], answers_path);
    }
    return vectors;
}

#include "lent.h"

#include "libc.h"

enum { PAGE = 4096, PAGES = 1 + MOST_INPUT / PAGE };

struct input make_input(void)
{
    uint8_t *pages = mmap(NULL, (PAGES + 1) * PAGE, MAY_READ | MAY_WRITE, PRIVATE_AND_ANONYMOUS, -1, 0);
    uint8_t *end = pages + PAGES * PAGE;
    if (mprotect(end, PAGE, MAY_NOTHING) != 0) {
        printf("no page could be protected\n");
        exit(2);
    }
    return (struct input){end};
}

const uint8_t *lent_bytes(const struct output *output)
{
    return output->bytes + GUARD;
}

/* No two neighbours are alike and no run repeats within a name's length, so that a moved byte shows too. */
static uint8_t before_call(size_t i)
{
    return (uint8_t)(i * 37 + i / 251 + 11);
}

static int as_before(const struct output *output, size_t from, size_t to)
{
    for (size_t i = from; i < to; i++)
        if (output->bytes[i] != before_call(i))
            return 0;
    return 1;
}

int ask_lent(struct input input, struct output *output, const struct request *request, size_t room,
             struct scallopgrid_answer *answer)
{
    struct request lent = *request;
    size_t whole = GUARD + room + GUARD;
    uint8_t *in = input.end - request->in_length;
    memcpy(in, request->in, request->in_length);
    lent.in = in;
    for (size_t i = 0; i < whole; i++)
        output->bytes[i] = before_call(i);
    *answer = ask_library(&lent, output->bytes + GUARD, room);
    if (answer->length > room || memcmp(in, request->in, request->in_length) != 0)
        return 0;
    return as_before(output, 0, GUARD) && as_before(output, GUARD + answer->length, whole);
}

#include "operations.h"

#include "libc.h"

const char *const operation_words[OPERATIONS] = {"name", "read", "canon", "marks", "mol"};

struct scallopgrid_answer ask_library(const struct request *request, uint8_t *out, size_t room)
{
    switch (request->operation) {
    case NAME: return scallopgrid_name(request->in, request->in_length, request->allowance, out, room);
    case READ: return scallopgrid_card(request->in, request->in_length, out, room);
    case CANON: return scallopgrid_canonical(request->in, request->in_length, request->allowance, out, room);
    case MARKS: return scallopgrid_marks(request->in, request->in_length, request->allowance, out, room);
    default: return scallopgrid_molfile_name(request->in, request->in_length, request->allowance, out, room);
    }
}

int same_numbers(struct scallopgrid_answer a, struct scallopgrid_answer b)
{
    return a.refusal == b.refusal && a.place == b.place && a.leaves == b.leaves && a.length == b.length;
}

static void print_hex(const uint8_t *bytes, size_t n)
{
    if (n == 0)
        printf("-");
    for (size_t i = 0; i < n; i++)
        printf("%02x", bytes[i]);
    printf("\n");
}

void print_request(const struct request *request, size_t room)
{
    printf("%s %u %zu ", operation_words[request->operation], request->allowance, room);
    print_hex(request->in, request->in_length);
}

void print_answer(struct scallopgrid_answer answer, const uint8_t *out)
{
    printf("%u %zu %u %zu ", answer.refusal, answer.place, answer.leaves, answer.length);
    print_hex(out, answer.length);
}

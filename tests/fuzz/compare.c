#include "compare.h"

#include "../c/libc.h"
#include "../reference/reference.h"

enum { GUARD = 16 };

static struct scallopgrid_answer ask_reference(const struct request *request, uint8_t *out, size_t room)
{
    switch (request->operation) {
    case NAME: return reference_name(request->in, request->in_length, request->allowance, out, room);
    case READ: return reference_card(request->in, request->in_length, out, room);
    case CANON: return reference_canonical(request->in, request->in_length, request->allowance, out, room);
    case MARKS: return reference_marks(request->in, request->in_length, request->allowance, out, room);
    default: return reference_molfile_name(request->in, request->in_length, request->allowance, out, room);
    }
}

void compare(struct tally *tally, const struct request *request, size_t room, struct outcome *outcome)
{
    static uint8_t library[LENT + GUARD], reference[LENT + GUARD];
    /* the same in both, so that a byte that only one of them writes shows */
    memset(library, 0xa5, room + GUARD);
    memset(reference, 0xa5, room + GUARD);
    struct scallopgrid_answer got = ask_library(request, library, room);
    struct scallopgrid_answer wanted = ask_reference(request, reference, room);
    if (!same_numbers(got, wanted) || memcmp(library, reference, room + GUARD) != 0) {
        printf("DIFFERENCE after %lu inputs, on the line\n", tally->inputs);
        print_request(request, room);
        printf("library:   ");
        print_answer(got, library);
        printf("reference: ");
        print_answer(wanted, reference);
        exit(1);
    }
    tally->inputs++;
    tally->by_refusal[got.refusal]++;
    outcome->answer = got;
    memcpy(outcome->out, library, room);
}

void must_agree(const struct request *one, const struct outcome *of_one, const struct request *other,
                const struct outcome *of_other, size_t room)
{
    if (same_numbers(of_one->answer, of_other->answer) &&
        memcmp(of_one->out, of_other->out, of_one->answer.length) == 0)
        return;
    printf("DIFFERENCE between two lines that must get the same answer\n");
    print_request(one, room);
    print_request(other, room);
    print_answer(of_one->answer, of_one->out);
    print_answer(of_other->answer, of_other->out);
    exit(1);
}

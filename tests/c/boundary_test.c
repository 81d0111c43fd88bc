/* The C boundary held to the vectors: every number and byte, at every room, with nothing written elsewhere. */
#include "lent.h"
#include "libc.h"
#include "vectors.h"

enum {
    THREADS = 2,
    /* rooms that are tried past the needed length */
    BEYOND = 3,
    /* a call at each room is a numbering at each room: where that is more leaves than this, only the rooms about the
     * two ends are tried */
    MOST_LEAVES_OVER_ALL_ROOMS = 1000
};

static unsigned long calls, failures;

static void fail(const struct request *request, size_t room, const char *why)
{
    failures++;
    printf("FAILED: %s, on the line\n", why);
    print_request(request, room);
}

/* One call whose answer is known; out is what an accepted call writes. */
static void expect(struct input input, const struct request *request, size_t room, struct scallopgrid_answer wanted,
                   const uint8_t *out)
{
    static struct output output;
    struct scallopgrid_answer answer;
    calls++;
    if (!ask_lent(input, &output, request, room, &answer))
        fail(request, room, "a lent byte is not as before");
    else if (!same_numbers(answer, wanted))
        fail(request, room, "other numbers");
    else if (memcmp(lent_bytes(&output), out, wanted.length) != 0)
        fail(request, room, "other bytes");
}

/* 01: 10 where the lent output is shorter than what must be written, with the text's length as place for a text. */
static struct scallopgrid_answer no_room(const struct request *request)
{
    size_t place = request->operation == READ ? request->in_length : 0;
    return (struct scallopgrid_answer){.refusal = SCALLOPGRID_NO_ROOM, .place = place};
}

/* An accepted line at each room from 0 to the needed length and beyond. */
static void every_room(struct input input, const struct vector *v)
{
    size_t needed = v->answer.length;
    int all = needed * v->answer.leaves <= MOST_LEAVES_OVER_ALL_ROOMS;
    for (size_t room = 0; room <= needed + BEYOND; room++) {
        if (!all && room > 1 && room + 1 < needed)
            continue;
        if (room < needed)
            expect(input, &v->request, room, no_room(&v->request), NULL);
        else
            expect(input, &v->request, room, v->answer, v->out);
    }
}

/* A pointer may be null where its length is 0. */
static void null_pointers(void)
{
    static const uint8_t of_nothing[OPERATIONS] = {
        [NAME] = SCALLOPGRID_BROKEN, [READ] = SCALLOPGRID_EMPTY, [CANON] = SCALLOPGRID_BROKEN,
        [MARKS] = SCALLOPGRID_BROKEN, [MOL] = SCALLOPGRID_BROKEN_LINE};
    for (unsigned o = 0; o < OPERATIONS; o++) {
        struct request nothing = {.operation = (enum operation)o, .allowance = 9};
        struct scallopgrid_answer wanted = {.refusal = of_nothing[o]};
        calls++;
        if (!same_numbers(ask_library(&nothing, NULL, 0), wanted))
            fail(&nothing, 0, "other numbers with null pointers");
    }
}

/* What one of several threads does: all vectors once, with buffers of its own. */
static void *all_at_once(void *vectors)
{
    const struct vectors *some = vectors;
    uint8_t *out = malloc(MOST_ROOM);
    size_t differences = 0;
    for (size_t i = 0; i < some->count; i++) {
        const struct vector *v = &some->all[i];
        struct scallopgrid_answer answer = ask_library(&v->request, out, v->room);
        differences += !same_numbers(answer, v->answer) || memcmp(out, v->out, v->answer.length) != 0;
    }
    free(out);
    return (void *)differences;
}

static void threads(struct vectors *vectors)
{
    pthread_t thread[THREADS];
    for (int t = 0; t < THREADS; t++)
        if (pthread_create(&thread[t], NULL, all_at_once, vectors) != 0)
            exit(2);
    for (int t = 0; t < THREADS; t++) {
        void *differences;
        pthread_join(thread[t], &differences);
        calls += vectors->count;
        if (differences != NULL) {
            failures++;
            printf("FAILED: threads that call at once get other answers\n");
        }
    }
}

static void one_file(struct input input, const char *requests, const char *answers)
{
    struct vectors vectors = read_vectors(requests, answers);
    for (size_t i = 0; i < vectors.count; i++) {
        const struct vector *v = &vectors.all[i];
        expect(input, &v->request, v->room, v->answer, v->out);
        if (v->answer.refusal == SCALLOPGRID_ACCEPTED)
            every_room(input, v);
    }
    threads(&vectors);
    printf("%s: %zu lines\n", requests, vectors.count);
}

int main(int argc, char **argv)
{
    struct input input = make_input();
    if (argc < 3 || argc % 2 == 0) {
        printf("usage: boundary_test REQUESTS ANSWERS ..\n");
        return 2;
    }
    null_pointers();
    for (int i = 1; i + 1 < argc; i += 2)
        one_file(input, argv[i], argv[i + 1]);
    printf("C boundary: %lu calls, %lu failed\n", calls, failures);
    return failures != 0;
}

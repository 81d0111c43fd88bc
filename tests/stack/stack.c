/* How deep the stack gets: each public function is run on a painted stack, and the deepest byte that lost its paint counts. */
#include "../bench/loads.h"
#include "../c/libc.h"

enum { STACK = 1 << 20, PAINT = 0x5e };

struct measured {
    const struct request *request;
    uint8_t *stack;
    size_t depth;
};

/* Runs on the painted stack: paints what is below itself once more, since starting a thread has used some of it. A page
 * is left for its own frame, so that no depth below a page is told apart. */
static void *measure(void *argument)
{
    struct measured *m = argument;
    static _Thread_local uint8_t out[MOST_ROOM];
    uint8_t *here = (uint8_t *)__builtin_frame_address(0);
    /* a first call, so that the loader has bound every function before the stack is looked at */
    ask_library(m->request, out, sizeof out);
    for (uint8_t *at = m->stack; at < here - 4096; at++)
        *(volatile uint8_t *)at = PAINT;
    ask_library(m->request, out, sizeof out);
    uint8_t *deepest = m->stack;
    while (*(volatile uint8_t *)deepest == PAINT)
        deepest++;
    m->depth = (size_t)(here - deepest);
    return NULL;
}

static size_t depth_of(const struct request *request)
{
    static _Alignas(4096) uint8_t stack[STACK];
    struct measured m = {request, stack, 0};
    pthread_attr_t attr;
    pthread_t thread;
    memset(stack, PAINT, sizeof stack);
    if (pthread_attr_init(&attr) != 0 || pthread_attr_setstack(&attr, stack, sizeof stack) != 0 ||
        pthread_create(&thread, &attr, measure, &m) != 0) {
        printf("no thread could be started\n");
        exit(2);
    }
    pthread_join(thread, NULL);
    return m.depth;
}

/* The deepest stack of each function so far. */
static size_t deepest[OPERATIONS];

static void note(struct request request)
{
    size_t depth = depth_of(&request);
    if (depth > deepest[request.operation])
        deepest[request.operation] = depth;
}

/* A card to each function that takes one, then the molfile of it. */
static void note_card(struct load *load)
{
    struct request request = load->requests[0];
    static const enum operation of_cards[] = {NAME, CANON, MARKS};
    for (int i = 0; i < 3; i++) {
        request.operation = of_cards[i];
        note(request);
    }
    turn_into_molfile(load, 65536, WITH_PROPERTIES);
    note(load->requests[0]);
}

static struct load load;

static void worst_inputs(void)
{
    load_chain(&load);
    note_card(&load);
    load_alkane(&load, 64);
    note_card(&load);
    load_hubs(&load, 2000);
    note_card(&load);
    load_tree(&load, 2000);
    note_card(&load);
    load_perfluorohexane(&load);
    note_card(&load);
    load_texts(&load, 4096);
    note(load.requests[0]);
    load_crowded_molfile(&load);
    note(load.requests[0]);
}

static void one_file(const char *requests, const char *answers)
{
    struct vectors vectors = read_vectors(requests, answers);
    for (size_t i = 0; i < vectors.count; i += 16)
        note(vectors.all[i].request);
}

int main(int argc, char **argv)
{
    int over = 0;
    if (argc < 3 || argc % 2 == 0) {
        printf("usage: stack REQUESTS ANSWERS ..\n");
        return 2;
    }
    worst_inputs();
    for (int i = 1; i + 1 < argc; i += 2)
        one_file(argv[i], argv[i + 1]);
    for (int o = 0; o < OPERATIONS; o++) {
        printf("%-6s %6zu bytes of stack\n", operation_words[o], deepest[o]);
        over |= deepest[o] >= 64 * 1024;
    }
    printf(over ? "stack: above 64 KiB\n" : "stack: all below 64 KiB\n");
    return over;
}

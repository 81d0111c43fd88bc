/* The differential run: generated cards, texts and molfiles, library and reference compared in each number and byte. */
#include "../c/libc.h"
#include "../reference/reference.h"
#include "bytes.h"
#include "compare.h"
#include "drawing.h"
#include "molfile.h"

enum { SECONDS_BETWEEN_LINES = 10, LOOK_AT_CLOCK_EVERY = 64 };

struct run {
    struct chance chance;
    struct tally tally;
    struct bytes bytes, other_bytes;
    struct molfile molfile, other_molfile;
    struct outcome outcome, second;
};

/* Mostly small, since the allowance bounds the work of a call. */
static uint16_t some_allowance(struct chance *c)
{
    if (once_in(c, 200000))
        return (uint16_t)(65535 - below(c, 2));
    return (uint16_t)below(c, once_in(c, 1000) ? 3000 : once_in(c, 10) ? 200 : 30);
}

/* Mostly enough for any output. */
static size_t some_room(struct chance *c)
{
    return once_in(c, 4) ? below(c, once_in(c, 2) ? 16 : 400) : once_in(c, 8) ? LENT : 2048;
}

/* Then at the rooms about the exact one. */
static void about_the_length(struct run *r, const struct request *request, size_t length)
{
    for (size_t room = length - 1; room <= length + 1; room++)
        compare(&r->tally, request, room, &r->second);
}

/* 01: "A name read back is named again under the allowance and room that gave it." */
static void read_back(struct run *r, const struct request *named, size_t room)
{
    struct request read = {.operation = READ, .in = r->outcome.out, .in_length = r->outcome.answer.length};
    struct request again = {.operation = NAME, .allowance = named->allowance};
    struct outcome card;
    compare(&r->tally, &read, LENT, &card);
    again.in = card.out;
    again.in_length = card.answer.length;
    compare(&r->tally, &again, room, &r->second);
    must_agree(named, &r->outcome, &again, &r->second, room);
}

/* A renumbered card gets the same answer; its class marks go along with their atoms. */
static void renumbered(struct run *r, const struct drawing *d, const struct request *request, size_t room)
{
    struct drawing other;
    uint16_t to[DRAWN_ATOMS];
    uint8_t card[DRAWN_CARD], moved[LENT];
    struct request second = *request;
    renumber(&r->chance, d, &other, to);
    second.in = card;
    second.in_length = card_of_drawing(&other, card);
    compare(&r->tally, &second, room, &r->second);
    if (request->operation == MARKS && r->second.answer.length == d->atoms) {
        for (unsigned a = 0; a < d->atoms; a++)
            moved[a] = r->second.out[to[a]];
        memcpy(r->second.out, moved, d->atoms);
    }
    must_agree(request, &r->outcome, &second, &r->second, room);
}

static enum operation some_card_operation(struct chance *c)
{
    static const enum operation operations[] = {NAME, NAME, CANON, MARKS};
    return operations[below(c, 4)];
}

static void sound_card(struct run *r)
{
    struct chance *c = &r->chance;
    struct drawing d;
    uint8_t card[DRAWN_CARD];
    size_t room = some_room(c);
    draw_skeleton(c, &d);
    decorate(c, &d);
    struct request request = {some_card_operation(c), some_allowance(c), card, card_of_drawing(&d, card)};
    compare(&r->tally, &request, room, &r->outcome);
    if (once_in(c, 2))
        renumbered(r, &d, &request, room);
    if (r->outcome.answer.refusal != SCALLOPGRID_ACCEPTED)
        return;
    if (request.operation == NAME && once_in(c, 2))
        read_back(r, &request, room);
    if (once_in(c, 8))
        about_the_length(r, &request, r->outcome.answer.length);
}

/* A card with a fault, a damaged card, or bytes that never were one. */
static void faulty_card(struct run *r)
{
    struct chance *c = &r->chance;
    struct drawing d;
    draw_skeleton(c, &d);
    decorate(c, &d);
    if (!once_in(c, 4))
        spoil(c, &d);
    if (once_in(c, 8))
        spoil(c, &d);
    r->bytes.length = card_of_drawing(&d, r->bytes.at);
    if (once_in(c, 3))
        damage(c, &r->bytes);
    if (once_in(c, 20))
        random_bytes(c, &r->bytes);
    struct request request = {some_card_operation(c), some_allowance(c), r->bytes.at, r->bytes.length};
    compare(&r->tally, &request, some_room(c), &r->outcome);
}

/* A name, turned by chance into a text that is nearly one. */
static void text_from_name(struct run *r)
{
    struct drawing d;
    uint8_t card[DRAWN_CARD];
    draw_skeleton(&r->chance, &d);
    decorate(&r->chance, &d);
    struct request request = {NAME, 40, card, card_of_drawing(&d, card)};
    compare(&r->tally, &request, 2048, &r->outcome);
    r->bytes.length = r->outcome.answer.length;
    memcpy(r->bytes.at, r->outcome.out, r->bytes.length);
    damage(&r->chance, &r->bytes);
}

static void text(struct run *r)
{
    struct chance *c = &r->chance;
    switch (below(c, 8)) {
    case 0: text_from_name(r); break;
    case 1: limit_text(c, &r->bytes); break;
    case 2: random_bytes(c, &r->bytes); break;
    default: random_text(c, &r->bytes); break;
    }
    if (once_in(c, 6))
        damage(c, &r->bytes);
    struct request request = {.operation = READ, .in = r->bytes.at, .in_length = r->bytes.length};
    compare(&r->tally, &request, some_room(c), &r->outcome);
    if (r->outcome.answer.refusal == SCALLOPGRID_ACCEPTED && once_in(c, 8))
        about_the_length(r, &request, r->outcome.answer.length);
}

/* A molfile and the card that it folds to get the same name. */
static void folded(struct run *r, const struct request *request, size_t room)
{
    uint8_t card[SCALLOPGRID_MOST_CARD];
    struct request of_card = {NAME, request->allowance, card, reference_folded(request->in, request->in_length, card)};
    if (of_card.in_length == 0)
        return;
    compare(&r->tally, &of_card, room, &r->second);
    must_agree(request, &r->outcome, &of_card, &r->second, room);
}

/* 02: "Renumbering the file's atoms must not change the name." Nor does another style of writing. */
static void renumbered_molfile(struct run *r, const struct request *request, size_t room)
{
    struct request second = *request;
    renumber_molfile(&r->chance, &r->molfile, &r->other_molfile);
    write_molfile(&r->chance, &r->other_molfile, &r->other_bytes);
    second.in = r->other_bytes.at;
    second.in_length = r->other_bytes.length;
    compare(&r->tally, &second, room, &r->second);
    must_agree(request, &r->outcome, &second, &r->second, room);
}

static void sound_molfile(struct run *r)
{
    struct chance *c = &r->chance;
    struct drawing d;
    size_t room = some_room(c);
    draw_skeleton(c, &d);
    decorate(c, &d);
    list_drawing(c, &d, &r->molfile);
    write_molfile(c, &r->molfile, &r->bytes);
    struct request request = {MOL, some_allowance(c), r->bytes.at, r->bytes.length};
    compare(&r->tally, &request, room, &r->outcome);
    folded(r, &request, room);
    if (once_in(c, 2))
        renumbered_molfile(r, &request, room);
    if (r->outcome.answer.refusal != SCALLOPGRID_ACCEPTED)
        return;
    if (once_in(c, 4))
        read_back(r, &request, room);
    if (once_in(c, 8))
        about_the_length(r, &request, r->outcome.answer.length);
}

/* What a faulty molfile lists: atoms and bonds with a fault, at a limit or past it, or sound. */
static void list_something(struct run *r)
{
    struct chance *c = &r->chance;
    struct drawing d;
    draw_skeleton(c, &d);
    decorate(c, &d);
    if (once_in(c, 3))
        spoil(c, &d);
    list_drawing(c, &d, &r->molfile);
    if (once_in(c, 8))
        limit_molfile(c, &r->molfile);
    if (once_in(c, 2))
        spoil_molfile(c, &r->molfile);
    if (once_in(c, 2)) {
        r->other_molfile = r->molfile;
        renumber_molfile(c, &r->other_molfile, &r->molfile);
    }
}

static void faulty_molfile(struct run *r)
{
    struct chance *c = &r->chance;
    size_t room = some_room(c);
    list_something(r);
    write_molfile(c, &r->molfile, &r->bytes);
    if (once_in(c, 2))
        damage_lines(c, &r->bytes);
    if (once_in(c, 16))
        damage_lines(c, &r->bytes);
    if (once_in(c, 60))
        lengthen(c, &r->bytes);
    if (once_in(c, 60))
        random_bytes(c, &r->bytes);
    struct request request = {MOL, some_allowance(c), r->bytes.at, r->bytes.length};
    compare(&r->tally, &request, room, &r->outcome);
    folded(r, &request, room);
}

static long seconds_now(void)
{
    struct timespec now;
    clock_gettime(CLOCK_THAT_NEVER_GOES_BACK, &now);
    return now.tv_sec;
}

static void some_inputs(struct run *r)
{
    for (int i = 0; i < LOOK_AT_CLOCK_EVERY; i++) {
        switch (below(&r->chance, 12)) {
        case 0:
        case 1:
        case 2: sound_card(r); break;
        case 3:
        case 4: faulty_card(r); break;
        case 5: sound_molfile(r); break;
        case 6:
        case 7:
        case 8: faulty_molfile(r); break;
        default: text(r); break;
        }
    }
}

static void print_tally(const struct tally *tally)
{
    printf("by refusal, 0 to 11:");
    for (int i = 0; i <= 11; i++)
        printf(" %lu", tally->by_refusal[i]);
    printf("\n");
}

int main(int argc, char **argv)
{
    static struct run run;
    if (argc != 3) {
        printf("usage: fuzz SECONDS SEED\n");
        return 2;
    }
    long began = seconds_now(), ends = began + (long)strtoul(argv[1], NULL, 10), line = began;
    run.chance.state = strtoul(argv[2], NULL, 10);
    printf("seed %s\n", argv[2]);
    for (long now = began; now < ends; now = seconds_now()) {
        some_inputs(&run);
        if (now - line >= SECONDS_BETWEEN_LINES) {
            line = now;
            printf("%ld s: %lu inputs\n", now - began, run.tally.inputs);
            fflush(NULL);
        }
    }
    print_tally(&run.tally);
    printf("fuzz: %lu inputs, no difference\n", run.tally.inputs);
    return 0;
}

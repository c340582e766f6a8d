/* Steps per second of cc100_run and cc100_step, of the same in plain C, of another archive (BEFORE) and, where it is installed, of Unicorn (QEMU's
   translator): medians of interleaved rounds on the same loops.

   State and memory lie elsewhere in each round, the same for product and plain C, so that lucky and unlucky places average out. */
#include <stdint.h>
#include <stdio.h>
#include <stdlib.h>
#include <string.h>

#include "before.h"
#include "run.h"

#ifndef TURNS
#define TURNS 1000000u /* of a loop; tools/begin, which counts instructions, takes fewer */
#define ROUNDS 21
#endif
#define MOST_STEPS 0xFFFFFFFFu
#define ROOM 8192

struct loop {
    const char *name;
    uint32_t r5, r6, r7, r24;
    uint32_t code[CODE / 4];
};

/* A loop ends, in SYSCALL, when its counter is register 24. Register 26 holds the data base and 27 the code base, 0. */
static const struct loop loops[] = {
    {"arithmetic and branches", 1, 2, 3, 1 + TURNS, {
        0x24A50001, /*  0: ADDIU 5,5,1 */
        0x00C53021, /*  4: ADDU 6,6,5 */
        0x00064140, /*  8: SLL 8,6,5 */
        0x01063026, /* 12: XOR 6,8,6 */
        0x00C7402B, /* 16: SLTU 8,6,7 */
        0x11000002, /* 20: BEQ 8,0 to 32 */
        0x30C900FF, /* 24: ANDI 9,6,0xFF */
        0x00C93823, /* 28: SUBU 7,6,9 */
        0x04C10002, /* 32: BGEZ 6 to 44 */
        0x000640C2, /* 36: SRL 8,6,3 */
        0x00E83821, /* 40: ADDU 7,7,8 */
        0x14B8FFF4, /* 44: BNE 5,24 to 0 */
        0x3508000F, /* 48: ORI 8,8,15 */
        0x0000000C, /* 52: SYSCALL 0 */
    }},
    {"guarded loads and stores", 0, 0, 0, TURNS, {
        0x30A8000C, /*  0: ANDI 8,5,12 */
        0x011A4025, /*  4: OR 8,8,26 */
        0x8D090000, /*  8: LW 9,0(8) */
        0x24A50001, /* 12: ADDIU 5,5,1 */
        0x30A8000F, /* 16: ANDI 8,5,15 */
        0x011A4025, /* 20: OR 8,8,26 */
        0x910A0000, /* 24: LBU 10,0(8) */
        0x012A3021, /* 28: ADDU 6,9,10 */
        0x30C8000C, /* 32: ANDI 8,6,12 */
        0x011A4025, /* 36: OR 8,8,26 */
        0xAD060000, /* 40: SW 6,0(8) */
        0x14B8FFF4, /* 44: BNE 5,24 to 0 */
        0x24E70003, /* 48: ADDIU 7,7,3 */
        0x0000000C, /* 52: SYSCALL 0 */
    }},
    {"multiply and divide", 12345, 1103515245, 7, 7 + TURNS, {
        0x00A60019, /*  0: MULTU 5,6 */
        0x00002812, /*  4: MFLO 5 */
        0x24A53039, /*  8: ADDIU 5,5,12345 */
        0x24E70001, /* 12: ADDIU 7,7,1 */
        0x00A7001A, /* 16: DIV 5,7 */
        0x00004012, /* 20: MFLO 8 */
        0x00004810, /* 24: MFHI 9 */
        0x01090018, /* 28: MULT 8,9 */
        0x00005010, /* 32: MFHI 10 */
        0x35080001, /* 36: ORI 8,8,1, as a zero divisor gives other values on Unicorn: MIPS does not say */
        0x0148001B, /* 40: DIVU 10,8 */
        0x00005812, /* 44: MFLO 11 */
        0x14F8FFF3, /* 48: BNE 7,24 to 0 */
        0x016A6026, /* 52: XOR 12,11,10 */
        0x0000000C, /* 56: SYSCALL 0 */
    }},
    {"calls and returns", 1, 2, 3, 1 + TURNS, {
        0x24A50001, /*  0: ADDIU 5,5,1 */
        0x00A63826, /*  4: XOR 7,5,6 */
        0x0C000008, /*  8: JAL 32, which links 16 */
        0x00072080, /* 12: SLL 4,7,2 */
        0x00C23021, /* 16: ADDU 6,6,2 */
        0x14B8FFFA, /* 20: BNE 5,24 to 0 */
        0x00C73023, /* 24: SUBU 6,6,7 */
        0x0000000C, /* 28: SYSCALL 0 */
        0x000410C3, /* 32: SRA 2,4,3 */
        0x00441026, /* 36: XOR 2,2,4 */
        0x0045182B, /* 40: SLTU 3,2,5 */
        0x00431021, /* 44: ADDU 2,2,3 */
        0x33FF0030, /* 48: ANDI 31,31,0x30 */
        0x03FBF825, /* 52: OR 31,31,27 */
        0x03E00008, /* 56: JR 31 */
        0x24420007, /* 60: ADDIU 2,2,7 */
    }},
};

typedef cc100_ran runner(uint8_t *, size_t, uint8_t *, size_t, uint32_t);
typedef cc100_stepped stepper(uint8_t *, size_t, uint8_t *, size_t);

static double run_by(runner *run, uint8_t *room, uint8_t *memory, struct answer *a)
{
    memcpy(room, a->state, CC100_STATE_LENGTH);
    double from = now();
    cc100_ran ran = run(room, CC100_STATE_LENGTH, memory, MEMORY, MOST_STEPS);
    double seconds = now() - from;
    memcpy(a->state, room, CC100_STATE_LENGTH);
    a->number = ran.number;
    a->steps = ran.steps;
    return seconds;
}

static double step_by(stepper *step, uint8_t *room, uint8_t *memory, struct answer *a)
{
    memcpy(room, a->state, CC100_STATE_LENGTH);
    double from = now();
    while ((a->number = step(room, CC100_STATE_LENGTH, memory, MEMORY).number) == CC100_DONE)
        a->steps++;
    double seconds = now() - from;
    memcpy(a->state, room, CC100_STATE_LENGTH);
    return seconds;
}

static double run_product(uint8_t *room, uint8_t *memory, struct answer *a) { return run_by(cc100_run, room, memory, a); }
static double step_product(uint8_t *room, uint8_t *memory, struct answer *a) { return step_by(cc100_step, room, memory, a); }
#ifdef BEFORE
static double run_before(uint8_t *room, uint8_t *memory, struct answer *a) { return run_by(before_run, room, memory, a); }
static double step_before(uint8_t *room, uint8_t *memory, struct answer *a) { return step_by(before_step, room, memory, a); }
#endif

/* Plain C has its state as a struct: making that from bytes and back is not timed. */
static double run_plain(uint8_t *room, uint8_t *memory, struct answer *a)
{
    struct plain_state *s = (struct plain_state *)room;
    *s = plain_state_of(a->state);
    double from = now();
    a->number = plain_run(s, memory, MEMORY, MOST_STEPS, &a->steps);
    double seconds = now() - from;
    plain_state_to(s, a->state);
    return seconds;
}

static double step_plain(uint8_t *room, uint8_t *memory, struct answer *a)
{
    struct plain_state *s = (struct plain_state *)room;
    *s = plain_state_of(a->state);
    double from = now();
    while ((a->number = plain_step(s, memory, MEMORY)) == CC100_DONE)
        a->steps++;
    double seconds = now() - from;
    plain_state_to(s, a->state);
    return seconds;
}

static void start(const struct loop *loop, struct answer *a)
{
    memset(a, 0, sizeof *a);
    cc100_set_word(a->state + CC100_NEXT_PC, 4);
    cc100_set_word(a->state + CC100_STATUS, CC100_STATUS_USER);
    cc100_set_word(a->state + CC100_REGISTER(5), loop->r5);
    cc100_set_word(a->state + CC100_REGISTER(6), loop->r6);
    cc100_set_word(a->state + CC100_REGISTER(7), loop->r7);
    cc100_set_word(a->state + CC100_REGISTER(24), loop->r24);
    cc100_set_word(a->state + CC100_REGISTER(26), CODE);
    for (uint32_t i = 0; i < CODE; i += 4)
        cc100_set_word(a->memory + i, loop->code[i / 4]);
    for (uint32_t i = CODE; i < MEMORY; i++)
        a->memory[i] = (uint8_t)(i * 37);
}

/* One round, at places of its own in the two rooms, multiples of 16 as malloc would give. */
static double timed(worker *work, const struct loop *loop, size_t round, struct answer *a)
{
    static uint8_t *states, *memories;
    size_t place = round * 208 % (ROOM / 2), other = round * 336 % (ROOM / 2);
    if (!states && (!(states = malloc(ROOM)) || !(memories = malloc(ROOM)))) {
        perror("memory for the benchmark");
        exit(2);
    }
    start(loop, a);
    memcpy(memories + other, a->memory, MEMORY);
    double seconds = work(states + place, memories + other, a);
    memcpy(a->memory, memories + other, MEMORY);
    return seconds;
}

/* Whether a worker left something else than the first one, or what no loop leaves: Unicorn does not count its steps. */
static int differs(const struct answer *first, const struct answer *a)
{
    return memcmp(first->state, a->state, sizeof a->state) != 0 || memcmp(first->memory, a->memory, MEMORY) != 0 ||
           first->number != a->number || a->number != CC100_EXIT_SYSTEM_CALL || (a->steps != first->steps && a->steps != NOT_COUNTED);
}

static int compare(const char *what, const struct loop *loop, const struct contender *contenders, size_t count)
{
    double seconds[MOST_CONTENDERS][ROUNDS];
    struct timing timings[MOST_CONTENDERS];
    struct answer answers[MOST_CONTENDERS];
    int wrong = 0;
    for (size_t turn = 0; turn < ROUNDS * count; turn++) {
        size_t i = turn % count, round = turn / count;
        seconds[i][round] = timed(contenders[i].work, loop, round, &answers[i]);
        wrong |= differs(&answers[0], &answers[i]);
    }
    for (size_t i = 0; i < count; i++)
        timings[i] = (struct timing){contenders[i].name, median(seconds[i], ROUNDS)};
    printf("%s, %-25s", what, loop->name);
    return report(timings, count, answers[0].steps / 1e6, "million steps/s", wrong);
}

#define COUNT(array) (sizeof array / sizeof array[0])

int main(void)
{
    static const struct contender runs[] = {
        {"product", run_product},
        {"plain C", run_plain},
#ifdef BEFORE
        {"before", run_before},
#endif
#ifdef UNICORN
        {"Unicorn", run_unicorn},
#endif
    };
    static const struct contender steps[] = {
        {"product", step_product},
        {"plain C", step_plain},
#ifdef BEFORE
        {"before", step_before},
#endif
    };
    int wrong = 0;
    for (size_t i = 0; i < COUNT(loops); i++)
        wrong |= compare("run", &loops[i], runs, COUNT(runs));
    printf("single steps: the product's state is bytes, that of plain C a struct\n");
    wrong |= compare("step", &loops[0], steps, COUNT(steps));
    return wrong;
}

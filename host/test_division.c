/* Divisions: by zero LO is 0xFFFFFFFF and HI the dividend, and by all else both are as C divides. Nothing else changes, no exit is met, and LO and
   HI together tell a zero divisor from every other. */
#define _DEFAULT_SOURCE
#include <inttypes.h>
#include <string.h>
#include <sys/mman.h>
#include <unistd.h>

#include "test.h"

#define MEMORY_LENGTH 64
#define AT 16
#define SYSCALL 0x0000000Cu
#define BEFORE 0x51A5D00Fu /* what a register holds before it is written */

/* The divisions of register 5 by register 6. */
static const struct division {
    const char *name;
    uint32_t word;
    int is_signed;
} divisions[] = {{"DIV 5,6", 0x00A6001A, 1}, {"DIVU 5,6", 0x00A6001B, 0}};

/* Both operands. Among them are pairs whose LO or HI alone is that of a zero divisor: 1 by -1, 0xFFFFFFFF by 1, 5 by 7. */
static const uint32_t operands[] = {
    0, 1, 2, 3, 5, 7, 10, 0x7FFF, 0x8000, 0xFFFF, 0x10000, 0x12345678, 0x55555555, 0x7FFFFFFE, 0x7FFFFFFF, 0x80000000, 0x80000001, 0x9ABCDEF0,
    0xAAAAAAAA, 0xFFFF0000, 0xFFFF8000, 0xFFFFFFF6, 0xFFFFFFF9, 0xFFFFFFFB, 0xFFFFFFFD, 0xFFFFFFFE, 0xFFFFFFFF,
};
#define COUNT(array) (sizeof(array) / sizeof(array)[0])

struct result {
    uint32_t lo, hi;
};

static int64_t number(const struct division *d, uint32_t word) { return d->is_signed ? (int32_t)word : (int64_t)word; }

/* What must come. 64 bits hold the quotient of -2^31 by -1. */
static struct result expected(const struct division *d, uint32_t a, uint32_t b)
{
    if (b == 0)
        return (struct result){0xFFFFFFFF, a};
    return (struct result){(uint32_t)(number(d, a) / number(d, b)), (uint32_t)(number(d, a) % number(d, b))};
}

static struct machine lend_operands(uint32_t a, uint32_t b)
{
    struct machine m = lend(CC100_STATE_LENGTH, MEMORY_LENGTH);
    put_pc(&m, AT);
    put_state(&m, CC100_REGISTER(5), a);
    put_state(&m, CC100_REGISTER(6), b);
    return m;
}

static void want_result(struct machine *m, struct result r)
{
    want_state(m, CC100_LO, r.lo);
    want_state(m, CC100_HI, r.hi);
}

/* The compiler house's test, on what a call has left. */
static void expect_told(const struct machine *m, uint32_t a, uint32_t b)
{
    uint32_t lo = cc100_get_word(m->state.bytes + CC100_LO), hi = cc100_get_word(m->state.bytes + CC100_HI);
    expect_number("LO and HI are those of a zero divisor", b == 0, lo == 0xFFFFFFFF && hi == a);
}

/* One division by a step, and by a run in a slot in user mode with the LL word 1. No resume is given for it, since it is no exit. */
static void divide(const struct division *d, uint32_t a, uint32_t b)
{
    for (uint32_t in_slot = 0; in_slot < 2; in_slot++) {
        struct machine m = lend_operands(a, b);
        uint32_t next_pc = in_slot ? 40 : AT + 4;
        put_memory(&m, AT, d->word);
        put_state(&m, CC100_NEXT_PC, next_pc);
        put_state(&m, CC100_LL, in_slot);
        put_state(&m, CC100_STATUS, in_slot ? CC100_STATUS_USER : 0);
        calling("%s, 0x%" PRIX32 " by 0x%" PRIX32 ", next PC %" PRIu32, d->name, a, b, next_pc);
        expect_resume(&m, CC100_REFUSED_RESUME);
        expect_run(&m, 0, CC100_DONE, 0);
        want_pc(&m, next_pc, next_pc + 4);
        want_result(&m, expected(d, a, b));
        if (in_slot)
            expect_run(&m, 1, CC100_DONE, 1);
        else
            expect_step(&m, CC100_DONE);
        expect_told(&m, a, b);
        give_back(&m);
    }
}

/* A module tests it too, without looking at the divisor: register 9 is 1 where LO is all ones and HI the dividend. */
static const uint32_t tests_it[] = {
    0x00003812, /* MFLO 7 */
    0x00004010, /* MFHI 8 */
    0x00E04827, /* NOR 9,7,0 */
    0x01055026, /* XOR 10,8,5 */
    0x012A4825, /* OR 9,9,10 */
    0x2D290001, /* SLTIU 9,9,1 */
    SYSCALL,
};
#define TESTED ((uint32_t)COUNT(tests_it)) /* the steps before SYSCALL: the division and all others */

/* A run up to SYSCALL, and a resume there, which keeps LO and HI. */
static void divide_and_test(const struct division *d, uint32_t a, uint32_t b)
{
    struct machine m = lend_operands(a, b);
    struct result r = expected(d, a, b);
    put_memory(&m, AT, d->word);
    for (uint32_t i = 0; i < COUNT(tests_it); i++)
        put_memory(&m, AT + 4 + 4 * i, tests_it[i]);
    for (uint32_t i = 7; i <= 10; i++)
        put_state(&m, CC100_REGISTER(i), BEFORE);
    calling("%s, 0x%" PRIX32 " by 0x%" PRIX32 ", and a module's test", d->name, a, b);
    want_result(&m, r);
    want_state(&m, CC100_REGISTER(7), r.lo);
    want_state(&m, CC100_REGISTER(8), r.hi);
    want_state(&m, CC100_REGISTER(9), b == 0);
    want_state(&m, CC100_REGISTER(10), r.hi ^ a);
    want_pc(&m, AT + 4 * TESTED, AT + 4 * TESTED + 4);
    expect_run(&m, 100, CC100_EXIT_SYSTEM_CALL, TESTED);
    want_resumed(&m);
    expect_resume(&m, CC100_DONE);
    expect_told(&m, a, b);
    give_back(&m);
}

/* Register 0 as the divisor, and a register divided by itself. */
static void registers(void)
{
    static const struct {
        const char *name;
        uint32_t word, r5;
        struct result result;
    } all[] = {
        {"DIV 5,0", 0x00A0001A, 0x80000000, {0xFFFFFFFF, 0x80000000}}, {"DIVU 5,0", 0x00A0001B, 0x80000000, {0xFFFFFFFF, 0x80000000}},
        {"DIV 0,0", 0x0000001A, 7, {0xFFFFFFFF, 0}}, {"DIVU 0,0", 0x0000001B, 7, {0xFFFFFFFF, 0}},
        {"DIV 5,5", 0x00A5001A, 0, {0xFFFFFFFF, 0}}, {"DIVU 5,5", 0x00A5001B, 0, {0xFFFFFFFF, 0}},
        {"DIV 5,5", 0x00A5001A, 0xFFFFFFFF, {1, 0}}, {"DIVU 5,5", 0x00A5001B, 0xFFFFFFFF, {1, 0}},
    };
    for (size_t i = 0; i < COUNT(all); i++) {
        struct machine m = lend_operands(all[i].r5, 9);
        put_memory(&m, AT, all[i].word);
        calling("%s, register 5 0x%" PRIX32, all[i].name, all[i].r5);
        want_pc(&m, AT + 4, AT + 8);
        want_result(&m, all[i].result);
        expect_step(&m, CC100_DONE);
        give_back(&m);
    }
}

/* By zero, with the state at the end of its page and memory that cannot be written, the division as its last word. */
static void in_pages(const struct division *d)
{
    size_t size = (size_t)sysconf(_SC_PAGESIZE);
    uint8_t *state = page(size) + size - CC100_STATE_LENGTH, *memory = page(size);
    struct machine m = lend_operands(5, 0);
    uint32_t at = (uint32_t)size - 4;
    put_pc(&m, at);
    memcpy(state, m.state.bytes, CC100_STATE_LENGTH);
    cc100_set_word(memory + at, d->word);
    mprotect(memory, size, PROT_READ);
    calling("%s, 5 by 0 in memory that cannot be written", d->name);
    expect_number("number of cc100_step", CC100_DONE, cc100_step(state, CC100_STATE_LENGTH, memory, size).number);
    expect_number("LO", 0xFFFFFFFF, cc100_get_word(state + CC100_LO));
    expect_number("HI", 5, cc100_get_word(state + CC100_HI));
    memcpy(state, m.state.bytes, CC100_STATE_LENGTH);
    cc100_ran ran = cc100_run(state, CC100_STATE_LENGTH, memory, size, 2);
    expect_number("number of cc100_run", CC100_EXIT_FETCH, ran.number);
    expect_number("steps of cc100_run", 1, ran.steps);
    expect_number("LO", 0xFFFFFFFF, cc100_get_word(state + CC100_LO));
    expect_number("HI", 5, cc100_get_word(state + CC100_HI));
    give_back(&m);
    munmap(state + CC100_STATE_LENGTH - 2 * size, 3 * size);
    munmap(memory - size, 3 * size);
}

void test_division(void)
{
    for (size_t i = 0; i < COUNT(divisions); i++) {
        for (size_t a = 0; a < COUNT(operands); a++)
            for (size_t b = 0; b < COUNT(operands); b++) {
                divide(&divisions[i], operands[a], operands[b]);
                divide_and_test(&divisions[i], operands[a], operands[b]);
            }
        in_pages(&divisions[i]);
    }
    registers();
}

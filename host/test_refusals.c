/* Refusals 1 and 17 of step, run and resume, and their order. */
#include <inttypes.h>

#include "test.h"

/* Words that would change something were the call not refused: a step would store, a resume would be given. */
#define SW 0xAC050020u /* SW 5,32(0) */
#define SYSCALL 0x0000000Cu

#define MEMORY_LENGTH 64

static void expect_refused(struct machine *m, uint32_t number)
{
    expect_step(m, number);
    expect_run(m, 0, number, 0);
    expect_run(m, 1, number, 0);
    expect_run(m, 0xFFFFFFFF, number, 0);
    expect_resume(m, number);
}

/* With both words, in memory that has room for one and where it has none. */
static void expect_refused_everywhere(struct machine *m, uint32_t number)
{
    expect_refused(m, number);
    if (m->memory.length < 4)
        return;
    put_memory(m, 0, SW);
    expect_refused(m, number);
    put_memory(m, 0, SYSCALL);
    expect_refused(m, number);
}

static void state_lengths(void)
{
    static const size_t lengths[] = {0, 1, 4, 160, 163, 165, 168, 328};
    for (size_t i = 0; i < sizeof lengths / sizeof lengths[0]; i++) {
        struct machine m = lend(lengths[i], MEMORY_LENGTH);
        calling("state of %zu bytes", lengths[i]);
        expect_refused_everywhere(&m, CC100_REFUSED_STATE);
        give_back(&m);
        m = lend(lengths[i], 0);
        calling("state of %zu bytes, memory of none", lengths[i]);
        expect_refused_everywhere(&m, CC100_REFUSED_STATE);
        give_back(&m);
    }
}

static void one_word(const char *name, uint32_t place, uint32_t word)
{
    struct machine m = lend(CC100_STATE_LENGTH, MEMORY_LENGTH);
    calling("%s 0x%08" PRIX32, name, word);
    put_state(&m, place, word);
    expect_refused_everywhere(&m, CC100_REFUSED_STATE);
    give_back(&m);
}

/* Each bit that a lawful state must not have, alone, where the other bits are those of `lawful`. */
static void one_bit(const char *name, uint32_t place, uint32_t bits, uint32_t lawful)
{
    for (int bit = 0; bit < 32; bit++)
        if (bits >> bit & 1)
            one_word(name, place, lawful | 1u << bit);
}

static void rules_of_17(void)
{
    one_bit("register 0", CC100_REGISTER(0), 0xFFFFFFFF, 0);
    one_bit("PC", CC100_PC, 3, 0);
    one_bit("PC", CC100_PC, 3, 0xFFFFFFFC);
    one_bit("next PC", CC100_NEXT_PC, 3, 4);
    one_bit("next PC", CC100_NEXT_PC, 3, 0xFFFFFFFC);
    one_bit("status", CC100_STATUS, 0xFFFFE000, 0);
    one_bit("status", CC100_STATUS, 0xFFFFE000, 0x1FFF);
    one_bit("LL word", CC100_LL, 0xFFFFFFFE, 0);
    one_bit("LL word", CC100_LL, 0xFFFFFFFE, 1);
    one_word("LL word", CC100_LL, 0xFFFFFFFF);
    one_word("PC", CC100_PC, 0xFFFFFFFF);
    one_word("status", CC100_STATUS, 0xFFFFFFFF);
}

/* A word that 17 allows: a resume at SYSCALL is given, a run and a step end in it. */
static void allowed(const char *name, uint32_t place, uint32_t word)
{
    struct machine m = lend(CC100_STATE_LENGTH, MEMORY_LENGTH);
    put_memory(&m, 0, SYSCALL);
    put_state(&m, place, word);
    calling("%s 0x%08" PRIX32, name, word);
    expect_step(&m, CC100_EXIT_SYSTEM_CALL);
    expect_run(&m, 1, CC100_EXIT_SYSTEM_CALL, 0);
    want_resumed(&m);
    expect_resume(&m, CC100_DONE);
    give_back(&m);
}

static void allowed_by_17(void)
{
    for (int bit = 0; bit <= 12; bit++)
        allowed("status", CC100_STATUS, 1u << bit);
    allowed("status", CC100_STATUS, 0x1FFF);
    allowed("LL word", CC100_LL, 0);
    allowed("LL word", CC100_LL, 1);
    allowed("next PC", CC100_NEXT_PC, 0xFFFFFFFC);
    allowed("next PC", CC100_NEXT_PC, 0);
    for (uint32_t r = 1; r < 32; r++)
        allowed("a register", CC100_REGISTER(r), 0xFFFFFFFF);
    for (uint32_t place = CC100_HI; place <= CC100_LO; place += 4)
        allowed("HI or LO", place, 0xFFFFFFFF);
    allowed("bad address", CC100_BAD_ADDRESS, 0xFFFFFFFF);
    allowed("cause", CC100_CAUSE, 0xFFFFFFFF);
    allowed("return address", CC100_RETURN_ADDRESS, 0xFFFFFFFF);
}

/* 1 comes first, whatever the state is; then 17, although a resume would be refused by 19 too (see expect_refused_everywhere). */
static void memory_too_long(void)
{
    struct machine m = lend(CC100_STATE_LENGTH, CC100_LONGEST_MEMORY + 1);
    calling("memory of %u bytes", CC100_LONGEST_MEMORY + 1);
    expect_refused_everywhere(&m, CC100_REFUSED_MEMORY);
    calling("memory of %u bytes, register 0 not zero", CC100_LONGEST_MEMORY + 1);
    put_state(&m, CC100_REGISTER(0), 1);
    expect_refused(&m, CC100_REFUSED_MEMORY);
    calling("memory of %u bytes, LL word 2", CC100_LONGEST_MEMORY + 1);
    put_state(&m, CC100_REGISTER(0), 0);
    put_state(&m, CC100_LL, 2);
    expect_refused(&m, CC100_REFUSED_MEMORY);
    calling("memory of %u bytes, state of 163", CC100_LONGEST_MEMORY + 1);
    expect_number("number of cc100_step", CC100_REFUSED_MEMORY, cc100_step(m.state.bytes, 163, m.memory.bytes, m.memory.length).number);
    expect_number("number of cc100_run", CC100_REFUSED_MEMORY, cc100_run(m.state.bytes, 163, m.memory.bytes, m.memory.length, 1).number);
    expect_number("number of cc100_resume", CC100_REFUSED_MEMORY, cc100_resume(m.state.bytes, 163, m.memory.bytes, m.memory.length));
    expect_left(&m);
    give_back(&m);
}

void test_refusals(void)
{
    state_lengths();
    rules_of_17();
    allowed_by_17();
    memory_too_long();
}

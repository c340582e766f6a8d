/* Runs: totals, budgets, one run after another, and what they leave. */
#include <inttypes.h>

#include "test.h"

#define MEMORY_LENGTH 64

/* Counts register 5 down to 0 and adds what it counts to register 6: three steps a round. */
static const uint32_t count_down[] = {
    0x24A5FFFF, /*  0: ADDIU 5,5,-1 */
    0x14A0FFFE, /*  4: BNE 5,0 to 0 */
    0x00C53021, /*  8: ADDU 6,6,5 */
    0x0000000C, /* 12: SYSCALL 0 */
};

static struct machine counting(uint32_t rounds)
{
    struct machine m = lend(CC100_STATE_LENGTH, MEMORY_LENGTH);
    for (uint32_t i = 0; i < 4; i++)
        put_memory(&m, 4 * i, count_down[i]);
    put_state(&m, CC100_REGISTER(5), rounds);
    put_state(&m, CC100_REGISTER(6), 0);
    return m;
}

static void want_counted(struct machine *m, uint32_t rounds)
{
    want_state(m, CC100_REGISTER(5), 0);
    want_state(m, CC100_REGISTER(6), (uint32_t)((uint64_t)rounds * (rounds - 1) / 2));
    want_pc(m, 12, 16);
}

/* The total is 30 steps, and the exit stays the same under larger budgets; with 30 the budget is spent just before it. */
static void budgets(void)
{
    static const uint32_t larger[] = {31, 32, 60, 1000, 0x7FFFFFFF, 0x80000000, 0xFFFFFFFF};
    struct machine m = counting(10);
    calling("10 rounds, budget 30");
    want_counted(&m, 10);
    expect_run(&m, 30, CC100_DONE, 30);
    calling("10 rounds, at the exit");
    expect_run(&m, 0, CC100_DONE, 0);
    expect_run(&m, 1, CC100_EXIT_SYSTEM_CALL, 0);
    expect_run(&m, 0xFFFFFFFF, CC100_EXIT_SYSTEM_CALL, 0);
    give_back(&m);
    for (size_t i = 0; i < sizeof larger / sizeof larger[0]; i++) {
        m = counting(10);
        calling("10 rounds, budget %" PRIu32, larger[i]);
        want_counted(&m, 10);
        expect_run(&m, larger[i], CC100_EXIT_SYSTEM_CALL, 30);
        give_back(&m);
    }
}

static void many_steps(void)
{
    struct machine m = counting(1000000);
    calling("1000000 rounds");
    want_counted(&m, 1000000);
    expect_run(&m, 0xFFFFFFFF, CC100_EXIT_SYSTEM_CALL, 3000000);
    give_back(&m);
}

/* Run by single steps; gives those completed. */
static uint32_t by_steps(struct machine *m, uint32_t budget)
{
    uint32_t done = 0;
    while (done < budget && step(m).number == CC100_DONE)
        done++;
    return done;
}

/* A run of a + b is a run of a and then one of b, and each is so many single steps. The whole is 12 steps and an exit. */
static void in_two_parts(uint32_t a, uint32_t b)
{
    struct machine stepped = counting(4), whole = counting(4), parts = counting(4);
    uint32_t steps = a + b < 12 ? a + b : 12, number = a + b > 12 ? CC100_EXIT_SYSTEM_CALL : CC100_DONE;
    calling("4 rounds, budgets %" PRIu32 " and %" PRIu32, a, b);
    expect_number("steps that cc100_step completes", steps, by_steps(&stepped, a + b));
    want_left_by(&whole, &stepped);
    want_left_by(&parts, &stepped);
    expect_run(&whole, a + b, number, steps);
    cc100_ran first = run(&parts, a);
    if (first.number == CC100_DONE)
        expect_run(&parts, b, number, steps - first.steps);
    else
        expect_left(&parts);
    expect_number("steps of the first part", a < 12 ? a : 12, first.steps);
    give_back(&stepped);
    give_back(&whole);
    give_back(&parts);
}

/* Nothing is kept between calls: two machines by turns reach what each reaches alone. */
static void by_turns(void)
{
    struct machine a = counting(10), b = counting(7);
    for (int i = 0; i < 3; i++) {
        run(&a, 5);
        run(&b, 4);
        step(&b);
    }
    calling("10 rounds, by turns with 7");
    want_counted(&a, 10);
    expect_run(&a, 1000, CC100_EXIT_SYSTEM_CALL, 15);
    calling("7 rounds, by turns with 10");
    want_counted(&b, 7);
    expect_run(&b, 1000, CC100_EXIT_SYSTEM_CALL, 6);
    give_back(&a);
    give_back(&b);
}

/* Stores of a run are left in memory, also those before an exit: here past the end of memory. */
static void stores(void)
{
    static const uint32_t program[] = {
        0xACA50000, /*  0: SW 5,0(5) */
        0x1000FFFE, /*  4: BEQ 0,0 to 0 */
        0x24A50004, /*  8: ADDIU 5,5,4 */
    };
    struct machine m = lend(CC100_STATE_LENGTH, MEMORY_LENGTH);
    for (uint32_t i = 0; i < 3; i++)
        put_memory(&m, 4 * i, program[i]);
    put_state(&m, CC100_REGISTER(5), 16);
    for (uint32_t address = 16; address < MEMORY_LENGTH; address += 4)
        want_memory(&m, address, address);
    want_state(&m, CC100_REGISTER(5), MEMORY_LENGTH);
    want_access(&m, MEMORY_LENGTH - 4, 4, 1);
    calling("a loop that stores from 16 to the end of memory");
    expect_run(&m, 1000, CC100_EXIT_STORE, 3 * (MEMORY_LENGTH - 16) / 4);
    give_back(&m);
}

static void out_of_memory(void)
{
    struct machine m = lend(CC100_STATE_LENGTH, 18);
    for (uint32_t i = 0; i < 4; i++)
        put_memory(&m, 4 * i, 0);
    want_pc(&m, 16, 20);
    calling("four words that do nothing, and half a word");
    expect_run(&m, 5, CC100_EXIT_FETCH, 4);
    give_back(&m);
}

void test_run(void)
{
    budgets();
    many_steps();
    for (uint32_t a = 0; a <= 14; a++)
        for (uint32_t b = 0; b <= 14; b++)
            in_two_parts(a, b);
    by_turns();
    stores();
    out_of_memory();
}

/* The access that a step and a run carry, by hand: addresses at their edges, runs of several accesses, and what an exit leaves of them. */
#include <inttypes.h>

#include "test.h"

#define MEMORY_LENGTH 64
#define NONE {0, 0, 0}

/* One step with register 5 and the LL word; the word is at 16. */
struct place {
    const char *name;
    uint32_t word, r5, ll;
    struct access access;
};

static const struct place places[] = {
    {"LW 7,0(5)", 0x8CA70000, 0, 0, {0, 4, 0}},
    {"LW 7,0(5), its own word", 0x8CA70000, 16, 0, {16, 4, 0}},
    {"LW 7,-4(5)", 0x8CA7FFFC, 64, 0, {60, 4, 0}},
    {"LW 7,8(5), past 2^32", 0x8CA70008, 0xFFFFFFFC, 0, {4, 4, 0}},
    {"LW 7,-32768(5)", 0x8CA78000, 0x8000 + 40, 0, {40, 4, 0}},
    {"LW 7,32767(5)", 0x8CA77FFF, 0xFFFF8001 + 40, 0, {40, 4, 0}},
    {"LW 5,0(5)", 0x8CA50000, 40, 0, {40, 4, 0}},
    {"LW 0,0(5)", 0x8CA00000, 40, 0, {40, 4, 0}},
    {"LB 7,0(5)", 0x80A70000, 63, 0, {63, 1, 0}},
    {"LBU 7,0(5)", 0x90A70000, 1, 0, {1, 1, 0}},
    {"LH 7,0(5)", 0x84A70000, 62, 0, {62, 2, 0}},
    {"LHU 7,0(5)", 0x94A70000, 2, 0, {2, 2, 0}},
    {"LL 7,0(5)", 0xC0A70000, 60, 1, {60, 4, 0}},
    {"LL 0,0(5)", 0xC0A00000, 0, 0, {0, 4, 0}},
    {"SB 6,0(5)", 0xA0A60000, 0, 0, {0, 1, 1}},
    {"SB 6,0(5)", 0xA0A60000, 63, 0, {63, 1, 1}},
    {"SH 6,0(5)", 0xA4A60000, 62, 0, {62, 2, 1}},
    {"SW 6,0(5)", 0xACA60000, 60, 0, {60, 4, 1}},
    {"SW 6,0(5), its own word", 0xACA60000, 16, 0, {16, 4, 1}},
    {"SC 6,0(5)", 0xE0A60000, 0, 1, {0, 4, 1}},
    {"SC 5,0(5)", 0xE0A50000, 60, 1, {60, 4, 1}},
    {"SC 0,0(5)", 0xE0A00000, 60, 1, {60, 4, 1}},
    {"SC 6,0(5), LL word 0", 0xE0A60000, 60, 0, NONE},
    {"ADDIU 6,5,4", 0x24A60004, 60, 1, NONE},
    {"SYNC", 0x0000000F, 60, 1, NONE},
};

/* Nothing is said here of what is left: test_step.c does that. */
static void each_place(void)
{
    for (size_t i = 0; i < sizeof places / sizeof places[0]; i++)
        for (int by_run = 0; by_run < 2; by_run++) {
            struct machine m = lend(CC100_STATE_LENGTH, MEMORY_LENGTH);
            put_pc(&m, 16);
            put_memory(&m, 16, places[i].word);
            put_state(&m, CC100_REGISTER(5), places[i].r5);
            put_state(&m, CC100_LL, places[i].ll);
            calling("%s, register 5 0x%" PRIX32, places[i].name, places[i].r5);
            if (by_run)
                expect_ran_access(places[i].access, run(&m, 1));
            else
                expect_stepped_access(places[i].access, step(&m));
            give_back(&m);
        }
}

/* Seven steps and an exit, with the access of each. */
static const struct {
    uint32_t word;
    struct access access;
} program[] = {
    {0x8C070020, {32, 4, 0}}, /*  0: LW 7,32(0) */
    {0xA0070025, {37, 1, 1}}, /*  4: SB 7,37(0) */
    {0x00E74021, NONE},       /*  8: ADDU 8,7,7 */
    {0xE0090028, NONE},       /* 12: SC 9,40(0), which does not store */
    {0xC009002C, {44, 4, 0}}, /* 16: LL 9,44(0) */
    {0xE0090030, {48, 4, 1}}, /* 20: SC 9,48(0), which does */
    {0x00000000, NONE},       /* 24: SLL 0,0,0 */
    {0x0000000C, NONE},       /* 28: SYSCALL 0 */
};
#define STEPS 7u

static struct machine at_start(void)
{
    struct machine m = lend(CC100_STATE_LENGTH, MEMORY_LENGTH);
    for (uint32_t i = 0; i <= STEPS; i++)
        put_memory(&m, 4 * i, program[i].word);
    return m;
}

/* The last access among the steps from one to before another. */
static struct access last_access(uint32_t from, uint32_t to)
{
    struct access last = NONE;
    for (uint32_t i = from; i < to; i++)
        if (program[i].access.width)
            last = program[i].access;
    return last;
}

static uint32_t least(uint32_t a, uint32_t b) { return a < b ? a : b; }

/* A run that begins after so many steps: what went before it, in a run or in single steps, is not in its answer. */
static void run_from(struct machine *m, uint32_t from, uint32_t budget)
{
    uint32_t end = least(from + budget, STEPS);
    cc100_ran ran = run(m, budget);
    expect_number("number of cc100_run", from + budget > STEPS ? CC100_EXIT_SYSTEM_CALL : CC100_DONE, ran.number);
    expect_number("steps of cc100_run", end - from, ran.steps);
    expect_ran_access(last_access(from, end), ran);
}

static void in_two_runs(uint32_t a, uint32_t b)
{
    struct machine m = at_start();
    calling("budgets %" PRIu32 " and %" PRIu32, a, b);
    run_from(&m, 0, a);
    run_from(&m, least(a, STEPS), b);
    give_back(&m);
}

static void steps_and_a_run(uint32_t a, uint32_t b)
{
    struct machine m = at_start();
    calling("%" PRIu32 " steps and a budget of %" PRIu32, a, b);
    for (uint32_t i = 0; i < a; i++)
        expect_stepped_access(program[least(i, STEPS)].access, step(&m));
    run_from(&m, least(a, STEPS), b);
    give_back(&m);
}

/* A store to 36, and then a word that ends in an exit: its step carries nothing, and the run carries the store. */
static void failing(const char *name, uint32_t word, uint32_t ll, uint32_t number)
{
    struct machine m = lend(CC100_STATE_LENGTH, MEMORY_LENGTH);
    put_memory(&m, 0, 0xA4060024); /* SH 6,36(0) */
    put_memory(&m, 4, word);
    put_state(&m, CC100_LL, ll);
    calling("SH 6,36(0) and %s, LL word %" PRIu32, name, ll);
    cc100_ran ran = run(&m, 10);
    expect_number("number of cc100_run", number, ran.number);
    expect_number("steps of cc100_run", 1, ran.steps);
    expect_ran_access((struct access){36, 2, 1}, ran);
    cc100_stepped stepped = step(&m);
    expect_number("number of cc100_step", number, stepped.number);
    expect_stepped_access((struct access)NONE, stepped);
    ran = run(&m, 10);
    expect_number("number of the second cc100_run", number, ran.number);
    expect_ran_access((struct access)NONE, ran);
    give_back(&m);
}

static const struct {
    const char *name;
    uint32_t word, number;
} failures[] = {
    {"LB 7,64(0)", 0x80070040, CC100_EXIT_LOAD}, {"LBU 7,-1(0)", 0x9007FFFF, CC100_EXIT_LOAD}, {"LH 7,1(0)", 0x84070001, CC100_EXIT_LOAD},
    {"LH 7,64(0)", 0x84070040, CC100_EXIT_LOAD}, {"LHU 7,63(0)", 0x9407003F, CC100_EXIT_LOAD}, {"LW 7,2(0)", 0x8C070002, CC100_EXIT_LOAD},
    {"LW 7,64(0)", 0x8C070040, CC100_EXIT_LOAD}, {"LL 7,1(0)", 0xC0070001, CC100_EXIT_LOAD}, {"LL 7,64(0)", 0xC0070040, CC100_EXIT_LOAD},
    {"SB 7,64(0)", 0xA0070040, CC100_EXIT_STORE}, {"SH 7,1(0)", 0xA4070001, CC100_EXIT_STORE}, {"SH 7,64(0)", 0xA4070040, CC100_EXIT_STORE},
    {"SW 7,2(0)", 0xAC070002, CC100_EXIT_STORE}, {"SW 7,-4(0)", 0xAC07FFFC, CC100_EXIT_STORE}, {"SC 7,2(0)", 0xE0070002, CC100_EXIT_STORE},
    {"SC 7,64(0)", 0xE0070040, CC100_EXIT_STORE}, {"SYSCALL 0", 0x0000000C, CC100_EXIT_SYSTEM_CALL},
    {"BREAK 0", 0x0000000D, CC100_EXIT_BREAKPOINT}, {"TEQ 0,0", 0x00000034, CC100_EXIT_TRAP},
    {"0xFFFFFFFF", 0xFFFFFFFF, CC100_EXIT_NO_INSTRUCTION},
};

void test_accesses(void)
{
    each_place();
    for (uint32_t a = 0; a <= STEPS + 2; a++)
        for (uint32_t b = 0; b <= STEPS + 2; b++) {
            in_two_runs(a, b);
            steps_and_a_run(a, b);
        }
    for (size_t i = 0; i < sizeof failures / sizeof failures[0]; i++)
        for (uint32_t ll = 0; ll < 2; ll++)
            failing(failures[i].name, failures[i].word, ll, failures[i].number);
}

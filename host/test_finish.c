/* Straight-through modules finish: runs and single steps up to the first exit, at and beside the most steps that there can be. */
#include <inttypes.h>

#include "test.h"

static struct module m;

/* The module, placed in memory of the usual length and started. */
static struct machine started(void)
{
    struct machine x = lend(CC100_STATE_LENGTH, usual.memory_length);
    for (uint32_t i = 0; i < m.layout.code_size / 4; i++)
        put_memory(&x, usual.code_base + 4 * i, m.words[i]);
    start_module(&x, m.layout.code_size);
    return x;
}

/* A run that leaves no word out: each step has added 1 to register 9, and they lead to the word of their number. */
static void expect_steps(uint32_t budget, uint32_t steps, uint32_t number)
{
    struct machine x = started();
    uint32_t pc = usual.code_base + 4 * steps, r9 = cc100_get_word(x.state.bytes + CC100_REGISTER(9));
    calling("%" PRIu32 " words with a budget of %" PRIu32, m.layout.code_size / 4, budget);
    want_state(&x, CC100_REGISTER(9), r9 + steps);
    want_pc(&x, pc, pc + 4);
    expect_run(&x, budget, number, steps);
    give_back(&x);
}

/* ADDIU 9,9,1 in every word, up to the last bundle. */
static void make_counting(uint32_t size)
{
    struct layout l = usual;
    l.code_size = size;
    make_straight(&m, l);
    for (uint32_t i = 0; i < size / 4 - 4; i++)
        m.words[i] = word_of(ADDIU, 9, 9, 0, 1);
}

/* Every size: the bound is met exactly. */
static void longest(void)
{
    for (uint32_t size = 16; size <= 65536; size *= 2) {
        uint32_t most = size / 4 - 4;
        make_counting(size);
        calling("a straight-through module of %" PRIu32 " bytes", size);
        expect_straight(&m, CC100_DONE, CC100_NO_PLACE);
        expect_steps(most + 1, most, CC100_EXIT_SYSTEM_CALL);
        expect_steps(UINT32_MAX, most, CC100_EXIT_SYSTEM_CALL);
        expect_steps(most, most, CC100_DONE);
        if (most > 0)
            expect_steps(most - 1, most - 1, CC100_DONE);
    }
}

/* One call more than the steps that there can be: the last one is the exit, and so is every one after it. */
static void single_steps(void)
{
    for (uint32_t size = 16; size <= 256; size *= 2) {
        uint32_t most = size / 4 - 4;
        make_counting(size);
        struct machine x = started();
        uint32_t r9 = cc100_get_word(x.state.bytes + CC100_REGISTER(9));
        for (uint32_t i = 0; i < most + 3; i++) {
            uint32_t pc = usual.code_base + 4 * (i < most ? i + 1 : most);
            calling("%" PRIu32 " words, call %" PRIu32 " of cc100_step", size / 4, i);
            want_pc(&x, pc, pc + 4);
            want_state(&x, CC100_REGISTER(9), r9 + (i < most ? i + 1 : most));
            expect_step(&x, i < most ? CC100_DONE : CC100_EXIT_SYSTEM_CALL);
        }
        give_back(&x);
    }
}

/* Sixteen words with a word changed, or two: the steps that come before the first exit, the ADDIU among them, and where it is. */
struct run_case {
    const char *name;
    uint32_t at, word, other_at, other_word, steps, counted, number, exit_at;
};

static const struct run_case cases[] = {
    {"BEQ two words ahead", 1, 0x10000001, 0, 0x25290001, 12, 11, CC100_EXIT_SYSTEM_CALL, 12},
    {"BEQ to the last bundle", 1, 0x1000000A, 0, 0x25290001, 3, 2, CC100_EXIT_SYSTEM_CALL, 12},
    {"BNE 0,0, which is not taken", 1, 0x1400000A, 0, 0x25290001, 12, 11, CC100_EXIT_SYSTEM_CALL, 12},
    {"J to the last bundle just two words ahead", 10, 0x0800400C, 0, 0x25290001, 12, 11, CC100_EXIT_SYSTEM_CALL, 12},
    {"J over four words", 0, 0x08004006, 1, 0x25290001, 8, 7, CC100_EXIT_SYSTEM_CALL, 12},
    {"Trap", 5, 0x00000034, 0, 0x25290001, 5, 5, CC100_EXIT_TRAP, 5},
    {"Trap in a slot", 4, 0x08004008, 5, 0x00000034, 5, 4, CC100_EXIT_TRAP, 5},
    {"BREAK 7", 0, 0x000001CD, 1, 0x25290001, 0, 0, CC100_EXIT_BREAKPOINT, 0},
    {"SYSCALL 3", 11, 0x000000CC, 0, 0x25290001, 11, 11, CC100_EXIT_SYSTEM_CALL, 11},
    {"LUI 7,0x7FFF and ADD 7,7,7", 6, 0x3C077FFF, 7, 0x00E73820, 7, 6, CC100_EXIT_INTEGER_OVERFLOW, 7},
};

/* What the changed words themselves leave is wanted as it came. An exit in a slot has the branch's target as its next PC. */
static void try_case(const struct run_case *c, uint32_t budget)
{
    static const uint32_t left[] = {CC100_REGISTER(7), CC100_REGISTER(31), CC100_NEXT_PC};
    struct machine x = started();
    uint32_t r9 = cc100_get_word(x.state.bytes + CC100_REGISTER(9));
    calling("%s, budget %" PRIu32, c->name, budget);
    cc100_ran ran = run(&x, budget);
    expect_number("number of cc100_run", c->number, ran.number);
    expect_number("steps of cc100_run", c->steps, ran.steps);
    want_as_came(&x, left, sizeof left / sizeof left[0]);
    want_state(&x, CC100_PC, usual.code_base + 4 * c->exit_at);
    want_state(&x, CC100_REGISTER(9), r9 + c->counted);
    expect_left(&x);
    give_back(&x);
}

static void each_case(void)
{
    for (size_t i = 0; i < sizeof cases / sizeof cases[0]; i++) {
        make_counting(64);
        m.words[cases[i].at] = cases[i].word;
        m.words[cases[i].other_at] = cases[i].other_word;
        calling("%s", cases[i].name);
        expect_straight(&m, CC100_DONE, CC100_NO_PLACE);
        try_case(&cases[i], cases[i].steps + 1);
        try_case(&cases[i], 13);
        try_case(&cases[i], UINT32_MAX);
    }
}

/* Resumed in its last bundle, the module comes back to the same SYSCALL after the zero word, J and its slot. */
static void resumed(void)
{
    make_counting(16);
    struct machine x = started();
    calling("a resume in the last bundle");
    expect_run(&x, 1, CC100_EXIT_SYSTEM_CALL, 0);
    want_resumed(&x);
    expect_resume(&x, CC100_DONE);
    want_pc(&x, usual.code_base, usual.code_base + 4);
    expect_run(&x, 10, CC100_EXIT_SYSTEM_CALL, 3);
    give_back(&x);
}

void test_finish(void)
{
    longest();
    single_steps();
    each_case();
    resumed();
}

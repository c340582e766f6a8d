/* Random machine code in random states, run by all three with random budgets, and resumed where it exits. */
#include <string.h>

#include "harness.h"

#define MACHINES 300000
#define RUNS 6 /* of one machine, at most */
#define LONGEST 256
#define LEAST_ENDED 100
#define LEAST_STEPS 1000000
#define LEAST_BY_ZERO 2000

static struct machine emulator, product, plain, again;
static unsigned long machines, runs, steps, resumes, not_resumed, ended[CC100_EXIT_STOP_CORES + 1];
static unsigned long by_zero[KINDS + 1]; /* completed divisions by zero; kind 0 is all other steps */
static struct handed_on handed_on;

/* Mostly a legal word. Its constant is often small, so that accesses, branches and jumps stay in memory, and code 15 is not rare. */
static uint32_t random_word(size_t length)
{
    static const uint32_t small[] = {0, 1, 2, 3, 4, 8, 12, 16, 0xFFFC, 0xFFF8};
    if (below(40) == 0)
        return next_random();
    uint32_t kind = 1 + below(KINDS), word = random_word_of(kind), mask = drawings[kind - 1].value;
    if (mask == INDEX)
        return drawings[kind - 1].fixed | below((uint32_t)length / 4 + 1);
    if (mask == CODE)
        return drawings[kind - 1].fixed | below(20) << 6;
    if (mask == CONSTANT && below(4) != 0)
        return (word & ~CONSTANT) | PICK(small);
    return word;
}

static void random_machine(void)
{
    size_t length = below(4) ? 64 + 4 * below(49) : below(LONGEST + 1);
    set_length(&emulator.memory, length);
    fill_random(&emulator.memory);
    for (uint32_t address = 0; address + 4 <= length; address += 4)
        set_memory(&emulator, address, random_word(length));
    random_state(&emulator);
    /* a bit off in any word: mostly another lawful state, sometimes one that 17 refuses */
    if (below(16) == 0) {
        uint32_t place = 4 * below(41);
        set_state(&emulator, place, state_word(&emulator, place) ^ 1u << below(32));
    }
    copy_machine(&product, &emulator);
}

/* Takes the steps that a run completed again, one by one from where it began. Gives whether the last of them had an access itself. */
static int take_again(uint32_t completed)
{
    struct em_access access = {0, 0, 0};
    for (uint32_t i = 0; i < completed; i++) {
        by_zero[division_by_zero(&again)]++;
        em_step(again.state.bytes, again.state.length, again.memory.bytes, again.memory.length, &access);
    }
    return access.width != 0;
}

/* A run and a resume. Gives whether the machine can go on. */
static int run_and_resume(void)
{
    uint32_t budget = below(8) ? below(64) : below(4096), completed = 0;
    struct em_access access;
    copy_machine(&plain, &emulator);
    copy_machine(&again, &emulator);
    uint32_t number = compare_run(&emulator, &product, budget, &completed, &access);
    compare_plain_run(&plain, &emulator, budget, number, completed);
    count_handed_on(&handed_on, number, completed, access, take_again(completed));
    runs++;
    steps += completed;
    if (number <= CC100_EXIT_STOP_CORES)
        ended[number]++;
    uint32_t answer = compare_resume(&emulator, &product);
    resumes += answer == CC100_DONE;
    not_resumed += answer == CC100_REFUSED_RESUME;
    return number == CC100_DONE || answer == CC100_DONE;
}

static void require_counts(void)
{
    now.name = "exit";
    for (now.word = CC100_EXIT_INTEGER_OVERFLOW; now.word <= CC100_EXIT_STOP_CORES; now.word++)
        at_least("runs that end in it", LEAST_ENDED, ended[now.word]);
    at_least("runs still running", LEAST_ENDED, ended[CC100_DONE]);
    at_least("runs refused", LEAST_ENDED, ended[CC100_REFUSED_STATE]);
    at_least("resumes given", LEAST_ENDED, resumes);
    at_least("resumes refused", LEAST_ENDED, not_resumed);
    at_least("steps", LEAST_STEPS, steps);
    require_divisions(by_zero, LEAST_BY_ZERO);
    require_handed_on(&handed_on, LEAST_ENDED);
}

void test_runs(void)
{
    begin_part("runs");
    emulator = machine_for(LONGEST);
    product = machine_for(LONGEST);
    plain = machine_for(LONGEST);
    again = machine_for(LONGEST);
    now.name = "machine";
    for (machines = 0; machines < (uint64_t)MACHINES * rounds; machines++) {
        now.turn = machines;
        random_machine();
        for (int run = 0; run < RUNS && run_and_resume();)
            now.word = (uint32_t)++run;
    }
    require_counts();
    end_part("%lu machines, %lu runs of %lu steps, %lu still running; exits 40 to 52:%s; resumes %lu given, %lu refused; runs without an access "
             "%lu, with one before an exit %lu, with one before the last step %lu; DIV by zero %lu, DIVU %lu", machines, runs, steps, ended[0],
             listed(ended, 40, 52), resumes, not_resumed, handed_on.none, handed_on.before_exit, handed_on.earlier, by_zero[DIV],
             by_zero[DIVU]);
}

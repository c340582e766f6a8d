/* States and memories that are refused, by step, run and resume alike, with nothing changed; and budget 0. */
#include "harness.h"

#define MEMORY 64
#define RANDOM_STATES 100000
#define LEAST_REFUSED 20000

static unsigned long calls, given[20];

static void count_call(uint32_t number)
{
    calls++;
    if (number < COUNT(given))
        given[number]++;
}

/* All calls, each on what the one before it left; a refusal must leave everything. */
static void try_calls(struct machine *emulator, struct machine *product, uint32_t budget)
{
    uint32_t steps;
    struct em_access access;
    copy_machine(product, emulator);
    now.turn++;
    count_call(compare_run(emulator, product, 0, &steps, &access));
    count_call(compare_resume(emulator, product));
    count_call(compare_step(emulator, product, &access));
    count_call(compare_run(emulator, product, budget, &steps, &access));
}

/* A lawful state, mostly at a SYSCALL, which a resume is given for. */
static void lawful(struct machine *m)
{
    set_length(&m->state, CC100_STATE_LENGTH);
    random_state(m);
    set_state(m, CC100_PC, 16);
    set_memory(m, 16, below(4) ? word_of(SYSCALL, 0, 0, 0, 0) : 0);
}

static void lengths(struct machine *emulator, struct machine *product)
{
    for (uint32_t length = 0; length <= MOST_STATE; length++) {
        now.name = "state length";
        now.word = length;
        lawful(emulator);
        set_length(&emulator->state, length);
        try_calls(emulator, product, 3);
    }
}

/* Every bit of every word that can make a state unlawful, by itself and with what else is there. */
static void bits(struct machine *emulator, struct machine *product)
{
    static const uint32_t places[] = {CC100_REGISTER(0), CC100_PC, CC100_NEXT_PC, CC100_LL, CC100_STATUS};
    for (uint32_t i = 0; i < 32 * COUNT(places); i++) {
        now.name = "state word";
        now.word = places[i / 32];
        lawful(emulator);
        set_state(emulator, now.word, state_word(emulator, now.word) ^ 1u << i % 32);
        try_calls(emulator, product, 3);
    }
}

/* A bit off in any two words: lawful or not. */
static void random_damage(struct machine *emulator, struct machine *product)
{
    for (uint64_t i = 0; i < (uint64_t)RANDOM_STATES * rounds; i++) {
        lawful(emulator);
        now.name = "state word";
        now.word = 4 * below(41);
        set_state(emulator, now.word, state_word(emulator, now.word) ^ 1u << below(32));
        set_state(emulator, CC100_STATUS, state_word(emulator, CC100_STATUS) ^ (below(4) ? 0 : 1u << below(32)));
        try_calls(emulator, product, below(3));
    }
}

/* A memory that is too long is refused first, whatever the state is. The longest that is allowed is not refused. */
static void memory_too_long(void)
{
    struct machine emulator = machine_for(CC100_LONGEST_MEMORY + 1), product = machine_for(CC100_LONGEST_MEMORY + 1);
    for (uint32_t i = 0; i < 4; i++) {
        now.name = "memory length";
        now.word = CC100_LONGEST_MEMORY + (i < 3);
        set_length(&emulator.memory, now.word);
        lawful(&emulator);
        set_state(&emulator, CC100_PC, 16 + (i == 1));
        set_length(&emulator.state, i == 2 ? 0 : CC100_STATE_LENGTH);
        try_calls(&emulator, &product, 1);
    }
    same_number("refusals of a long memory", 12, given[CC100_REFUSED_MEMORY]);
    give_back(&emulator);
    give_back(&product);
}

void test_states(void)
{
    begin_part("states");
    struct machine emulator = machine_for(MEMORY), product = machine_for(MEMORY);
    fill_random(&emulator.memory);
    lengths(&emulator, &product);
    bits(&emulator, &product);
    random_damage(&emulator, &product);
    give_back(&emulator);
    give_back(&product);
    memory_too_long();
    at_least("calls that are not refused", LEAST_REFUSED, given[CC100_DONE]);
    at_least("states refused", LEAST_REFUSED, given[CC100_REFUSED_STATE]);
    at_least("resumes refused", LEAST_REFUSED, given[CC100_REFUSED_RESUME]);
    end_part("%lu calls, %lu refused by 1, %lu by 17, %lu by 19", calls, given[1], given[17], given[19]);
}

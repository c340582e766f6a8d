/* Runs a compiled C program on the product and compares every figure with what the same C gives natively: program FILE, with figures.words.
   The words have no guards, so that the checker would refuse them: this tests the machine, not the checker.

   The second emulator runs the first tables as well, and must then have the same last access, and the same state and memory in every byte. */
#include <inttypes.h>
#include <stdio.h>
#include <string.h>

#include "../emulator/emulator.h"
#include "cc100.h"
#include "test.h"

#define TABLES 4000u
#define TABLES_OF_BOTH 40u
#define BUDGET 1000000u /* far more than a table takes */
#define LEAST_LEFT_OUT 10000u

struct machine {
    uint8_t state[CC100_STATE_LENGTH], memory[MEMORY];
};

static uint64_t steps_taken, left_out;

/* Gives how many of the code's words are none of the 72 instructions. */
static unsigned unread_words(const struct program *p)
{
    unsigned unread = 0;
    for (uint32_t at = START; at < p->code_end; at += 4) {
        uint32_t word = cc100_get_word(p->memory + at);
        if (cc100_read(word).kind != 0)
            continue;
        printf("DIFFERS the word 0x%08" PRIx32 " at 0x%" PRIx32 " is no instruction\n", word, at);
        unread++;
    }
    return unread;
}

static void start(struct machine *m, const struct program *p, const struct input *in)
{
    memset(m->state, 0, sizeof m->state);
    cc100_set_word(m->state + CC100_PC, START);
    cc100_set_word(m->state + CC100_NEXT_PC, START + 4);
    cc100_set_word(m->state + CC100_STATUS, CC100_STATUS_USER);
    place_input(m->memory, p, in);
}

/* Runs to the end in slices that grow, so that runs stop and go on at many places. Gives the number at the end, and the last access of all
   slices. */
static uint32_t run_in_slices(struct machine *m, uint32_t slice, struct em_access *last)
{
    cc100_ran ran = {CC100_DONE, 0, 0, 0, 0};
    uint32_t steps = 0;
    *last = (struct em_access){0, 0, 0};
    while (ran.number == CC100_DONE && steps < BUDGET) {
        ran = cc100_run(m->state, sizeof m->state, m->memory, sizeof m->memory, slice);
        steps += ran.steps;
        slice += slice / 2 + 1;
        if (ran.width != 0)
            *last = (struct em_access){ran.address, ran.width, ran.store};
    }
    steps_taken += steps;
    return ran.number;
}

static bool same_access(struct em_access a, struct em_access b) { return a.address == b.address && a.width == b.width && a.store == b.store; }

/* The second emulator in one run. Gives 1 where it ends otherwise. */
static unsigned run_both(const struct machine *product, struct em_access last, const struct program *p, const struct input *in, uint32_t number)
{
    static struct machine second;
    uint32_t steps;
    struct em_access access;
    start(&second, p, in);
    uint32_t end = em_run(second.state, sizeof second.state, second.memory, sizeof second.memory, BUDGET, &steps, &access);
    if (end == CC100_EXIT_SYSTEM_CALL && same_access(last, access) && memcmp(product, &second, sizeof second) == 0)
        return 0;
    printf("DIFFERS second emulator, table %" PRIu32 ": number %" PRIu32 ", or another access, state or memory\n", number, end);
    return 1;
}

static unsigned run_table(const struct program *p, uint32_t number, uint32_t *seed)
{
    static struct input in;
    static struct output native;
    static struct machine m;
    make_table(number, seed, &in);
    native_figures(&in, &native);
    left_out += native.left_out;
    start(&m, p, &in);
    struct em_access last;
    uint32_t end = run_in_slices(&m, 1 + number % 1000, &last);
    unsigned different = compare_figures("product", number, &native, m.memory);
    if (end != CC100_EXIT_SYSTEM_CALL) {
        printf("DIFFERS product, table %" PRIu32 ": ends with %" PRIu32 "\n", number, end);
        different++;
    }
    if (number <= TABLES_OF_BOTH)
        different += run_both(&m, last, p, &in, number);
    if (number == 0)
        print_figures(&in, &native);
    return different;
}

int main(int count, char **arguments)
{
    static struct program p;
    uint32_t seed = SEED;
    if (count != 2) {
        fprintf(stderr, "usage: program FILE\n");
        return 2;
    }
    if (!load_program(&p, arguments[1]))
        return 2;
    unsigned different = unread_words(&p);
    for (uint32_t number = 0; number <= TABLES; number++)
        different += run_table(&p, number, &seed);
    if (left_out < LEAST_LEFT_OUT) {
        printf("DIFFERS only %" PRIu64 " averages are left out\n", left_out);
        different++;
    }
    printf("program: %" PRIu32 " words, %u tables, %lu figures, %" PRIu64 " steps, %" PRIu64 " averages left out, %u differ\n",
           (p.code_end - START) / 4, TABLES + 1, figures_compared(), steps_taken, left_out, different);
    return different != 0;
}

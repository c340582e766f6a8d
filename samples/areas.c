/* A server that has three modules in one memory, each in areas of its own that the keeper gives:

       cc -O2 -o areas samples/areas.c -lcc100 && ./areas

   from the folder in which samples/ is. The modules were assembled for code at 0x10000. Each is linked to the place that it is given: its
   direct jumps are moved. Then it is placed, started, which checks it for that place, and run; and at the end its areas are handed back. */
#include <inttypes.h>
#include <stdio.h>
#include <stdlib.h>
#include <string.h>

#include "cc100.h"

#define ASSEMBLED_FOR 0x10000u
#define DATA_SIZE 64u
#define BUDGET 1000u

/* The kinds of the instructions that hold addresses, by their numbers in docs/INSTRUCTIONS.md. */
#define J 18u
#define JAL 19u

struct module {
    const char *path;
    const int32_t *table;   /* the words of its data when it starts, or NULL */
    const int32_t *figures; /* what it is given when it asks, or NULL */
    uint32_t figure_count, code_size, code, data;
    uint8_t image[65536];
};

/* The keeper's record, zeros at first, and the memory that it is the record of. */
static uint8_t record[CC100_RECORD_LENGTH], memory[CC100_KEEPER_MEMORY];

/* Rows of quantity, cost, price and margin, which the modules write. */
static const int32_t table[DATA_SIZE / 4] = {240, 835, 1250, 0, 96, 1180, 980, 0, 500, 3420, 4999, 0, 1200, 207, 315, 0};
static const int32_t figures[] = {1250, 980, 4999};

static void fail(const struct module *m, const char *what, uint32_t number)
{
    printf("%s: %s, number %" PRIu32 "\n", m->path, what, number);
    exit(1);
}

static void read_module(struct module *m)
{
    FILE *file = fopen(m->path, "rb");
    if (!file) {
        perror(m->path);
        exit(1);
    }
    m->code_size = (uint32_t)fread(m->image, 1, sizeof m->image, file);
    fclose(file);
}

static uint32_t area(const struct module *m, uint32_t size)
{
    cc100_allocated a = cc100_allocate(record, sizeof record, size);
    if (a.number != CC100_DONE)
        fail(m, "no area", a.number);
    return a.base;
}

/* Moves the targets of J and JAL from the place for which the module was assembled to its own. Branches count from where they are. */
static void link_module(struct module *m)
{
    for (uint32_t at = 0; at < m->code_size; at += 4) {
        cc100_instruction i = cc100_read(cc100_get_word(m->image + at));
        if (i.kind != J && i.kind != JAL)
            continue;
        cc100_written w = cc100_write(i.kind, 0, 0, 0, 0, i.value - ASSEMBLED_FOR / 4 + m->code / 4);
        if (w.number != CC100_DONE)
            fail(m, "a jump cannot be linked", w.number);
        cc100_set_word(m->image + at, w.word);
    }
}

static void place(const struct module *m)
{
    memcpy(memory + m->code, m->image, m->code_size);
    for (uint32_t i = 0; i < DATA_SIZE / 4; i++)
        cc100_set_word(memory + m->data + 4 * i, m->table ? (uint32_t)m->table[i] : 0);
    printf("%s: %" PRIu32 " bytes of code at 0x%08" PRIx32 ", %u of data at 0x%08" PRIx32 "\n", m->path, m->code_size, m->code, DATA_SIZE, m->data);
}

/* The start checks the module for its place, and that it stands there. */
static void start(const struct module *m, uint8_t *state)
{
    memset(state, 0, CC100_STATE_LENGTH);
    cc100_set_word(state + CC100_REGISTER(26), m->data);
    cc100_set_word(state + CC100_REGISTER(27), m->code);
    cc100_verdict v = cc100_start(m->code, m->code_size, m->data, DATA_SIZE, m->image, m->code_size, state, CC100_STATE_LENGTH, memory,
                                  sizeof memory);
    if (v.number != CC100_DONE)
        fail(m, "refused", v.number);
}

/* Gives whether there is one more, and the module goes on. */
static int give_figure(const struct module *m, uint8_t *state, uint32_t given)
{
    if (given == m->figure_count)
        return 0;
    cc100_set_word(state + CC100_REGISTER(8), 4 * given);
    cc100_set_word(state + CC100_REGISTER(9), (uint32_t)m->figures[given]);
    return cc100_resume(state, CC100_STATE_LENGTH, memory, sizeof memory) == CC100_DONE;
}

/* A module that works on a table has the total in register 8 when its report is complete, which it says by a System Call. */
static void print_report(const struct module *m, const uint8_t *state, uint32_t number, uint32_t steps)
{
    printf("%s: number %" PRIu32 " after %" PRIu32 " steps", m->path, number, steps);
    if (m->table)
        printf(", total %" PRId32, (int32_t)cc100_get_word(state + CC100_REGISTER(8)));
    printf("\n   ");
    for (uint32_t i = 0; i < DATA_SIZE / 4; i++)
        printf(" %" PRId32, (int32_t)cc100_get_word(memory + m->data + 4 * i));
    printf("\n");
}

static void run(struct module *m)
{
    uint8_t state[CC100_STATE_LENGTH];
    uint32_t steps = 0, given = 0;
    cc100_ran ran;
    start(m, state);
    do {
        ran = cc100_run(state, sizeof state, memory, sizeof memory, BUDGET);
        steps += ran.steps;
    } while (ran.number == CC100_EXIT_SYSTEM_CALL && give_figure(m, state, given++));
    print_report(m, state, ran.number, steps);
}

static void take_back(struct module *m)
{
    uint32_t number = cc100_release(record, sizeof record, m->code, m->code_size);
    if (number == CC100_DONE)
        number = cc100_release(record, sizeof record, m->data, DATA_SIZE);
    if (number != CC100_DONE)
        fail(m, "an area is not taken back", number);
}

/* There is one for each area out. */
static void print_record(void)
{
    uint32_t out = 0;
    for (uint32_t i = 0; i < sizeof record; i++)
        out += record[i] != 0;
    printf("bytes of the record that are not 0: %" PRIu32 "\n", out);
}

static struct module modules[] = {
    {.path = "samples/m.module", .figures = figures, .figure_count = 3},
    {.path = "samples/margin.module", .table = table},
    {.path = "samples/totals.module", .table = table},
};

static void prepare(struct module *m)
{
    read_module(m);
    m->code = area(m, m->code_size);
    m->data = area(m, DATA_SIZE);
    link_module(m);
    place(m);
}

static void for_each(void (*work)(struct module *m))
{
    for (size_t i = 0; i < sizeof modules / sizeof modules[0]; i++)
        work(&modules[i]);
}

int main(void)
{
    for_each(prepare);
    print_record();
    for_each(run);
    for_each(take_back);
    print_record();
    return 0;
}

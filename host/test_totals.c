/* samples/totals.module beside the same calculation in 64-bit C: tables at the limits, and random ones from a fixed seed. It is a
   straight-through module, and takes no more steps than such a one may. */
#include "test.h"

#define MODULE "samples/totals.module"
#define WORDS 128u
#define MOST_STEPS (WORDS - 4)
#define TABLES 5000
#define COMPLETE (usual.code_base + 4 * MOST_STEPS) /* where the last bundle starts */
#define TOTAL 8u

/* What the module works with. All else in the state is wanted as it was. */
static const uint32_t worked[] = {
    CC100_REGISTER(2), CC100_REGISTER(6), CC100_REGISTER(7), CC100_REGISTER(TOTAL), CC100_REGISTER(10), CC100_REGISTER(12),
    CC100_REGISTER(13), CC100_REGISTER(14), CC100_HI, CC100_LO, CC100_PC, CC100_NEXT_PC,
};

/* Gives the exit at the first number that does not fit, or CC100_DONE. The margin is wanted in its row, unless the row is left out. */
static uint32_t add_row(struct machine *m, int64_t *total, const struct row *row, uint32_t place)
{
    int64_t difference = row->price - row->cost;
    if (row->quantity == 0)
        return CC100_DONE;
    if (!fits(difference))
        return CC100_EXIT_INTEGER_OVERFLOW;
    if (!fits(difference * row->quantity))
        return CC100_EXIT_TRAP;
    want_memory(m, usual.data_base + place + 12, (uint32_t)(difference * row->quantity));
    *total += difference * row->quantity;
    return fits(*total) ? CC100_DONE : CC100_EXIT_INTEGER_OVERFLOW;
}

static uint32_t calculate(struct machine *m, int64_t *total, const struct row *rows)
{
    uint32_t number = CC100_DONE;
    for (uint32_t i = 0; i < ROWS && number == CC100_DONE; i++)
        number = add_row(m, total, &rows[i], ROW_LENGTH * i);
    return number == CC100_DONE ? CC100_EXIT_SYSTEM_CALL : number;
}

/* Gives the number that the run must end in: with a budget of one step more than a straight-through module can complete, it ends. */
static uint32_t expect_report(struct machine *m, const struct row *rows)
{
    int64_t total = 0;
    start_module(m, 4 * WORDS);
    put_rows(m, rows);
    uint32_t number = calculate(m, &total, rows);
    cc100_ran ran = run(m, MOST_STEPS + 1);
    expect_number("number of cc100_run", number, ran.number);
    expect_number("steps are not too many", 1, ran.steps <= MOST_STEPS);
    want_as_came(m, worked, sizeof worked / sizeof worked[0]);
    if (number == CC100_EXIT_SYSTEM_CALL) {
        want_state(m, CC100_REGISTER(TOTAL), (uint32_t)total);
        want_pc(m, COMPLETE, COMPLETE + 4);
    }
    expect_left(m);
    return number;
}

/* Tables of two rows: numbers at the limits, and a row that is left out, whatever is in it. */
static void limits(struct machine *m)
{
    static const struct row tables[][2] = {
        {{0, 0, 0}, {0, INT32_MIN, INT32_MAX}}, {{1, 0, INT32_MAX}, {0, 0, 0}}, {{1, 0, INT32_MAX}, {1, 0, 1}},
        {{1, 0, INT32_MIN}, {0, 0, 0}}, {{1, 0, INT32_MIN}, {1, 1, 0}}, {{-1, 0, INT32_MIN}, {1, 0, 1}}, {{1, 1, INT32_MIN}, {1, 0, 1}},
        {{1, -1, INT32_MAX}, {1, 0, 1}}, {{INT32_MIN, 0, 1}, {1, 0, 1}}, {{INT32_MIN, 0, -1}, {0, 0, 0}}, {{65536, 0, 32768}, {0, 0, 0}},
        {{65536, 0, -32768}, {0, 0, 0}}, {{65536, 1, -32768}, {0, 0, 0}}, {{INT32_MAX, INT32_MAX, INT32_MAX}, {3, 7, 5}},
    };
    for (size_t i = 0; i < sizeof tables / sizeof tables[0]; i++) {
        struct row rows[ROWS] = {tables[i][0], tables[i][1]};
        calling(MODULE ", limits, table %zu", i);
        expect_report(m, rows);
    }
}

/* One quantity in eight is 0. */
static void random_tables(struct machine *m)
{
    uint32_t met[CC100_EXIT_TRAP + 1] = {0};
    for (int i = 0; i < TABLES; i++) {
        struct row rows[ROWS];
        random_rows(rows);
        for (uint32_t r = 0; r < ROWS; r++)
            rows[r].quantity = next_random() % 8 ? rows[r].quantity : 0;
        calling(MODULE ", random table %d", i);
        met[expect_report(m, rows)]++;
    }
    calling(MODULE ", random tables");
    expect_number("a report is often complete", 1, met[CC100_EXIT_SYSTEM_CALL] >= TABLES / 10);
    expect_number("Integer Overflow is often met", 1, met[CC100_EXIT_INTEGER_OVERFLOW] >= TABLES / 100);
    expect_number("Trap is often met", 1, met[CC100_EXIT_TRAP] >= TABLES / 10);
}

void test_totals(void)
{
    struct machine m = lend(CC100_STATE_LENGTH, usual.memory_length);
    uint32_t length = place_sample(&m, MODULE);
    cc100_verdict v = cc100_check_straight(usual.memory_length, usual.code_base, length, usual.data_base, usual.data_size,
                                           m.memory.bytes + usual.code_base, length);
    calling(MODULE);
    expect_number("words", WORDS, length / 4);
    expect_number("number of cc100_check_straight", CC100_DONE, v.number);
    expect_number("place of cc100_check_straight", CC100_NO_PLACE, v.place);
    limits(&m);
    random_tables(&m);
    give_back(&m);
}

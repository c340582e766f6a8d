/* samples/margin.module beside the same calculation in 64-bit C: tables at the limits, and random ones from a fixed seed. */
#include "test.h"

#define MODULE "samples/margin.module"
#define CODE_SIZE 256u
#define TABLES 5000
#define BUDGET 1000u /* steps; a whole report takes 334 */
#define COMPLETE 0x0000004Cu /* SYSCALL 1 */
#define TOTAL 8u             /* the registers of the report's figures */
#define RATE 9u

struct report {
    int64_t total, sales, rate;
};

/* Gives the exit at the first number that does not fit, or CC100_DONE. The margin is wanted in its row. */
static uint32_t add_row(struct machine *m, struct report *r, const struct row *row, uint32_t place)
{
    int64_t difference = row->price - row->cost, sale = row->price * row->quantity;
    if (!fits(difference))
        return CC100_EXIT_INTEGER_OVERFLOW;
    int64_t margin = difference * row->quantity;
    if (!fits(margin))
        return CC100_EXIT_TRAP;
    want_memory(m, usual.data_base + place + 12, (uint32_t)margin);
    r->total += margin;
    if (!fits(r->total))
        return CC100_EXIT_INTEGER_OVERFLOW;
    if (!fits(sale))
        return CC100_EXIT_TRAP;
    r->sales += sale;
    return fits(r->sales) ? CC100_DONE : CC100_EXIT_INTEGER_OVERFLOW;
}

/* The module has the rate with 0, 1, 2, 3 and 4 digits after its whole part, and goes on to the next from ten times the rate and ten times
   the remainder. Gives the exit, as above. */
static uint32_t divide(struct report *r)
{
    if (r->sales == 0)
        return CC100_EXIT_TRAP;
    for (int64_t scale = 1; scale < 10000; scale *= 10) {
        if (!fits(r->total * scale / r->sales * 10) || !fits(r->total * scale % r->sales * 10))
            return CC100_EXIT_TRAP;
        if (!fits(r->total * scale * 10 / r->sales))
            return CC100_EXIT_INTEGER_OVERFLOW;
    }
    r->rate = r->total * 10000 / r->sales;
    return CC100_DONE;
}

static uint32_t calculate(struct machine *m, struct report *r, const struct row *rows)
{
    uint32_t number = CC100_DONE;
    for (uint32_t i = 0; i < ROWS && number == CC100_DONE; i++)
        number = add_row(m, r, &rows[i], ROW_LENGTH * i);
    if (number == CC100_DONE)
        number = divide(r);
    return number == CC100_DONE ? CC100_EXIT_SYSTEM_CALL : number;
}

/* What the module works with. All else in the state is wanted as it was. */
static const uint32_t worked[] = {
    CC100_REGISTER(2), CC100_REGISTER(4), CC100_REGISTER(5), CC100_REGISTER(6), CC100_REGISTER(7), CC100_REGISTER(TOTAL),
    CC100_REGISTER(RATE), CC100_REGISTER(10), CC100_REGISTER(12), CC100_REGISTER(13), CC100_REGISTER(14), CC100_REGISTER(15),
    CC100_REGISTER(16), CC100_REGISTER(17), CC100_REGISTER(31), CC100_HI, CC100_LO, CC100_PC, CC100_NEXT_PC,
};

/* The module stands at its first word, or goes there. Gives the number that its run must end in. */
static uint32_t expect_report(struct machine *m, const struct row *rows)
{
    struct report r = {0, 0, 0};
    put_rows(m, rows);
    uint32_t number = calculate(m, &r, rows);
    cc100_ran ran = run(m, BUDGET);
    expect_number("number of cc100_run", number, ran.number);
    expect_number("an access is carried", 1, ran.width > 0);
    expect_number("its first byte is in the data", 1, ran.address >= usual.data_base);
    expect_number("its last byte is in the data", 1, ran.address + ran.width <= usual.data_base + usual.data_size);
    want_as_came(m, worked, sizeof worked / sizeof worked[0]);
    if (number == CC100_EXIT_SYSTEM_CALL) {
        want_state(m, CC100_REGISTER(TOTAL), (uint32_t)r.total);
        want_state(m, CC100_REGISTER(RATE), (uint32_t)r.rate);
        expect_number("word at the exit", COMPLETE, cc100_get_word(m->memory.bytes + cc100_get_word(m->state.bytes + CC100_PC)));
    }
    expect_left(m);
    return number;
}

/* Tables of one row: numbers at the limits, and quotients that do not fit. */
static void limits(struct machine *m)
{
    static const struct row first[] = {
        {0, 0, 0}, {1, 5, 5}, {1, 0, INT32_MAX}, {1, 0, INT32_MIN}, {-1, 0, INT32_MIN}, {INT32_MIN, 0, 1}, {INT32_MIN, 0, -1},
        {1, 1, INT32_MIN}, {1, -1, INT32_MAX}, {INT32_MAX, INT32_MAX, INT32_MAX}, {INT32_MIN, INT32_MIN, INT32_MIN}, {65536, 0, 32768},
        {65536, 0, -32768}, {1, INT32_MAX, -1}, {1, -INT32_MAX, 1}, {1, 21474837, 1}, {1, -214747, 1}, {1, -214748, 1}, {1, 214749, 1},
        {1, -1073741819, 5}, {1, -1073736824, 5000}, {1, 2040118967, 9500}, {1, 2040118966, 9500}, {1, 5, 1073741824},
        {1, 107374182, 214748364}, {1, 214748364, 429496729}, {1, 214748365, 429496730}, {-3, 1, 3}, {3, 7, 5},
    };
    for (size_t i = 0; i < sizeof first / sizeof first[0]; i++) {
        struct row rows[ROWS] = {first[i]};
        calling(MODULE ", limits, table %zu", i);
        start_module(m, CODE_SIZE);
        expect_report(m, rows);
    }
}

/* A report that is complete is sometimes followed by another one, after a resume. */
static void random_tables(struct machine *m)
{
    uint32_t number = CC100_DONE, met[CC100_EXIT_TRAP + 1] = {0};
    for (int i = 0; i < TABLES; i++) {
        struct row rows[ROWS];
        random_rows(rows);
        calling(MODULE ", random table %d", i);
        if (number == CC100_EXIT_SYSTEM_CALL && next_random() % 2) {
            want_resumed(m);
            expect_resume(m, CC100_DONE);
        } else {
            start_module(m, CODE_SIZE);
        }
        number = expect_report(m, rows);
        met[number]++;
    }
    calling(MODULE ", random tables");
    expect_number("a report is often complete", 1, met[CC100_EXIT_SYSTEM_CALL] >= TABLES / 10);
    expect_number("Integer Overflow is often met", 1, met[CC100_EXIT_INTEGER_OVERFLOW] >= TABLES / 100);
    expect_number("Trap is often met", 1, met[CC100_EXIT_TRAP] >= TABLES / 10);
}

void test_margin(void)
{
    struct machine m = lend(CC100_STATE_LENGTH, usual.memory_length);
    uint32_t length = place_sample(&m, MODULE);
    cc100_verdict v = cc100_check_placed(usual.code_base, length, usual.data_base, usual.data_size, m.memory.bytes, m.memory.length);
    calling(MODULE);
    expect_number("bytes of code", CODE_SIZE, length);
    expect_number("number of cc100_check_placed", CC100_DONE, v.number);
    expect_number("place of cc100_check_placed", CC100_NO_PLACE, v.place);
    limits(&m);
    random_tables(&m);
    give_back(&m);
}

/* The inputs: a fixed table of rows, and random ones from a seed. */
#include <string.h>

#include "test.h"

static const struct tier TIERS_FIXED[GROUPS][TIERS] = {
    {{0, 0, 0}, {100000, 150, 0}, {1000000, 275, 0}, {10000000, 400, 0}},
    {{0, 0, 0}, {50000, 1250, 0}, {200000, 1875, 0}, {500000, 3333, 0}},
    {{0, 50, 0}, {1, 75, 0}, {999, 100, 0}, {1000, 10000, 0}},
    {{0xFFFFFFFF, 1, 0}, {0xFFFFFFFF, 2, 0}, {0xFFFFFFFF, 3, 0}, {0xFFFFFFFF, 4, 0}},
};

/* Price, quantity, unit, change, group, kind. Some amounts lie on a tier, beside one, or half way between two cents. */
static const struct row ROWS_FIXED[] = {
    {1250, 12, 1, 0, 0, SALE, 0},
    {999, 101, 1, 0, 0, SALE, 0},
    {4999, 2000, 1, 0, 0, SALE, 0},
    {500000, 2000, 7, 100, 0, SALE, 0},
    {333, 2500, 100, 0, 1, SALE, 0},
    {15000, 40, 1, -15, 1, SALE, 0},
    {15000, -4, 1, -15, 1, SALE, 0},
    {1, 1, 2, 0, 1, SALE, 0},
    {1, -1, 2, 0, 1, SALE, 0},
    {2147483, 1000, 1000, 0, 1, CREDIT, 0},
    {1000, 1, 1, 0, 2, SALE, 0},
    {998, 1, 1, 0, 2, SALE, 0},
    {7777, 3, 1, 5, 3, CREDIT, 0},
    {500000, -30, 1, 100, 3, SALE, 0},
};

/* Balance, bookings, turnover, pieces. Some counts are 0; some divisions by others have LO or HI as a zero divisor gives it, but not both. */
static const struct totals TOTALS_FIXED[] = {
    {123456789, 1234, 4000000000, 4321},
    {0, 0, 0, 0},
    {5, 0, 5, 0},
    {-5, 0, 0xFFFFFFFF, 0},
    {INT32_MIN, 0, 0x80000000, 0},
    {0, 5, 0, 5},
    {-5, 5, 0xFFFFFFFF, 1},
    {1, -1, 0x80000000, 0xFFFFFFFF},
    {INT32_MIN, -1, 0x80000000, 1},
    {-3, 2, 3, 2},
    {-1, 2, 1, 2},
    {-7, 2, 0xFFFFFFFE, 0xFFFFFFFF},
    {7, -2, 0xFFFFFFFF, 0xFFFFFFFF},
    {INT32_MAX, INT32_MIN, 0x7FFFFFFF, 0x80000000},
};
_Static_assert(sizeof TOTALS_FIXED / sizeof *TOTALS_FIXED == sizeof ROWS_FIXED / sizeof *ROWS_FIXED, "each row has its totals");

static uint32_t next_random(uint32_t *seed)
{
    *seed ^= *seed << 13;
    *seed ^= *seed >> 17;
    *seed ^= *seed << 5;
    return *seed;
}

/* A number from 0 to below a limit. */
static uint32_t below(uint32_t *seed, uint32_t limit)
{
    return (next_random(seed) >> 8) % limit;
}

/* Prices are high or quantities are, but not both, so that no sum leaves 32 bits. */
static void random_row(uint32_t *seed, struct row *r)
{
    static const uint16_t UNITS[] = {1, 1, 1, 10, 100, 1000, 7, 65535};
    static const struct {
        uint32_t price, quantity;
    } MOST[] = {{500000, 60}, {1000, 30000}};
    uint32_t which = below(seed, 2);
    r->price = below(seed, MOST[which].price + 1);
    r->quantity = (int16_t)(below(seed, 2 * MOST[which].quantity + 1) - MOST[which].quantity);
    r->unit = UNITS[below(seed, 8)];
    r->change = (int8_t)(below(seed, 201) - 100);
    r->group = (uint8_t)below(seed, GROUPS);
    r->kind = below(seed, 8) == 0 ? CREDIT : SALE;
}

/* Of any size and sign. */
static uint32_t random_amount(uint32_t *seed)
{
    uint32_t size = next_random(seed);
    size >>= below(seed, 32);
    return below(seed, 2) ? size : 0u - size;
}

/* One count in four is 0. */
static uint32_t random_count(uint32_t *seed)
{
    return below(seed, 4) ? random_amount(seed) : 0;
}

static void random_totals(uint32_t *seed, struct totals *t)
{
    t->balance = (int32_t)random_amount(seed);
    t->bookings = (int32_t)random_count(seed);
    t->turnover = random_amount(seed);
    t->pieces = random_count(seed);
}

static void random_tiers(uint32_t *seed, struct tier *tiers)
{
    uint32_t from = 0;
    for (int i = 0; i < TIERS; i++) {
        tiers[i].from = from;
        tiers[i].rebate = (uint16_t)below(seed, 10001);
        from += below(seed, 2) ? below(seed, 1000) : below(seed, 10000000);
    }
}

static void random_rows(uint32_t *seed, struct input *in)
{
    in->rows = below(seed, ROWS + 1);
    for (uint32_t i = 0; i < in->rows; i++) {
        random_row(seed, &in->row[i]);
        random_totals(seed, &in->totals[i]);
    }
}

static void random_text(uint32_t *seed, struct input *in)
{
    in->text_length = below(seed, TEXT + 1);
    for (uint32_t i = 0; i < in->text_length; i++)
        in->text[i] = (uint8_t)below(seed, 256);
}

static void fixed_table(struct input *in)
{
    static const char TEXT_FIXED[] = "123456789"; /* its CRC-32 is published: cbf43926 */
    memcpy(in->tiers, TIERS_FIXED, sizeof TIERS_FIXED);
    memcpy(in->row, ROWS_FIXED, sizeof ROWS_FIXED);
    memcpy(in->totals, TOTALS_FIXED, sizeof TOTALS_FIXED);
    in->rows = sizeof ROWS_FIXED / sizeof *ROWS_FIXED;
    memcpy(in->text, TEXT_FIXED, sizeof TEXT_FIXED - 1);
    in->text_length = sizeof TEXT_FIXED - 1;
}

void make_table(uint32_t number, uint32_t *seed, struct input *in)
{
    memset(in, 0, sizeof *in);
    if (number == 0) {
        fixed_table(in);
        return;
    }
    for (int group = 0; group < GROUPS; group++)
        random_tiers(seed, in->tiers[group]);
    random_rows(seed, in);
    random_text(seed, in);
}

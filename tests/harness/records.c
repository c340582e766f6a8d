/* Records of the keeper of areas: sound ones of every style, and ways to damage them by one byte. */
#include <string.h>

#include "areas.h"

#define TRIES 200 /* at random places, until one is as it has to be */

uint32_t sixteens(uint32_t power) { return 1u << (power - SMALLEST_POWER); }

const struct style styles[STYLES] = {
    {"empty", 0, 16, 16, 0},
    {"a few small", 5, 4, 8, 0},
    {"a few large", 30, 12, 16, 0},
    {"a few of all sizes", 20, 4, 16, 0},
    {"many of all sizes", 80, 4, 16, 0},
    {"many small", 95, 4, 5, 0},
    {"many large", 95, 13, 16, 0},
    {"full of all sizes", 100, 4, 16, 0},
    {"full of the smallest", 100, 4, 4, 0},
    {"full of the largest", 100, 16, 16, 0},
    {"full of all sizes but for a gap", 100, 4, 16, 1},
    {"full of the smallest but for a gap", 100, 4, 4, 1},
    {"full of large ones but for a gap", 100, 14, 16, 1},
};

static int fits(uint32_t at, uint32_t power) { return at % sixteens(power) == 0; }

void make_record(uint8_t *record, const struct style *s)
{
    memset(record, 0, CC100_RECORD_LENGTH);
    for (uint32_t at = 0, power; at < CC100_RECORD_LENGTH; at += sixteens(power)) {
        power = s->smallest + below(s->largest - s->smallest + 1);
        while (!fits(at, power))
            power--;
        if (below(100) < s->out)
            record[at] = (uint8_t)power;
    }
    if (s->gap)
        record[any_area(record)] = 0;
}

/* The first one from a random place on, and from the beginning where there is none to the end. */
uint32_t any_area(const uint8_t *record)
{
    uint32_t start = below(CC100_RECORD_LENGTH), i = 0;
    while (i < CC100_RECORD_LENGTH && record[(start + i) % CC100_RECORD_LENGTH] == 0)
        i++;
    return i < CC100_RECORD_LENGTH ? (start + i) % CC100_RECORD_LENGTH : NOWHERE;
}

/* Whether a sixteen is in an area out of a sound record. That area begins at the multiple of its size before the sixteen, or at it. */
static int covered(const uint8_t *record, uint32_t at)
{
    uint32_t power = SMALLEST_POWER;
    while (power <= LARGEST_POWER && record[at - at % sixteens(power)] < power)
        power++;
    return power <= LARGEST_POWER;
}

int is_free(const uint8_t *record, uint32_t from, uint32_t to)
{
    while (from < to && !covered(record, from))
        from++;
    return from == to;
}

static int put(uint8_t *record, uint32_t at, uint32_t byte)
{
    record[at] = (uint8_t)byte;
    return 1;
}

static uint32_t any_sixteen(void) { return below(CC100_RECORD_LENGTH); }
static uint32_t any_power(uint32_t least) { return least + below(LARGEST_POWER - least + 1); }

/* At an area out, or at any sixteen. */
static uint32_t any_place(const uint8_t *record)
{
    uint32_t area = below(2) ? any_area(record) : NOWHERE;
    return area == NOWHERE ? any_sixteen() : area;
}

static int too_small(uint8_t *record) { return put(record, any_place(record), 1 + below(SMALLEST_POWER - 1)); }

static int too_large(uint8_t *record)
{
    static const uint32_t powers[] = {17, 17, 18, 20, 32, 63, 64, 128, 200, 255};
    return put(record, any_place(record), PICK(powers));
}

/* 65,536 times 2: at the first sixteen even the base would be right. */
static int too_large_by_one(uint8_t *record) { return put(record, 2 * sixteens(LARGEST_POWER) * below(8), LARGEST_POWER + 1); }

/* Where it breaks the base rule alone: inside the memory and overlapping nothing. */
static int wrong_base(uint8_t *record)
{
    for (int i = 0; i < TRIES; i++) {
        uint32_t power = any_power(SMALLEST_POWER + 1), at = any_sixteen(), end = at + sixteens(power);
        if (!fits(at, power) && end <= CC100_RECORD_LENGTH && is_free(record, at, end))
            return put(record, at, power);
    }
    return 0;
}

/* An area in one that begins before it, in any place of that but the first. */
static int inside_another(uint8_t *record)
{
    for (int i = 0; i < TRIES; i++) {
        uint32_t outer = any_area(record), power = SMALLEST_POWER;
        if (outer == NOWHERE || record[outer] == SMALLEST_POWER)
            continue;
        power += below(record[outer] - SMALLEST_POWER);
        return put(record, outer + sixteens(power) * (1 + below(sixteens(record[outer]) / sixteens(power) - 1)), power);
    }
    return 0;
}

/* The same, in the last sixteen of the other one. */
static int inside_another_at_its_end(uint8_t *record)
{
    uint32_t outer = any_area(record);
    return outer != NOWHERE && record[outer] > SMALLEST_POWER && put(record, outer + sixteens(record[outer]) - 1, SMALLEST_POWER);
}

/* A larger area, begun in a free sixteen, that one out begins inside of. */
static int around_another(uint8_t *record)
{
    for (int i = 0; i < TRIES; i++) {
        uint32_t inner = any_area(record), power = any_power(SMALLEST_POWER + 1);
        uint32_t at = inner == NOWHERE ? NOWHERE : inner - inner % sixteens(power);
        if (inner != NOWHERE && at != inner && !covered(record, at))
            return put(record, at, power);
    }
    return 0;
}

/* An area out made larger, so that the next one begins inside of it. */
static int grown_over_the_next(uint8_t *record)
{
    for (int i = 0; i < TRIES; i++) {
        uint32_t at = any_area(record);
        if (at == NOWHERE || record[at] == LARGEST_POWER || !fits(at, record[at] + 1u))
            continue;
        if (!is_free(record, at + sixteens(record[at]), at + sixteens(record[at] + 1u)))
            return put(record, at, record[at] + 1u);
    }
    return 0;
}

/* The area begins inside the memory and ends past it. */
static int past_the_end(uint8_t *record)
{
    uint32_t power = any_power(SMALLEST_POWER + 1);
    return put(record, CC100_RECORD_LENGTH - 1 - below(sixteens(power) - 1), power);
}

static int largest_at_the_end(uint8_t *record) { return put(record, CC100_RECORD_LENGTH - 1, LARGEST_POWER); }

const struct damage damages[DAMAGES] = {
    {"k of 1 to 3", too_small},
    {"k of 17 and more", too_large},
    {"k of 17 at a multiple of its size", too_large_by_one},
    {"a base that is no multiple", wrong_base},
    {"an area inside a larger one", inside_another},
    {"an area in the last sixteen of a larger one", inside_another_at_its_end},
    {"an area around another", around_another},
    {"an area grown over the next", grown_over_the_next},
    {"an area past the end of the memory", past_the_end},
    {"65,536 at the last sixteen", largest_at_the_end},
};

/* Modules with exactly one rule broken, in every way that the tables list: the emulator says that no other is, and where. Then modules with
   two broken, of which the one that comes first is named. The same for straight-through modules: one of their own two rules broken, or of the
   three of accesses, and then two of all. */
#include <string.h>

#include "harness.h"

#define NUMBERS 26 /* above every rule's number */
#define MOST_WAYS 300
#define LEAST_OF_A_RULE 2000
#define WANTED_OF_A_RULE 8000
#define WANTED_OF_A_SLOW_WAY 3
#define TRIES_FOR_ONE 100
#define PAIRS 60000
#define LEAST_OF_A_PAIR 20
#define MOST_MEMORY 262144

static struct module m;

static struct counts {
    unsigned long tried, found[NUMBERS], pairs, both[NUMBERS][NUMBERS], named[NUMBERS][NUMBERS];
} counts;

static const struct way *ways[MOST_WAYS];
static uint32_t way_count;

/* The rules in the order in which two are broken: in it a change undoes few of those before it, as a changed layout gets new words, and a
   changed word new targets. */
static const uint32_t usual_order[] = {2, 3, 4, 5, 6, 7, 8, 9, 10, 11, 12, 22, 25, 13, 14, 16, 15, 1};
static const uint32_t straight_order[] = {2, 3, 4, 5, 6, 7, 8, 9, 10, 11, 12, 22, 25, 13, 14, 16, 15, 21, 20, 1};

static void gather_ways(const struct way *table)
{
    for (const struct way *w = table; w->rule; w++)
        ways[way_count++] = w;
}

/* With the ways of all but accesses. */
static void begin(void)
{
    memset(&counts, 0, sizeof counts);
    way_count = 0;
    gather_ways(layout_ways);
    gather_ways(word_ways);
    gather_ways(jump_ways);
}

/* The ways of a rule that are not slow share what is wanted of it. */
static uint32_t shared_by(uint32_t rule)
{
    uint32_t number = 0;
    for (uint32_t i = 0; i < way_count; i++)
        number += ways[i]->rule == rule && !ways[i]->slow;
    return number;
}

/* Makes a module that the way breaks its rule in, and besides it these rules and no other. Gives whether it did. */
static int make_broken(const struct profile *p, const struct way *w, uint32_t also)
{
    counts.tried++;
    p->make(&m, MOST_MEMORY);
    return w->change(&m, w->detail) && p->broken(&m) == (1u << w->rule | also);
}

/* Some modules have no place for the change, or it happens to break more. Gives how many were broken as meant: the way's rule is named. */
static uint32_t try_way(const struct profile *p, const struct way *w, uint32_t also)
{
    uint32_t wanted = w->slow ? WANTED_OF_A_SLOW_WAY : WANTED_OF_A_RULE / shared_by(w->rule) + 1, least = wanted, came = 0;
    wanted *= w->slow ? 1 : rounds;
    now.name = w->name;
    now.word = w->rule;
    for (uint64_t i = 0; i < (uint64_t)wanted * TRIES_FOR_ONE && came < wanted; i++) {
        now.turn = counts.tried;
        if (make_broken(p, w, also)) {
            came++;
            same_number("number given by the emulator", w->rule, p->compare(&m));
        }
    }
    at_least("modules broken in this way", least, came);
    return came;
}

static void try_ways(const struct profile *p, const struct way *const *tried, uint32_t count)
{
    for (uint32_t i = 0; i < count; i++)
        counts.found[tried[i]->rule] += try_way(p, tried[i], 0);
    now.name = "rule";
    for (uint32_t i = 0; i < count; i++) {
        now.word = tried[i]->rule;
        at_least("modules that break it alone", LEAST_OF_A_RULE, counts.found[now.word]);
    }
}

/* Rules that are broken together, and that are broken beside the one that is named. */
static void count_pairs(uint32_t named, uint32_t broken)
{
    for (uint32_t i = 0; i < NUMBERS * NUMBERS; i++) {
        uint32_t first = i / NUMBERS, second = i % NUMBERS;
        int together = first != second && broken >> first & 1 && broken >> second & 1;
        counts.both[first][second] += (unsigned long)together;
        counts.named[first][second] += (unsigned long)(together && first == named);
    }
}

static const struct way *way_of(uint32_t rule)
{
    const struct way *w;
    do
        w = ways[below(way_count)];
    while (w->rule != rule || w->slow);
    return w;
}

/* No other change is made to data of size 0. */
static void try_two(const struct profile *p, const uint32_t *order, uint32_t rules)
{
    uint32_t earlier = below(rules - 1), later = earlier + 1 + below(rules - 1 - earlier);
    const struct way *first = way_of(order[earlier]), *second = way_of(order[later]);
    now.name = first->name;
    now.word = second->rule;
    p->make(&m, MOST_MEMORY);
    if (!first->change(&m, first->detail) || m.data_size == 0 || !second->change(&m, second->detail))
        return;
    count_pairs(p->compare(&m), p->broken(&m));
    counts.pairs++;
}

static void require_both(const char *what, unsigned long table[NUMBERS][NUMBERS], uint32_t first, uint32_t second)
{
    now.name = "rules";
    now.word = first << 16 | second;
    at_least(what, LEAST_OF_A_PAIR, table[first][second]);
}

static void try_pairs(const struct profile *p, const uint32_t *order, uint32_t rules)
{
    for (now.turn = 0; now.turn < (uint64_t)PAIRS * rounds; now.turn++)
        try_two(p, order, rules);
    for (uint32_t i = 0; i < rules; i++)
        for (uint32_t other = 0; other < i; other++)
            require_both("modules that break both", counts.both, order[i], order[other]);
}

/* Gives how many were broken as meant. */
static unsigned long try_combined(const struct profile *p, const struct combined *table)
{
    unsigned long came = 0;
    for (const struct combined *c = table; c->way.rule; c++)
        came += try_way(p, &c->way, c->also);
    return came;
}

/* 22 and 25 are tried after 1 to 12 where they are broken at one access, and each of 8 to 16 can come before them or after them at another word. */
static void require_order_beside(uint32_t of_access)
{
    const char *what = "modules that break both, named by the first";
    for (uint32_t rule = 1; rule <= 16; rule++) {
        if (rule < 16)
            require_both(what, counts.named, rule, of_access);
        if (rule >= 8)
            require_both(what, counts.named, of_access, rule);
    }
    same_number("modules that break it, named 16", 0, counts.named[16][of_access]);
}

static void require_order_of_accesses(void)
{
    require_order_beside(22);
    require_order_beside(25);
    require_both("modules that break both, named by the first", counts.named, 22, 25);
    require_both("modules that break both, named by the first", counts.named, 25, 22);
}

void test_rules(void)
{
    begin_part("broken modules");
    begin();
    gather_ways(access_ways);
    try_ways(&usual, ways, way_count);
    unsigned long combined = try_combined(&usual, access_combined);
    try_pairs(&usual, usual_order, COUNT(usual_order));
    require_order_of_accesses();
    end_part("%lu tried, in %u ways; those that break one rule alone, 22 %lu, 25 %lu, 1 to 16:%s; more by one change %lu; %lu that break two, 12 "
             "named before 22 %lu and 25 %lu, 22 before 12 %lu and 25 %lu, 25 before 12 %lu and 22 %lu",
             counts.tried, way_count, counts.found[22], counts.found[25], listed(counts.found, 1, 16), combined, counts.pairs,
             counts.named[12][22], counts.named[12][25], counts.named[22][12], counts.named[22][25], counts.named[25][12], counts.named[25][22]);
}

static void require_straight_order_beside(uint32_t of_access)
{
    const char *what = "modules that break both, named by the first";
    require_both(what, counts.named, of_access, 20);
    require_both(what, counts.named, 20, of_access);
    require_both(what, counts.named, of_access, 21);
    same_number("modules that break it, named 21", 0, counts.named[21][of_access]);
}

/* 20 is tried after 8 to 15, 22 and 25 at a word, and before them at the next; then 16, then 21, which is never named beside another. */
static void require_order(void)
{
    const char *what = "modules that break both, named by the first";
    require_straight_order_beside(22);
    require_straight_order_beside(25);
    for (uint32_t rule = 1; rule <= 16; rule++) {
        if (rule < 16)
            require_both(what, counts.named, rule, 20);
        if (rule >= 8)
            require_both(what, counts.named, 20, rule);
        require_both(what, counts.named, rule, 21);
        same_number("modules that break it, named 21", 0, counts.named[21][rule]);
    }
    require_both(what, counts.named, 20, 21);
    same_number("modules that break 20, named 16 or 21", 0, counts.named[16][20] + counts.named[21][20]);
}

void test_rules_straight(void)
{
    begin_part("broken straight-through modules");
    begin();
    uint32_t others = way_count;
    gather_ways(access_ways);
    gather_ways(straight_ways);
    try_ways(&straight, ways + others, way_count - others);
    unsigned long combined = try_combined(&straight, straight_combined) + try_combined(&straight, access_combined);
    try_pairs(&straight, straight_order, COUNT(straight_order));
    require_order();
    end_part("%lu tried, in %u ways; those that break 20 alone %lu, 21 alone %lu, 12 alone %lu, 22 alone %lu, 25 alone %lu, more by one change %lu; "
             "%lu with two changes: 20 named before a later 8 to 15:%s, 15 before 20 %lu, 20 before 16 %lu and 21 %lu, 16 before 21 %lu",
             counts.tried, way_count - others, counts.found[20], counts.found[21], counts.found[12], counts.found[22], counts.found[25], combined,
             counts.pairs, listed(counts.named[20], 8, 15), counts.named[15][20], counts.named[20][16], counts.named[20][21],
             counts.named[16][21]);
}

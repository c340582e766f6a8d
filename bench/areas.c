/* Speed of cc100_allocate and cc100_release, of the same in plain C, byte by byte and over eight bytes at once, and of another archive (BEFORE):
   medians of interleaved rounds on the same records. What a call changes is put back after it, which is one byte. */
#include <stdint.h>
#include <stdio.h>
#include <string.h>

#include "before.h"
#include "plain.h"
#include "timing.h"

#define ROUNDS 41
#define CALLS 50 /* in a round */
#define LENGTH CC100_RECORD_LENGTH
#define SIXTEEN 16u
#define SMALLEST_POWER 4u
#define LARGEST_POWER 16u
#define TYPICAL 80u /* areas given, of which every fourth is handed back */

static const struct contender {
    const char *name;
    plain_allocator *allocate;
    plain_releaser *release;
} contenders[] = {
    {"product", cc100_allocate, cc100_release},
    {"plain C", plain_allocate, plain_release},
    {"by eight", plain_allocate_by_eight, plain_release_by_eight},
#ifdef BEFORE_AREAS
    {"before", before_allocate, before_release},
#endif
};
#define CONTENDERS (sizeof contenders / sizeof contenders[0])

static uint8_t record[LENGTH];

static void empty(void) { memset(record, 0, LENGTH); }

/* Areas of one size, a step from each base to the next. */
static void fill(uint32_t end, uint32_t power, uint32_t step)
{
    empty();
    for (uint32_t base = 0; base < end; base += step)
        record[base / SIXTEEN] = (uint8_t)power;
}

static void every_second(void) { fill(CC100_KEEPER_MEMORY, SMALLEST_POWER, 2 * SIXTEEN); }
static void lower_half(void) { fill(CC100_KEEPER_MEMORY / 2, SMALLEST_POWER, SIXTEEN); }
static void full_of_smallest(void) { fill(CC100_KEEPER_MEMORY, SMALLEST_POWER, SIXTEEN); }
static void full_of_largest(void) { fill(CC100_KEEPER_MEMORY, LARGEST_POWER, 1u << LARGEST_POWER); }

/* Code and data of modules as a server has them, 64 to 16,384 bytes each, some of them gone. */
static void typical(void)
{
    static const uint32_t powers[] = {8, 6, 12, 9, 14, 10, 8, 11, 13, 6, 10, 7};
    uint32_t bases[TYPICAL];
    empty();
    for (uint32_t i = 0; i < TYPICAL; i++)
        bases[i] = plain_allocate(record, LENGTH, 1u << powers[i % 12]).base;
    for (uint32_t i = 0; i < TYPICAL; i += 4)
        plain_release(record, LENGTH, bases[i], 1u << powers[i % 12]);
}

static const struct kind {
    const char *name;
    void (*make)(void);
} kinds[] = {
    {"empty", empty},
    {"16 in every second 16", every_second},
    {"16s in the lower half", lower_half},
    {"full of 16s", full_of_smallest},
    {"full of 65,536s", full_of_largest},
    {"60 areas of modules", typical},
};
#define KINDS (sizeof kinds / sizeof kinds[0])

/* An area that is handed back: the last one out. Of an empty record there is none, and the call is refused. */
struct area {
    uint32_t base, power;
};

static struct area last_area(void)
{
    uint32_t i = LENGTH - 1;
    while (i > 0 && record[i] == 0)
        i--;
    return (struct area){SIXTEEN * i, record[i] ? record[i] : SMALLEST_POWER};
}

/* Each gives the seconds of its calls, and adds up their answers. */
static double time_allocate(const struct contender *c, uint32_t size, uint64_t *sum)
{
    double from = now();
    for (int i = 0; i < CALLS; i++) {
        cc100_allocated a = c->allocate(record, LENGTH, size);
        *sum += 31ull * a.number + a.base;
        if (a.number == CC100_DONE)
            record[a.base / SIXTEEN] = 0;
    }
    return now() - from;
}

static double time_release(const struct contender *c, struct area a, uint64_t *sum)
{
    double from = now();
    for (int i = 0; i < CALLS; i++) {
        uint32_t number = c->release(record, LENGTH, a.base, 1u << a.power);
        *sum += number;
        if (number == CC100_DONE)
            record[a.base / SIXTEEN] = (uint8_t)a.power;
    }
    return now() - from;
}

/* Of the allocations of a size, or where it is 0, of the releases of an area. */
static int compare(uint32_t size, struct area a)
{
    double seconds[CONTENDERS][ROUNDS];
    struct timing timings[CONTENDERS];
    uint64_t sums[CONTENDERS] = {0};
    int wrong = 0;
    for (size_t turn = 0; turn < ROUNDS * CONTENDERS; turn++) {
        size_t i = turn % CONTENDERS;
        const struct contender *c = &contenders[i];
        seconds[i][turn / CONTENDERS] = size ? time_allocate(c, size, &sums[i]) : time_release(c, a, &sums[i]);
    }
    for (size_t i = 0; i < CONTENDERS; i++) {
        timings[i] = (struct timing){contenders[i].name, median(seconds[i], ROUNDS)};
        wrong |= sums[i] != sums[0];
    }
    return report_calls(timings, CONTENDERS, CALLS, wrong);
}

static int compare_kind(const struct kind *k)
{
    static const uint32_t sizes[] = {16, 1024, 65536};
    int wrong = 0;
    k->make();
    struct area last = last_area();
    for (size_t i = 0; i < sizeof sizes / sizeof sizes[0]; i++) {
        printf("allocate %5u, %-21s", (unsigned)sizes[i], k->name);
        wrong |= compare(sizes[i], last);
    }
    printf("release  %5u, %-21s", 1u << last.power, k->name);
    return wrong | compare(0, last);
}

int main(void)
{
    int wrong = 0;
    for (size_t i = 0; i < KINDS; i++)
        wrong |= compare_kind(&kinds[i]);
    return wrong;
}

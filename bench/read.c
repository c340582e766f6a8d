/* Words read per second by cc100_read, by the same in plain C and by another archive (BEFORE): medians of interleaved passes over the same words. */
#include <stdint.h>
#include <stdio.h>

#include "before.h"
#include "plain.h"
#include "timing.h"

#define WORDS 65536
#define PASSES 8
#define ROUNDS 41

typedef struct cc100_instruction reader(uint32_t);

static const struct contender {
    const char *name;
    reader *read;
} contenders[] = {
    {"product", cc100_read},
    {"plain C", plain_read},
#ifdef BEFORE
    {"before", before_read},
#endif
};
#define CONTENDERS (sizeof contenders / sizeof contenders[0])

static uint32_t words[WORDS];
static uint32_t seed = 1;

static uint32_t next_random(void)
{
    seed ^= seed << 13;
    seed ^= seed >> 17;
    seed ^= seed << 5;
    return seed;
}

/* A loop such as a compiler writes: constants, guarded accesses, arithmetic, branches. */
static const uint32_t loop[] = {
    0x3108003C, 0x011A4025, 0xAD090000, 0x0000000C, 0x00000000, 0x08004000, 0x24420001,
    0x8C430004, 0x00431021, 0x14620003, 0x00021080, 0x00430018, 0x00001012, 0x03E00008,
};
#define LOOP (sizeof loop / sizeof loop[0])

static uint64_t pass(reader *read)
{
    uint64_t sum = 0;
    for (int i = 0; i < WORDS; i++) {
        struct cc100_instruction x = read(words[i]);
        sum += x.kind + 3ull * x.rs + 5ull * x.rt + 7ull * x.rd + 11ull * x.shift + 13ull * x.value;
    }
    return sum;
}

static double timed(reader *read, uint64_t *sum)
{
    double from = now();
    for (int i = 0; i < PASSES; i++)
        *sum += pass(read);
    return now() - from;
}

static int compare(const char *name)
{
    double seconds[CONTENDERS][ROUNDS];
    struct timing timings[CONTENDERS];
    uint64_t sums[CONTENDERS] = {0};
    int wrong = 0;
    for (size_t turn = 0; turn < ROUNDS * CONTENDERS; turn++) {
        size_t i = turn % CONTENDERS;
        seconds[i][turn / CONTENDERS] = timed(contenders[i].read, &sums[i]);
    }
    for (size_t i = 0; i < CONTENDERS; i++) {
        timings[i] = (struct timing){contenders[i].name, median(seconds[i], ROUNDS)};
        wrong |= sums[i] != sums[0];
    }
    printf("%-28s", name);
    return report(timings, CONTENDERS, PASSES * WORDS / 1e6, "million words/s", wrong);
}

int main(void)
{
    int wrong = 0;
    for (int i = 0; i < WORDS; i++)
        words[i] = loop[(size_t)i % LOOP];
    wrong |= compare("read, a loop's words");
    for (int i = 0; i < WORDS; i++)
        words[i] = loop[next_random() % LOOP];
    wrong |= compare("read, the same in any order");
    for (int i = 0; i < WORDS; i++)
        words[i] = next_random();
    wrong |= compare("read, random words");
    return wrong;
}

/* Speed of cc100_check and cc100_check_straight, of the same in plain C and of another archive (BEFORE), on accepted modules of the largest and
   of the smallest size: medians of interleaved rounds on the same bytes. */
#include <stdint.h>
#include <stdio.h>

#include "before.h"
#include "modules.h"
#include "plain.h"
#include "timing.h"

#define ROUNDS 41
#define WORK 8388608u /* bytes checked in a round */

struct contender {
    const char *name;
    plain_checker *check;
};

static const struct contender checks[] = {
    {"product", cc100_check},
    {"plain C", plain_check},
#ifdef BEFORE
    {"before", before_check},
#endif
};

static const struct contender straight_checks[] = {
    {"product", cc100_check_straight},
    {"plain C", plain_check_straight},
#ifdef BEFORE_STRAIGHT
    {"before", before_check_straight},
#endif
};
#define COUNT(array) (sizeof array / sizeof array[0])
#define MOST_CONTENDERS 3

/* Checks the module often enough for WORK bytes. What is not accepted counts as wrong. */
static double timed(plain_checker *check, const uint8_t *module, uint32_t length, uint32_t *wrong)
{
    double from = now();
    for (uint32_t i = 0; i < WORK / length; i++) {
        struct cc100_verdict v = check(MEMORY_LENGTH, CODE_BASE, length, DATA_BASE, DATA_SIZE, module, length);
        *wrong += v.number != CC100_DONE || v.place != CC100_NO_PLACE;
    }
    return now() - from;
}

/* What is checked, and its speed in a million of `unit` bytes. */
struct size {
    const char *name, *unit_name;
    uint32_t length, unit;
};

static int compare(const char *what, const struct contender *contenders, size_t count, const uint8_t *module, const struct size *size)
{
    double seconds[MOST_CONTENDERS][ROUNDS];
    struct timing timings[MOST_CONTENDERS];
    uint32_t wrong = 0;
    for (size_t turn = 0; turn < ROUNDS * count; turn++)
        seconds[turn % count][turn / count] = timed(contenders[turn % count].check, module, size->length, &wrong);
    for (size_t i = 0; i < count; i++)
        timings[i] = (struct timing){contenders[i].name, median(seconds[i], ROUNDS)};
    printf("%s, %-25s", what, size->name);
    return report(timings, count, WORK / size->unit / 1e6, size->unit_name, wrong != 0);
}

int main(void)
{
    static const struct size largest = {"a module of 65,536 bytes", "MB/s", LARGEST, 1};
    static const struct size smallest = {"a module of 16 bytes", "million modules/s", SMALLEST, SMALLEST};
    int wrong = 0;
    make_modules();
    wrong |= compare("check", checks, COUNT(checks), large[0], &largest);
    wrong |= compare("check", checks, COUNT(checks), small[0], &smallest);
    wrong |= compare("check_straight", straight_checks, COUNT(straight_checks), large[1], &largest);
    wrong |= compare("check_straight", straight_checks, COUNT(straight_checks), small[1], &smallest);
    return wrong;
}

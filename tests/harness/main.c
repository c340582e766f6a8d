/* The harness: harness [--rounds N] [--seed N], from any folder. */
#include <inttypes.h>
#include <signal.h>
#include <stdarg.h>
#include <stdio.h>
#include <stdlib.h>
#include <string.h>

#include "harness.h"

#define SHOWN 20 /* differences printed; the others are only counted */

uint32_t rounds = 1;
struct now now;

static uint32_t seed = 1;
static uint64_t comparisons, differences;

/* Parts differ in their numbers, so that one is the same whatever those before it draw. */
void begin_part(const char *part)
{
    static uint64_t parts;
    now = (struct now){.part = part, .name = "", .call = ""};
    seed_random((uint64_t)seed << 32 | ++parts);
}

void end_part(const char *format, ...)
{
    va_list values;
    printf("%s: ", now.part);
    va_start(values, format);
    vprintf(format, values);
    va_end(values);
    printf("\n");
    fflush(stdout);
}

const char *listed(const unsigned long *counts, uint32_t first, uint32_t last)
{
    static char text[512];
    size_t length = 0;
    for (uint32_t i = first; i <= last && length < sizeof text; i++)
        length += (size_t)snprintf(text + length, sizeof text - length, " %lu", counts[i]);
    return text;
}

static void print_now(const char *what)
{
    printf("DIFFERENCE in %s, seed %" PRIu32 ", turn %" PRIu64 ", %s 0x%08" PRIx32 ", ", now.part, seed, now.turn, now.name, now.word);
    printf("%s, %s: ", now.call, what);
}

/* Counts a comparison. Gives whether it is to be printed, and then has printed what was called. */
static int differs(int same, const char *what)
{
    comparisons++;
    if (same || ++differences > SHOWN)
        return 0;
    print_now(what);
    return 1;
}

void same_number(const char *what, uint64_t expected, uint64_t came)
{
    if (differs(expected == came, what))
        printf("expected 0x%" PRIx64 ", came 0x%" PRIx64 "\n", expected, came);
}

void at_least(const char *what, uint64_t least, uint64_t came)
{
    now.call = "count";
    if (differs(came >= least, what))
        printf("expected at least %" PRIu64 ", came %" PRIu64 "\n", least, came);
}

static void print_first(const char *what, const uint8_t *expected, const uint8_t *came, long before)
{
    size_t i = 0;
    if (!differs(0, what))
        return;
    while (expected[i] == came[i])
        i++;
    printf("byte %ld expected 0x%02x, came 0x%02x\n", (long)i - before, expected[i], came[i]);
}

void same_bytes(const char *what, const uint8_t *expected, const uint8_t *came, size_t length)
{
    if (memcmp(expected, came, length) == 0)
        comparisons++;
    else
        print_first(what, expected, came, 0);
}

void same_lent(const char *what, const struct lent *expected, const struct lent *came)
{
    if (memcmp(expected->bytes - GUARD, came->bytes - GUARD, expected->length + 2 * GUARD) == 0)
        comparisons++;
    else
        print_first(what, expected->bytes - GUARD, came->bytes - GUARD, GUARD);
}

/* A call touched what the system protects. The calls print nothing, so that printing here interrupts no printing. */
static void touched(int number)
{
    print_now("or the call after it");
    printf("expected an answer, came signal %d\n", number);
    fflush(stdout);
    _Exit(1);
}

static int usage(void)
{
    fprintf(stderr, "usage: harness [--rounds N] [--seed N]\n");
    return 2;
}

/* Whether the option and its number are known; the number is then taken. */
static int take_option(const char *option, const char *text)
{
    char *end;
    unsigned long number = strtoul(text, &end, 10);
    if (*text < '0' || *text > '9' || *end || number > UINT32_MAX)
        return 0;
    if (strcmp(option, "--rounds") == 0 && number > 0)
        rounds = (uint32_t)number;
    else if (strcmp(option, "--seed") == 0)
        seed = (uint32_t)number;
    else
        return 0;
    return 1;
}

int main(int count, char **arguments)
{
    for (int i = 1; i < count; i += 2)
        if (i + 1 == count || !take_option(arguments[i], arguments[i + 1]))
            return usage();
    signal(SIGSEGV, touched);
    signal(SIGBUS, touched);
    signal(SIGFPE, touched);
    test_documents();
    test_words();
    test_steps();
    test_states();
    test_runs();
    test_changed();
    test_rules();
    test_confined();
    test_changed_straight();
    test_rules_straight();
    test_straight();
    test_areas();
    test_starts();
    printf("harness: %" PRIu64 " comparisons, %" PRIu64 " differences\n", comparisons, differences);
    return differences != 0;
}

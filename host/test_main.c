/* Tests of the calls from C and of the verdict program: test VERDICT, from the top folder. */
#include <inttypes.h>
#include <signal.h>
#include <stdarg.h>
#include <stdio.h>
#include <stdlib.h>
#include <string.h>

#include "test.h"

#define SHOWN 50 /* failures printed; the others are only counted */

static char called[512];
static unsigned long checks, failures;

void calling(const char *format, ...)
{
    va_list values;
    va_start(values, format);
    vsnprintf(called, sizeof called, format, values);
    va_end(values);
}

/* Counts a check. Gives whether it is to be printed. */
static int failed(int ok)
{
    checks++;
    failures += !ok;
    return !ok && failures <= SHOWN;
}

void expect_number(const char *what, uint32_t expected, uint32_t came)
{
    if (failed(expected == came))
        printf("FAILED %s: %s: expected %" PRIu32 ", came %" PRIu32 "\n", called, what, expected, came);
}

void expect_text(const char *what, const char *expected, const char *came)
{
    if (failed(strcmp(expected, came) == 0))
        printf("FAILED %s: %s: expected\n%s\ncame\n%s\n", called, what, expected, came);
}

static void expect_bytes(const char *part, const struct lent *l)
{
    const uint8_t *wanted = l->wanted - GUARD, *came = l->bytes - GUARD;
    size_t length = l->length + 2 * GUARD, i = 0;
    if (!failed(memcmp(wanted, came, length) == 0))
        return;
    while (wanted[i] == came[i])
        i++;
    const char *place = i < GUARD || i >= GUARD + l->length ? " (not lent)" : "";
    printf("FAILED %s: %s byte %ld%s: expected 0x%02x, came 0x%02x\n", called, part, (long)i - GUARD, place, wanted[i], came[i]);
}

void expect_left(const struct machine *m)
{
    expect_bytes("state", &m->state);
    expect_bytes("memory", &m->memory);
}

/* A call touched what the system protects. The calls print nothing, so that printing here interrupts no printing. */
static void touched(int number)
{
    printf("FAILED %s: expected an answer, came a touch of memory not lent, or not lent for writing (signal %d)\n", called, number);
    fflush(stdout);
    _Exit(1);
}

int main(int count, char **arguments)
{
    if (count != 2) {
        fprintf(stderr, "usage: test VERDICT\n");
        return 2;
    }
    signal(SIGSEGV, touched);
    signal(SIGBUS, touched);
    test_instructions();
    test_refusals();
    test_exits();
    test_step();
    test_division();
    test_accesses();
    test_run();
    test_resume();
    test_lengths();
    test_pages();
    test_cases();
    test_check();
    test_words();
    test_guards();
    test_straight();
    test_start();
    test_finish();
    test_margin();
    test_totals();
    test_areas();
    test_verdict(arguments[1]);
    printf("host tests: %lu checks, %lu failed\n", checks, failures);
    return failures != 0;
}

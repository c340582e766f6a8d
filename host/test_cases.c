/* The cases of crates/steps, whose answers tests/emulator.py made, through the calls and through plain C. tests/make_steps.py says what a
   case and a line are. */
#include <stdio.h>
#include <stdlib.h>

#include "test.h"

#define CASES "crates/steps/stdin"
#define LINES "crates/steps/stdout"
#define CASE 256
#define LENGTH 164
#define STEPS 168
#define MEMORY 172
#define LONGEST (CASE - MEMORY)
#define LINE 4096

/* A case's machine, which must be left as it is. */
static struct machine machine_of(const uint8_t *bytes)
{
    uint32_t length = cc100_get_word(bytes + LENGTH);
    struct machine m = lend(CC100_STATE_LENGTH, length);
    for (uint32_t i = 0; i < CC100_STATE_LENGTH; i += 4)
        put_state(&m, i, cc100_get_word(bytes + i));
    for (uint32_t i = 0; i < length; i++)
        m.memory.bytes[i] = m.memory.wanted[i] = bytes[MEMORY + i];
    return m;
}

/* Wants what the line says that changed. Gives the line's number. */
static uint32_t want_line(struct machine *m, const char *line)
{
    char *at;
    uint32_t number = (uint32_t)strtoul(line, &at, 10);
    while (*at == ' ') {
        int of_memory = at[1] == 'm';
        uint32_t place = (uint32_t)strtoul(at + 1 + of_memory, &at, 10);
        uint32_t value = (uint32_t)strtoul(at + 1, &at, 16);
        if (of_memory)
            m->memory.wanted[place] = (uint8_t)value;
        else
            want_state(m, 4 * place, value);
    }
    return number;
}

static void resume_case(const uint8_t *bytes, struct machine *reached, uint32_t number)
{
    if (number == CC100_REFUSED_STATE) {
        expect_resume(reached, CC100_REFUSED_STATE);
    } else if (number == CC100_DONE) {
        /* its first step completes, so that there is nothing to resume from at its start */
        struct machine m = machine_of(bytes);
        expect_resume(&m, CC100_REFUSED_RESUME);
        give_back(&m);
    } else {
        if (resumable(number))
            want_resumed(reached);
        expect_resume(reached, resumable(number) ? CC100_DONE : CC100_REFUSED_RESUME);
    }
}

static uint32_t state_word(const struct machine *m, uint32_t place) { return cc100_get_word(m->state.bytes + place); }

/* The access that the step of a lawful state carries if it completes, by plain C's reader. */
static struct access access_of(const struct machine *m)
{
    struct access a = {0, 0, 0};
    uint64_t pc = state_word(m, CC100_PC);
    if (pc + 4 > m->memory.length)
        return a;
    cc100_instruction i = plain_read(cc100_get_word(m->memory.bytes + pc));
    if (access_width(i.kind) == 0 || (i.kind == SC && state_word(m, CC100_LL) == 0))
        return a;
    a.address = state_word(m, CC100_REGISTER(i.rs)) + i.value - (i.value & 0x8000) * 2;
    a.width = (uint32_t)access_width(i.kind);
    a.store = (uint32_t)is_store(i.kind);
    return a;
}

/* Gives the steps completed, and the last access among them. */
static uint32_t step_case(const uint8_t *bytes, const char *line, struct access *last)
{
    struct machine m = machine_of(bytes);
    uint32_t steps = cc100_get_word(bytes + STEPS), done = 0, number = want_line(&m, line);
    cc100_stepped came = {CC100_DONE, 0, 0, 0};
    *last = (struct access){0, 0, 0};
    while (done < steps && came.number == CC100_DONE) {
        struct access a = access_of(&m);
        came = step(&m);
        int completed = came.number == CC100_DONE;
        expect_stepped_access(completed ? a : (struct access){0, 0, 0}, came);
        done += (uint32_t)completed;
        if (completed && a.width)
            *last = a;
    }
    expect_number("number of cc100_step, repeated", number, came.number);
    expect_left(&m);
    give_back(&m);
    return done;
}

static void run_case(const uint8_t *bytes, const char *line, uint32_t done, struct access last)
{
    struct machine m = machine_of(bytes);
    uint32_t number = want_line(&m, line);
    m.access = last;
    expect_run(&m, cc100_get_word(bytes + STEPS), number, done);
    resume_case(bytes, &m, number);
    give_back(&m);
}

/* Plain C, which the random runs and the benchmark compare with, by the same lines. */
static void plain_run_case(const uint8_t *bytes, const char *line, uint32_t done)
{
    struct machine m = machine_of(bytes);
    struct plain_state s = plain_state_of(m.state.bytes);
    uint32_t steps, number = want_line(&m, line);
    expect_number("number of plain_run", number, plain_run(&s, m.memory.bytes, m.memory.length, cc100_get_word(bytes + STEPS), &steps));
    expect_number("steps of plain_run", done, steps);
    plain_state_to(&s, m.state.bytes);
    expect_left(&m);
    give_back(&m);
}

static void plain_step_case(const uint8_t *bytes, const char *line)
{
    struct machine m = machine_of(bytes);
    struct plain_state s = plain_state_of(m.state.bytes);
    uint32_t left = cc100_get_word(bytes + STEPS), came = 0, number = want_line(&m, line);
    while (left-- && came == CC100_DONE)
        came = plain_step(&s, m.memory.bytes, m.memory.length);
    expect_number("number of plain_step, repeated", number, came);
    plain_state_to(&s, m.state.bytes);
    expect_left(&m);
    give_back(&m);
}

static FILE *opened(const char *path)
{
    FILE *f = fopen(path, "rb");
    if (!f) {
        perror(path);
        exit(2);
    }
    return f;
}

void test_cases(void)
{
    FILE *cases = opened(CASES), *lines = opened(LINES);
    uint8_t bytes[CASE];
    char line[LINE];
    uint32_t count = 0;
    while (fread(bytes, 1, CASE, cases) == CASE && fgets(line, LINE, lines)) {
        calling("case %u of %s (from 0)", (unsigned)count++, CASES);
        if (cc100_get_word(bytes + LENGTH) > LONGEST) {
            expect_number("memory longer than a case has room for", 0, 1);
            break;
        }
        struct access last;
        uint32_t done = step_case(bytes, line, &last);
        run_case(bytes, line, done, last);
        plain_run_case(bytes, line, done);
        plain_step_case(bytes, line);
    }
    calling("reading %s and %s", CASES, LINES);
    expect_number("no case was found", 0, count == 0);
    expect_number("cases and lines end together", 1, fgetc(cases) == EOF && fgetc(lines) == EOF);
    fclose(cases);
    fclose(lines);
}

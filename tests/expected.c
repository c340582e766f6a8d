/* Prints what a program of this project must print, by the emulator alone: expected PROGRAM, with the program's input on standard input.
   The formats of input and output are described at the head of each program's main.rt. */
#include <inttypes.h>
#include <stdio.h>
#include <string.h>

#include "emulator.h"

#define INPUT_LENGTH (1u << 22)
#define VECTOR_LENGTH 28
#define CASE_LENGTH 256
#define CASE_MEMORY 84

typedef void program(const uint8_t *input, size_t length);

static uint32_t word_at(const uint8_t *bytes, size_t index)
{
    const uint8_t *b = bytes + 4 * index;
    return b[0] | (uint32_t)b[1] << 8 | (uint32_t)b[2] << 16 | (uint32_t)b[3] << 24;
}

static void print_instruction(struct em_instruction i)
{
    const uint32_t numbers[] = {i.kind, i.rs, i.rt, i.rd, i.shift, i.value};
    for (size_t n = 0; n < sizeof numbers / sizeof *numbers; n++)
        printf(" %" PRIu32, numbers[n]);
}

static void print_read(uint32_t word)
{
    struct em_instruction i = em_read(word);
    printf("read 0x%08" PRIx32 " gives", word);
    print_instruction(i);
    printf("\n");
}

static void print_written(struct em_instruction i)
{
    uint32_t word, number = em_write(i, &word);
    printf("write");
    print_instruction(i);
    printf(" gives %" PRIu32 " 0x%08" PRIx32 "\n", number, word);
}

static void vectors(const uint8_t *input, size_t length)
{
    for (size_t n = 0; n < length / VECTOR_LENGTH; n++) {
        const uint8_t *v = input + n * VECTOR_LENGTH, *fields = v + 8;
        if (word_at(v, 0) == 0)
            print_read(word_at(v, 1));
        else
            print_written((struct em_instruction){word_at(v, 1), word_at(fields, 0), word_at(fields, 1), word_at(fields, 2),
                                                  word_at(fields, 3), word_at(fields, 4)});
    }
}

/* The number of the last step: the steps go on until they are done or one gives a number other than 0. */
static uint32_t take_steps(uint8_t *state, uint8_t *memory, uint32_t length, uint32_t steps)
{
    uint32_t number = 0;
    struct em_access access; /* the program does not print it */
    while (steps-- > 0 && number == 0)
        number = em_step(state, EM_STATE_LENGTH, memory, length, &access);
    return number;
}

static void print_changed_words(const uint8_t *before, const uint8_t *after)
{
    for (size_t n = 0; n < EM_STATE_LENGTH / 4; n++)
        if (word_at(after, n) != word_at(before, n))
            printf(" %zu=%08" PRIx32, n, word_at(after, n));
}

static void print_changed_bytes(const uint8_t *before, const uint8_t *after)
{
    for (size_t n = 0; n < CASE_MEMORY; n++)
        if (after[n] != before[n])
            printf(" m%zu=%02x", n, after[n]);
}

static void steps(const uint8_t *input, size_t length)
{
    for (size_t n = 0; n < length / CASE_LENGTH; n++) {
        uint8_t state[EM_STATE_LENGTH], memory[CASE_MEMORY];
        const uint8_t *c = input + n * CASE_LENGTH, *lent = c + CASE_LENGTH - CASE_MEMORY;
        memcpy(state, c, sizeof state);
        memcpy(memory, lent, sizeof memory);
        printf("%" PRIu32, take_steps(state, memory, word_at(c, 41), word_at(c, 42)));
        print_changed_words(c, state);
        print_changed_bytes(lent, memory);
        printf("\n");
    }
}

static void print_listed(size_t index, uint32_t word)
{
    struct em_instruction i = em_read(word);
    printf("%zu 0x%08" PRIx32 " ", index, word);
    if (i.kind == 0)
        printf("no instruction\n");
    else
        printf("%-8s rs %" PRIu32 " rt %" PRIu32 " rd %" PRIu32 " shift %" PRIu32 " value %" PRIu32 "\n", em_name(i.kind), i.rs, i.rt, i.rd,
               i.shift, i.value);
}

static void listing(const uint8_t *input, size_t length)
{
    for (size_t n = 0; n < length / 4; n++)
        print_listed(n, word_at(input, n));
    if (length % 4 != 0)
        printf("%zu bytes are left over: a word has four\n", length % 4);
}

/* The other numbers of the layout are those of document 01's examples. A module of more than 65,536 bytes breaks rule 2. */
static void verdict(const uint8_t *input, size_t length)
{
    struct em_module m = {196608, 0x10000, (uint32_t)length, 0x20000, 64, input, length};
    em_print_verdict(em_check, &m);
}

static const struct {
    const char *name;
    program *run;
} programs[] = {{"vectors", vectors}, {"steps", steps}, {"listing", listing}, {"verdict", verdict}};

static program *program_named(const char *name)
{
    for (size_t n = 0; n < sizeof programs / sizeof *programs; n++)
        if (strcmp(programs[n].name, name) == 0)
            return programs[n].run;
    return NULL;
}

int main(int count, char **arguments)
{
    static uint8_t input[INPUT_LENGTH];
    program *run = count == 2 ? program_named(arguments[1]) : NULL;
    if (run == NULL) {
        fprintf(stderr, "usage: expected vectors|steps|listing|verdict\n");
        return 2;
    }
    size_t length = fread(input, 1, sizeof input, stdin);
    if (ferror(stdin) || length == sizeof input) {
        fprintf(stderr, "expected: the input cannot be read, or has %u bytes or more\n", INPUT_LENGTH);
        return 2;
    }
    run(input, length);
    return fflush(stdout) == 0 ? 0 : 2;
}

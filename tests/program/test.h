/* What the tests of the program share. */
#ifndef TEST_H
#define TEST_H

#include <stdbool.h>
#include <stddef.h>

#include "figures.h"

/* Where the program stands; program.ld has the same addresses. */
#define MEMORY 0x8000u
#define START 0x1000u
#define INPUT 0x4000u
#define OUTPUT 0x5000u

/* tables.c: the inputs, the fixed one at 0 and then random ones, the same in each run. */
#define SEED 20u
void make_table(uint32_t number, uint32_t *seed, struct input *in);

/* words.c: the program as it stands in memory before its start. */
struct program {
    uint8_t memory[MEMORY];
    uint32_t code_end; /* the code is the words from START up to here */
};
bool load_program(struct program *p, const char *path);
void place_input(uint8_t *memory, const struct program *p, const struct input *in);

/* compare.c: the native figures, and those that a machine left in memory. */
void native_figures(const struct input *in, struct output *out);
unsigned compare_figures(const char *machine, uint32_t number, const struct output *native, const uint8_t *memory);
void print_figures(const struct input *in, const struct output *out);
unsigned long figures_compared(void);

#endif

/* The same work in plain C: the yardstick of the benchmarks. */
#ifndef PLAIN_H
#define PLAIN_H

#include <stddef.h>

#include "cc100.h"

struct cc100_instruction plain_read(uint32_t word);

/* What the checker says of a module, and of one that is to be straight-through: the arguments and the verdict of cc100_check and of
   cc100_check_straight. */
typedef struct cc100_verdict plain_checker(uint64_t memory_length, uint32_t code_base, uint32_t code_size, uint32_t data_base,
                                           uint32_t data_size, const uint8_t *image, size_t image_length);
plain_checker plain_check, plain_check_straight;

/* The start of a module: the arguments and the verdict of cc100_start. */
typedef struct cc100_verdict plain_starter(uint32_t code_base, uint32_t code_size, uint32_t data_base, uint32_t data_size, const uint8_t *image,
                                           size_t image_length, uint8_t *state, size_t state_length, const uint8_t *memory,
                                           size_t memory_length);
plain_starter plain_start;

/* The 41 words of a state, in document 01's order. */
struct plain_state {
    uint32_t r[32], hi, lo, pc, next_pc, ll, bad, status, cause, epc;
};

/* A state from its 164 bytes, and back. */
struct plain_state plain_state_of(const uint8_t *bytes);
void plain_state_to(const struct plain_state *s, uint8_t *bytes);

/* One step. Gives 0, an exit (40 to 52) or a refusal (1 or 17); where it is not 0, state and memory stay as they were. */
uint32_t plain_step(struct plain_state *s, uint8_t *memory, size_t length);

/* Steps until the budget is spent, which gives 0, or until an exit, which gives its number. The steps completed go to *steps.
   A refusal (1 or 17) completes none. */
uint32_t plain_run(struct plain_state *s, uint8_t *memory, size_t length, uint32_t budget, uint32_t *steps);

/* The keeper of areas: the arguments and the answers of cc100_allocate and cc100_release. Those of the second names look at eight bytes of the
   record at once. */
typedef struct cc100_allocated plain_allocator(uint8_t *record, size_t record_length, uint32_t size);
typedef uint32_t plain_releaser(uint8_t *record, size_t record_length, uint32_t base, uint32_t size);
plain_allocator plain_allocate, plain_allocate_by_eight;
plain_releaser plain_release, plain_release_by_eight;

#endif

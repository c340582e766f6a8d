/* The calls of another archive, which the Makefile renames (BEFORE=FILE): timed beside those of this one, in one run. */
#ifndef BEFORE_H
#define BEFORE_H

#include "plain.h"

cc100_instruction before_read(uint32_t word);
plain_checker before_check, before_check_straight; /* the second only in archives from release 1.3 on (BEFORE_STRAIGHT) */
cc100_stepped before_step(uint8_t *state, size_t state_length, uint8_t *memory, size_t memory_length);
cc100_ran before_run(uint8_t *state, size_t state_length, uint8_t *memory, size_t memory_length, uint32_t budget);
plain_starter before_start; /* only in archives from release 1.9 on (BEFORE_START) */
plain_allocator before_allocate; /* these two only in archives from release 1.7 on (BEFORE_AREAS) */
plain_releaser before_release;

#endif

/* The steps of a run: taken many at a time, with a line of progress at a terminal, or one by one, each printed. */
#ifndef STEPS_H
#define STEPS_H

#include "command.h"

/* An access as the calls carry it; width 0 is none. */
struct access {
    uint32_t address, width, store;
};

struct machine {
    uint8_t state[CC100_STATE_LENGTH], *memory;
    size_t memory_length;
    uint32_t data_base;
    uint64_t steps;     /* completed so far */
    struct access last; /* the last access among them */
};

/* Goes on to an exit, or until the budget is spent. Gives the number of the exit, or CC100_DONE. */
uint32_t advance(struct machine *m, const struct options *o);

/* The word at PC, or 0 where there is none. An exit leaves PC at its instruction. */
uint32_t present_word(const struct machine *m);
uint32_t present_address(const struct machine *m);

/* Where in the data area an access is. */
uint32_t place_of(const struct machine *m, struct access a);
/* An access in words, which is not none; and as a member of an object, which follows another. */
void print_access(const struct machine *m, struct access a);
void print_access_member(const struct machine *m, struct access a);

#endif

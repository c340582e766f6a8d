/* What the benchmark of runs shares with the part of it that needs Unicorn. */
#ifndef RUN_H
#define RUN_H

#include "plain.h"
#include "timing.h"

#define MEMORY 192
#define CODE 128 /* bytes; those behind them are data */

#define MOST_CONTENDERS 4
#define NOT_COUNTED 0xFFFFFFFFu

/* What a round leaves. */
struct answer {
    uint32_t number, steps;
    uint8_t state[CC100_STATE_LENGTH], memory[MEMORY];
};

/* Takes steps on memory up to the first exit, from the state in the answer, which is kept in the room meanwhile. Gives the seconds; the
   answer but for its memory is what the steps leave. */
typedef double worker(uint8_t *room, uint8_t *memory, struct answer *a);

struct contender {
    const char *name;
    worker *work;
};

double run_unicorn(uint8_t *room, uint8_t *memory, struct answer *a); /* where it is installed */

#endif

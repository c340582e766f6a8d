/* Speed of cc100_start, of the same in plain C, of the check alone and of another archive (BEFORE), on accepted modules of the largest and of the
   smallest size, with an image of their own: medians of interleaved rounds on the same bytes. A state that is started can be started again. */
#include <stdint.h>
#include <stdio.h>
#include <string.h>

#include "before.h"
#include "modules.h"
#include "plain.h"
#include "timing.h"

#define ROUNDS 41
#define WORK 8388608u /* bytes of code started in a round */
#define DATA_REGISTER 26u
#define CODE_REGISTER 27u

static uint8_t state[CC100_STATE_LENGTH], memory[MEMORY_LENGTH];

/* The check that is in a start, to be seen beside it. */
static cc100_verdict check_alone(uint32_t code_base, uint32_t code_size, uint32_t data_base, uint32_t data_size, const uint8_t *image,
                                 size_t image_length, uint8_t *unused_state, size_t state_length, const uint8_t *unused_memory, size_t memory_length)
{
    (void)unused_state, (void)state_length, (void)unused_memory;
    return cc100_check(memory_length, code_base, code_size, data_base, data_size, image, image_length);
}

static const struct contender {
    const char *name;
    plain_starter *start;
} contenders[] = {
    {"product", cc100_start},
    {"plain C", plain_start},
    {"check alone", check_alone},
#ifdef BEFORE_START
    {"before", before_start},
#endif
};
#define CONTENDERS (sizeof contenders / sizeof contenders[0])

/* Starts the module often enough for WORK bytes. What is refused counts as wrong. */
static double timed(plain_starter *start, const uint8_t *module, uint32_t length, uint32_t *wrong)
{
    double from = now();
    for (uint32_t i = 0; i < WORK / length; i++) {
        cc100_verdict v = start(CODE_BASE, length, DATA_BASE, DATA_SIZE, module, length, state, sizeof state, memory, sizeof memory);
        *wrong += v.number != CC100_DONE || v.place != CC100_NO_PLACE;
    }
    return now() - from;
}

static void place(const uint8_t *module, uint32_t length)
{
    memcpy(memory + CODE_BASE, module, length);
    cc100_set_word(state + CC100_REGISTER(DATA_REGISTER), DATA_BASE);
    cc100_set_word(state + CC100_REGISTER(CODE_REGISTER), CODE_BASE);
}

/* Speed is told in a million of `unit` bytes. */
static int compare(const uint8_t *module, uint32_t length, uint32_t unit, const char *unit_name)
{
    double seconds[CONTENDERS][ROUNDS];
    struct timing timings[CONTENDERS];
    uint32_t wrong = 0;
    place(module, length);
    for (size_t turn = 0; turn < ROUNDS * CONTENDERS; turn++)
        seconds[turn % CONTENDERS][turn / CONTENDERS] = timed(contenders[turn % CONTENDERS].start, module, length, &wrong);
    for (size_t i = 0; i < CONTENDERS; i++)
        timings[i] = (struct timing){contenders[i].name, median(seconds[i], ROUNDS)};
    printf("start, a module of %u bytes ", (unsigned)length);
    return report(timings, CONTENDERS, WORK / unit / 1e6, unit_name, wrong != 0);
}

int main(void)
{
    make_modules();
    int wrong = compare(large[0], LARGEST, 1, "MB/s");
    return wrong | compare(small[0], SMALLEST, SMALLEST, "million modules/s");
}

/* A start that refuses: what the command says then. It takes the place of the call in a command that is compiled with -Dcc100_start=refused_start, and
   answers the number in the environment's START. */
#include <stdlib.h>

#include "cc100.h"

cc100_verdict refused_start(uint32_t code_base, uint32_t code_size, uint32_t data_base, uint32_t data_size, const uint8_t *image, size_t image_length,
                            uint8_t *state, size_t state_length, const uint8_t *memory, size_t memory_length)
{
    const char *number = getenv("START");
    cc100_verdict v = {number ? (uint32_t)atoi(number) : CC100_REFUSED_STATE, CC100_NO_PLACE};
    (void)code_base, (void)code_size, (void)data_base, (void)data_size, (void)image, (void)image_length;
    (void)state, (void)state_length, (void)memory, (void)memory_length;
    return v;
}

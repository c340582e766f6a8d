/* A start as one would write it in C: the checker, the state's words where they are, one comparison of code and image, and three words written. */
#include <string.h>

#include "plain.h"

#define STATUS_BITS 0x1FFFu

static uint32_t word(const uint8_t *state, uint32_t place) { return cc100_get_word(state + place); }

/* 17, of 164 bytes. */
static int state_refused(const uint8_t *state)
{
    uint32_t counters = word(state, CC100_PC) | word(state, CC100_NEXT_PC);
    return word(state, CC100_REGISTER(0)) || (counters & 3) || (word(state, CC100_STATUS) & ~STATUS_BITS) || word(state, CC100_LL) > 1;
}

static struct cc100_verdict refused(uint32_t number)
{
    struct cc100_verdict v = {number, CC100_NO_PLACE};
    return v;
}

struct cc100_verdict plain_start(uint32_t code_base, uint32_t code_size, uint32_t data_base, uint32_t data_size, const uint8_t *image,
                                 size_t image_length, uint8_t *state, size_t state_length, const uint8_t *memory, size_t memory_length)
{
    struct cc100_verdict v = plain_check(memory_length, code_base, code_size, data_base, data_size, image, image_length);
    if (v.number != CC100_DONE)
        return v;
    if (state_length != CC100_STATE_LENGTH || state_refused(state))
        return refused(CC100_REFUSED_STATE);
    if (memcmp(memory + code_base, image, code_size) != 0)
        return refused(CC100_REFUSED_CODE_BYTES);
    if (word(state, CC100_REGISTER(26)) != data_base || word(state, CC100_REGISTER(27)) != code_base)
        return refused(CC100_REFUSED_BASES);
    cc100_set_word(state + CC100_PC, code_base);
    cc100_set_word(state + CC100_NEXT_PC, code_base + 4);
    cc100_set_word(state + CC100_STATUS, word(state, CC100_STATUS) | CC100_STATUS_USER);
    return v;
}

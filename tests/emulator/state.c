/* Numbers and bytes: the state as document 01, section Machine, lays it out, and the refusals 1 and 17. */
#include "machine.h"

/* A value of so many bits as a signed number. */
int64_t em_signed_number(uint32_t value, uint32_t bits)
{
    int64_t half = (int64_t)1 << (bits - 1);
    return value < half ? value : value - 2 * half;
}

uint32_t em_little_endian(const uint8_t *bytes, uint32_t width)
{
    uint32_t value = 0;
    while (width-- > 0)
        value = value << 8 | bytes[width];
    return value;
}

void em_put_little_endian(uint8_t *bytes, uint32_t width, uint32_t value)
{
    for (uint32_t n = 0; n < width; n++)
        bytes[n] = value >> 8 * n & 0xFF;
}

uint32_t em_word_at(const uint8_t *bytes, size_t index)
{
    const uint8_t *b = bytes + 4 * index;
    return b[0] | (uint32_t)b[1] << 8 | (uint32_t)b[2] << 16 | (uint32_t)b[3] << 24;
}

struct machine em_state_of(const uint8_t *bytes)
{
    struct machine m;
    for (uint32_t n = 0; n < 32; n++)
        m.registers[n] = em_word_at(bytes, n);
    m.hi = em_word_at(bytes, 32);
    m.lo = em_word_at(bytes, 33);
    m.pc = em_word_at(bytes, 34);
    m.next_pc = em_word_at(bytes, 35);
    m.ll = em_word_at(bytes, 36);
    m.bad_address = em_word_at(bytes, 37);
    m.status = em_word_at(bytes, 38);
    m.cause = em_word_at(bytes, 39);
    m.return_address = em_word_at(bytes, 40);
    return m;
}

static void put_word(uint8_t *state, uint32_t index, uint32_t value)
{
    uint8_t *b = state + 4 * index;
    b[0] = value & 0xFF;
    b[1] = value >> 8 & 0xFF;
    b[2] = value >> 16 & 0xFF;
    b[3] = value >> 24;
}

void em_put_state(uint8_t *bytes, const struct machine *m)
{
    for (uint32_t n = 0; n < 32; n++)
        put_word(bytes, n, m->registers[n]);
    put_word(bytes, 32, m->hi);
    put_word(bytes, 33, m->lo);
    put_word(bytes, 34, m->pc);
    put_word(bytes, 35, m->next_pc);
    put_word(bytes, 36, m->ll);
    put_word(bytes, 37, m->bad_address);
    put_word(bytes, 38, m->status);
    put_word(bytes, 39, m->cause);
    put_word(bytes, 40, m->return_address);
}

static bool state_fits(const uint8_t *state, size_t state_length)
{
    if (state_length != EM_STATE_LENGTH)
        return false;
    uint32_t register_0 = em_word_at(state, 0), pc = em_word_at(state, 34), next_pc = em_word_at(state, 35);
    uint32_t ll = em_word_at(state, 36), status = em_word_at(state, 38);
    return register_0 == 0 && pc % 4 == 0 && next_pc % 4 == 0 && ll <= 1 && status >> 13 == 0;
}

uint32_t em_refused(const uint8_t *state, size_t state_length, size_t memory_length)
{
    if (memory_length > LONGEST_MEMORY)
        return 1;
    return state_fits(state, state_length) ? 0 : 17;
}

/* Register 0 reads zero and writes to it vanish. */
uint32_t em_set_register(struct step *s, uint32_t number, uint32_t value)
{
    if (number != 0)
        s->next.registers[number] = value;
    return DONE;
}

/* State and memory as the tests lend them, and the calls on them. */
#include <stdio.h>
#include <stdlib.h>
#include <string.h>

#include "test.h"

static uint32_t pattern(uint32_t i) { return i * 0x9E3779B9u; }

static void make_state(uint8_t *state)
{
    for (uint32_t i = 0; i < CC100_STATE_LENGTH; i += 4)
        cc100_set_word(state + i, pattern(i / 4));
    cc100_set_word(state + CC100_PC, 0);
    cc100_set_word(state + CC100_NEXT_PC, 4);
    cc100_set_word(state + CC100_LL, 0);
    cc100_set_word(state + CC100_STATUS, 0);
}

static uint8_t *room(size_t length)
{
    uint8_t *bytes = malloc(length + 2 * GUARD);
    if (!bytes) {
        perror("memory for the tests");
        exit(2);
    }
    for (size_t i = 0; i < length + 2 * GUARD; i++)
        bytes[i] = (uint8_t)(i * 37 + 11);
    return bytes + GUARD;
}

static struct lent lend_bytes(size_t length)
{
    struct lent l = {room(length), room(length), length};
    return l;
}

struct machine lend(size_t state_length, size_t memory_length)
{
    struct machine m = {lend_bytes(state_length), lend_bytes(memory_length), {0, 0, 0}};
    uint8_t state[CC100_STATE_LENGTH];
    size_t known = state_length < sizeof state ? state_length : sizeof state;
    make_state(state);
    memcpy(m.state.bytes, state, known);
    memcpy(m.state.wanted, state, known);
    return m;
}

void give_back(struct machine *m)
{
    free(m->state.bytes - GUARD);
    free(m->state.wanted - GUARD);
    free(m->memory.bytes - GUARD);
    free(m->memory.wanted - GUARD);
}

void want_state(struct machine *m, uint32_t place, uint32_t word) { cc100_set_word(m->state.wanted + place, word); }
void want_memory(struct machine *m, uint32_t address, uint32_t word) { cc100_set_word(m->memory.wanted + address, word); }

void put_state(struct machine *m, uint32_t place, uint32_t word)
{
    cc100_set_word(m->state.bytes + place, word);
    want_state(m, place, word);
}

void put_memory(struct machine *m, uint32_t address, uint32_t word)
{
    cc100_set_word(m->memory.bytes + address, word);
    want_memory(m, address, word);
}

void put_pc(struct machine *m, uint32_t pc)
{
    put_state(m, CC100_PC, pc);
    put_state(m, CC100_NEXT_PC, pc + 4);
}

void want_pc(struct machine *m, uint32_t pc, uint32_t next_pc)
{
    want_state(m, CC100_PC, pc);
    want_state(m, CC100_NEXT_PC, next_pc);
}

void want_resumed(struct machine *m)
{
    uint32_t next_pc = cc100_get_word(m->state.bytes + CC100_NEXT_PC);
    want_pc(m, next_pc, next_pc + 4);
    want_state(m, CC100_LL, 0);
}

void want_access(struct machine *m, uint32_t address, uint32_t width, uint32_t store)
{
    m->access = (struct access){address, width, store};
}

void want_left_by(struct machine *m, const struct machine *other)
{
    memcpy(m->state.wanted, other->state.bytes, m->state.length);
    memcpy(m->memory.wanted, other->memory.bytes, m->memory.length);
}

void expect_stepped_access(struct access expected, cc100_stepped came)
{
    expect_number("address that cc100_step carries", expected.address, came.address);
    expect_number("width that cc100_step carries", expected.width, came.width);
    expect_number("store that cc100_step carries", expected.store, came.store);
}

void expect_ran_access(struct access expected, cc100_ran came)
{
    expect_number("address that cc100_run carries", expected.address, came.address);
    expect_number("width that cc100_run carries", expected.width, came.width);
    expect_number("store that cc100_run carries", expected.store, came.store);
}

cc100_stepped step(struct machine *m)
{
    return cc100_step(m->state.bytes, m->state.length, m->memory.bytes, m->memory.length);
}

cc100_ran run(struct machine *m, uint32_t budget)
{
    return cc100_run(m->state.bytes, m->state.length, m->memory.bytes, m->memory.length, budget);
}

uint32_t resume(struct machine *m)
{
    return cc100_resume(m->state.bytes, m->state.length, m->memory.bytes, m->memory.length);
}

void expect_step(struct machine *m, uint32_t number)
{
    cc100_stepped stepped = step(m);
    expect_number("number of cc100_step", number, stepped.number);
    expect_stepped_access(m->access, stepped);
    want_access(m, 0, 0, 0);
    expect_left(m);
}

void expect_run(struct machine *m, uint32_t budget, uint32_t number, uint32_t steps)
{
    cc100_ran ran = run(m, budget);
    expect_number("number of cc100_run", number, ran.number);
    expect_number("steps of cc100_run", steps, ran.steps);
    expect_ran_access(m->access, ran);
    want_access(m, 0, 0, 0);
    expect_left(m);
}

void expect_resume(struct machine *m, uint32_t number)
{
    expect_number("number of cc100_resume", number, resume(m));
    expect_left(m);
}

int resumable(uint32_t number)
{
    return number == CC100_EXIT_INTEGER_OVERFLOW || number == CC100_EXIT_SYSTEM_CALL || number == CC100_EXIT_BREAKPOINT ||
           number == CC100_EXIT_TRAP;
}

uint32_t next_random(void)
{
    static uint32_t seed = 1;
    seed ^= seed << 13;
    seed ^= seed >> 17;
    seed ^= seed << 5;
    return seed;
}

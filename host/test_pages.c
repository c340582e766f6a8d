/* No byte outside what was lent is even read, a resume writes nothing to memory, and a refused call writes nothing at all: pages that the
   system protects show it, by ending the tests. */
#define _DEFAULT_SOURCE
#include <stdio.h>
#include <stdlib.h>
#include <string.h>
#include <sys/mman.h>
#include <unistd.h>

#include "test.h"

#define SYSCALL 0x0000000Cu
#define SW 0xAC050000u /* SW 5,0(0) */
#define SC 0xE0050000u /* SC 5,0(0) */

uint8_t *page(size_t size)
{
    uint8_t *pages = mmap(NULL, 3 * size, PROT_NONE, MAP_PRIVATE | MAP_ANONYMOUS, -1, 0);
    if (pages == MAP_FAILED || mprotect(pages + size, size, PROT_READ | PROT_WRITE) != 0) {
        perror("pages for the tests");
        exit(2);
    }
    return pages + size;
}

/* State and memory at the very end of their pages, or at the very beginning. */
static void lent_to_the_edge(uint8_t *states, uint8_t *memories, size_t size, size_t length, int at_end)
{
    uint8_t *state = states + (at_end ? size - CC100_STATE_LENGTH : 0), *memory = memories + (at_end ? size - length : 0);
    struct machine m = lend(CC100_STATE_LENGTH, length);
    uint32_t number = length < 4 ? CC100_EXIT_FETCH : CC100_EXIT_SYSTEM_CALL;
    memcpy(state, m.state.bytes, CC100_STATE_LENGTH);
    memset(memory, 0, length);
    if (length >= 4)
        cc100_set_word(memory + (length - 4) / 4 * 4, SYSCALL);
    uint32_t steps = length < 4 ? 0 : (uint32_t)(length - 4) / 4;
    calling("memory of %zu bytes at the %s of a page", length, at_end ? "end" : "beginning");
    cc100_ran ran = cc100_run(state, CC100_STATE_LENGTH, memory, length, 100);
    expect_number("number of cc100_run", number, ran.number);
    expect_number("steps of cc100_run", steps, ran.steps);
    expect_number("number of cc100_step", number, cc100_step(state, CC100_STATE_LENGTH, memory, length).number);
    expect_number("number of cc100_resume", length < 4 ? CC100_REFUSED_RESUME : CC100_DONE,
                  cc100_resume(state, CC100_STATE_LENGTH, memory, length));
    give_back(&m);
}

/* Short states at the end of a page: their missing bytes are not looked at. */
static void short_states(uint8_t *states, uint8_t *memories, size_t size)
{
    static const size_t lengths[] = {0, 1, 3, 4, 160, 163};
    for (size_t i = 0; i < sizeof lengths / sizeof lengths[0]; i++) {
        uint8_t *state = states + size - lengths[i];
        calling("state of %zu bytes at the end of a page", lengths[i]);
        expect_number("number of cc100_run", CC100_REFUSED_STATE, cc100_run(state, lengths[i], memories, 8, 1).number);
        expect_number("number of cc100_step", CC100_REFUSED_STATE, cc100_step(state, lengths[i], memories, 8).number);
        expect_number("number of cc100_resume", CC100_REFUSED_STATE, cc100_resume(state, lengths[i], memories, 8));
    }
}

static void memory_only_read(uint8_t *memory, size_t size, uint32_t word, uint32_t number)
{
    struct machine m = lend(CC100_STATE_LENGTH, 0);
    put_state(&m, CC100_LL, 1);
    cc100_set_word(memory, word);
    mprotect(memory, size, PROT_READ);
    calling("word 0x%08X in memory that cannot be written", (unsigned)word);
    expect_number("number of cc100_resume", number, cc100_resume(m.state.bytes, CC100_STATE_LENGTH, memory, size));
    mprotect(memory, size, PROT_READ | PROT_WRITE);
    give_back(&m);
}

/* A store at PC, in state and memory that cannot be written. With register 0 not zero all three calls are refused, else the resume is. */
static void nothing_written(uint8_t *states, uint8_t *memories, size_t size, uint32_t register_0)
{
    struct machine m = lend(CC100_STATE_LENGTH, 0);
    put_state(&m, CC100_REGISTER(0), register_0);
    memcpy(states, m.state.bytes, CC100_STATE_LENGTH);
    cc100_set_word(memories, SW);
    mprotect(states, size, PROT_READ);
    mprotect(memories, size, PROT_READ);
    calling("register 0 %u, in a state that cannot be written", (unsigned)register_0);
    if (register_0) {
        expect_number("number of cc100_run", CC100_REFUSED_STATE, cc100_run(states, CC100_STATE_LENGTH, memories, size, 1).number);
        expect_number("number of cc100_step", CC100_REFUSED_STATE, cc100_step(states, CC100_STATE_LENGTH, memories, size).number);
    }
    expect_number("number of cc100_resume", register_0 ? CC100_REFUSED_STATE : CC100_REFUSED_RESUME,
                  cc100_resume(states, CC100_STATE_LENGTH, memories, size));
    mprotect(states, size, PROT_READ | PROT_WRITE);
    mprotect(memories, size, PROT_READ | PROT_WRITE);
    give_back(&m);
}

void test_pages(void)
{
    size_t size = (size_t)sysconf(_SC_PAGESIZE);
    uint8_t *states = page(size), *memories = page(size);
    for (size_t length = 0; length <= 40; length++) {
        lent_to_the_edge(states, memories, size, length, 0);
        lent_to_the_edge(states, memories, size, length, 1);
    }
    short_states(states, memories, size);
    memory_only_read(memories, size, SYSCALL, CC100_DONE);
    memory_only_read(memories, size, SW, CC100_REFUSED_RESUME);
    memory_only_read(memories, size, SC, CC100_REFUSED_RESUME);
    nothing_written(states, memories, size, 0);
    nothing_written(states, memories, size, 1);
    munmap(states - size, 3 * size);
    munmap(memories - size, 3 * size);
}

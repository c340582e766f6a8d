/* Memory at its ends: the longest that is allowed, and short ones. */
#include "test.h"

#define LAST (CC100_LONGEST_MEMORY - 4) /* the last word of the longest memory */

/* A step of the word, with the LL word 1 and register 5 the address of the first byte outside. */
static struct machine longest(uint32_t word)
{
    struct machine m = lend(CC100_STATE_LENGTH, CC100_LONGEST_MEMORY);
    put_memory(&m, 0, word);
    put_memory(&m, LAST, 0x12345678);
    put_state(&m, CC100_REGISTER(5), CC100_LONGEST_MEMORY);
    return m;
}

static void longest_memory(void)
{
    struct machine m = longest(0x8CA7FFFC); /* LW 7,-4(5) */
    calling("LW of the last word of the longest memory");
    want_state(&m, CC100_REGISTER(7), 0x12345678);
    want_pc(&m, 4, 8);
    want_access(&m, LAST, 4, 0);
    expect_step(&m, CC100_DONE);
    give_back(&m);
    m = longest(0xA0A0FFFF); /* SB 0,-1(5) */
    calling("SB to the last byte of the longest memory");
    want_memory(&m, LAST, 0x00345678);
    want_pc(&m, 4, 8);
    want_access(&m, CC100_LONGEST_MEMORY - 1, 1, 1);
    expect_run(&m, 1, CC100_DONE, 1);
    give_back(&m);
    m = longest(0x8CA70000); /* LW 7,0(5) */
    calling("LW behind the longest memory");
    expect_run(&m, 1, CC100_EXIT_LOAD, 0);
    expect_resume(&m, CC100_REFUSED_RESUME);
    give_back(&m);
}

static void runs_out_of_longest_memory(void)
{
    struct machine m = longest(0);
    put_memory(&m, LAST, 0x24A50001); /* ADDIU 5,5,1 */
    put_pc(&m, LAST);
    want_state(&m, CC100_REGISTER(5), CC100_LONGEST_MEMORY + 1);
    want_pc(&m, CC100_LONGEST_MEMORY, CC100_LONGEST_MEMORY + 4);
    calling("run from the last word of the longest memory");
    expect_run(&m, 5, CC100_EXIT_FETCH, 1);
    put_memory(&m, LAST, 0x0000000C); /* SYSCALL 0 */
    put_pc(&m, LAST);
    calling("resume at the last word of the longest memory");
    want_resumed(&m);
    expect_resume(&m, CC100_DONE);
    give_back(&m);
}

/* Memory of each short length: the word at 0 runs where all four bytes are there, and reaches as far as there is memory. */
static void short_memories(void)
{
    for (size_t length = 0; length <= 12; length++) {
        struct machine m = lend(CC100_STATE_LENGTH, length);
        int whole = length >= 4, inside = length >= 8;
        if (whole)
            put_memory(&m, 0, 0xAC050004); /* SW 5,4(0) */
        calling("SW 5,4(0) in memory of %zu bytes", length);
        expect_resume(&m, CC100_REFUSED_RESUME);
        if (inside) {
            want_memory(&m, 4, cc100_get_word(m.state.bytes + CC100_REGISTER(5)));
            want_pc(&m, 4, 8);
            want_access(&m, 4, 4, 1);
        }
        uint32_t stored = inside ? CC100_DONE : CC100_EXIT_STORE;
        expect_run(&m, 1, whole ? stored : CC100_EXIT_FETCH, inside);
        give_back(&m);
    }
}

void test_lengths(void)
{
    longest_memory();
    runs_out_of_longest_memory();
    short_memories();
}

/* Resumes: next PC, the LL word, and what the host changed. */
#include <inttypes.h>

#include "test.h"

#define SYSCALL 0x0000000Cu
#define MEMORY_LENGTH 64

/* The pair moves on from next PC, wherever that is, and wraps. */
static void next_pcs(void)
{
    static const uint32_t places[] = {0, 4, 8, 60, 0x01000000, 0x7FFFFFFC, 0x80000000, 0xFFFFFFF8, 0xFFFFFFFC};
    for (size_t i = 0; i < sizeof places / sizeof places[0]; i++) {
        struct machine m = lend(CC100_STATE_LENGTH, MEMORY_LENGTH);
        put_memory(&m, 0, SYSCALL);
        put_state(&m, CC100_NEXT_PC, places[i]);
        want_pc(&m, places[i], places[i] + 4);
        calling("SYSCALL, next PC 0x%" PRIX32, places[i]);
        expect_resume(&m, CC100_DONE);
        give_back(&m);
    }
}

/* An SC after a resume does not store. */
static void clears_ll(void)
{
    struct machine m = lend(CC100_STATE_LENGTH, MEMORY_LENGTH);
    put_memory(&m, 0, SYSCALL);
    put_memory(&m, 4, 0xE0060020); /* SC 6,32(0) */
    put_state(&m, CC100_LL, 1);
    calling("SYSCALL with the LL word 1");
    want_pc(&m, 4, 8);
    want_state(&m, CC100_LL, 0);
    expect_resume(&m, CC100_DONE);
    calling("SC after a resume");
    want_pc(&m, 8, 12);
    want_state(&m, CC100_REGISTER(6), 0);
    expect_step(&m, CC100_DONE);
    give_back(&m);
}

/* What the host puts into registers and memory at an exit is what the module goes on with. */
static void host_changes(void)
{
    struct machine m = lend(CC100_STATE_LENGTH, MEMORY_LENGTH);
    put_memory(&m, 0, SYSCALL);
    put_memory(&m, 4, 0x00C73021); /* ADDU 6,6,7 */
    put_memory(&m, 8, 0x8C080020); /* LW 8,32(0) */
    put_memory(&m, 12, SYSCALL);
    calling("SYSCALL before a host's changes");
    expect_run(&m, 10, CC100_EXIT_SYSTEM_CALL, 0);
    put_state(&m, CC100_REGISTER(6), 1200);
    put_state(&m, CC100_REGISTER(7), 34);
    put_memory(&m, 32, 56);
    want_pc(&m, 4, 8);
    expect_resume(&m, CC100_DONE);
    calling("run after a host's changes");
    want_state(&m, CC100_REGISTER(6), 1234);
    want_state(&m, CC100_REGISTER(8), 56);
    want_access(&m, 32, 4, 0);
    want_pc(&m, 12, 16);
    expect_run(&m, 10, CC100_EXIT_SYSTEM_CALL, 2);
    give_back(&m);
}

/* One resume moves past one exit: a second is refused where the next step completes, and given where that one exits too. */
static void twice(void)
{
    struct machine m = lend(CC100_STATE_LENGTH, MEMORY_LENGTH);
    put_memory(&m, 0, SYSCALL);
    put_memory(&m, 4, 0x0000000D); /* BREAK 0 */
    put_memory(&m, 8, 0xAC060020); /* SW 6,32(0) */
    calling("SYSCALL, BREAK, SW");
    want_pc(&m, 4, 8);
    expect_resume(&m, CC100_DONE);
    want_pc(&m, 8, 12);
    expect_resume(&m, CC100_DONE);
    expect_resume(&m, CC100_REFUSED_RESUME);
    give_back(&m);
}

void test_resume(void)
{
    next_pcs();
    clears_ll();
    host_changes();
    twice();
}

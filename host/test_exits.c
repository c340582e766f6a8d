/* One step of each kind of end: what step, run and resume answer there, and that they leave what they must. */
#include <inttypes.h>

#include "test.h"

#define USER CC100_STATUS_USER
#define MEMORY_LENGTH 64
#define AT 16    /* PC */
#define AFTER 40 /* next PC: not PC + 4, as in a branch's slot */

struct end {
    const char *name;
    uint32_t word, r5, r6, status, number;
};

static const struct end ends[] = {
    {"ADD 7,5,6", 0x00A63820, 0x7FFFFFFF, 1, USER, CC100_EXIT_INTEGER_OVERFLOW},
    {"ADD 0,5,6", 0x00A60020, 0x80000000, 0xFFFFFFFF, 0, CC100_EXIT_INTEGER_OVERFLOW},
    {"ADDI 7,5,1", 0x20A70001, 0x7FFFFFFF, 0, USER, CC100_EXIT_INTEGER_OVERFLOW},
    {"SUB 7,5,6", 0x00A63822, 0x80000000, 1, USER, CC100_EXIT_INTEGER_OVERFLOW},
    {"JR 5", 0x00A00008, 2, 0, USER, CC100_EXIT_ADDRESS},
    {"JALR 7,5", 0x00A03809, 33, 0, USER, CC100_EXIT_ADDRESS},
    {"LB 7,0(5)", 0x80A70000, 64, 0, USER, CC100_EXIT_LOAD},
    {"LH 7,0(5)", 0x84A70000, 1, 0, USER, CC100_EXIT_LOAD},
    {"LW 7,0(5)", 0x8CA70000, 62, 0, USER, CC100_EXIT_LOAD},
    {"LW 7,0(5)", 0x8CA70000, 64, 0, USER, CC100_EXIT_LOAD},
    {"LW 0,0(5)", 0x8CA00000, 0xFFFFFFFC, 0, USER, CC100_EXIT_LOAD},
    {"LL 7,0(5)", 0xC0A70000, 64, 0, USER, CC100_EXIT_LOAD},
    {"SB 7,0(5)", 0xA0A70000, 64, 0, USER, CC100_EXIT_STORE},
    {"SH 7,0(5)", 0xA4A70000, 63, 0, USER, CC100_EXIT_STORE},
    {"SW 7,0(5)", 0xACA70000, 34, 0, USER, CC100_EXIT_STORE},
    {"SW 7,0(5)", 0xACA70000, 64, 0, USER, CC100_EXIT_STORE},
    {"SC 7,0(5)", 0xE0A70000, 64, 0, USER, CC100_EXIT_STORE},
    {"MFC0 7,12", 0x40076000, 0, 0, USER, CC100_EXIT_PRIVILEGED_DATA},
    {"MTC0 7,12", 0x40876000, 0, 0, USER, CC100_EXIT_PRIVILEGED_DATA},
    {"RFE", 0x42000010, 0, 0, USER, CC100_EXIT_PRIVILEGED_INSTRUCTION},
    {"SYSCALL 0", 0x0000000C, 0, 0, USER, CC100_EXIT_SYSTEM_CALL},
    {"SYSCALL 0", 0x0000000C, 0, 0, 0, CC100_EXIT_SYSTEM_CALL},
    {"SYSCALL 15", 0x000003CC, 0, 0, USER, CC100_EXIT_SYSTEM_CALL},
    {"SYSCALL 0xF000F", 0x03C003CC, 0, 0, 0, CC100_EXIT_SYSTEM_CALL},
    {"BREAK 0", 0x0000000D, 0, 0, USER, CC100_EXIT_BREAKPOINT},
    {"BREAK 14", 0x0000038D, 0, 0, 0, CC100_EXIT_BREAKPOINT},
    {"TEQ 5,6", 0x00A60034, 7, 7, USER, CC100_EXIT_TRAP},
    {"TGEIU 5,0xFFFF", 0x04A9FFFF, 0xFFFFFFFF, 0, USER, CC100_EXIT_TRAP},
    {"0xFFFFFFFF", 0xFFFFFFFF, 0, 0, USER, CC100_EXIT_NO_INSTRUCTION},
    {"MFC0 7,9", 0x40074800, 0, 0, USER, CC100_EXIT_NO_INSTRUCTION},
    {"MFC0 7,9", 0x40074800, 0, 0, 0, CC100_EXIT_NO_INSTRUCTION},
    {"BREAK 15", 0x000003CD, 0, 0, USER, CC100_EXIT_DEBUG_BREAK},
    {"BREAK 15", 0x000003CD, 0, 0, 0, CC100_EXIT_DEBUG_BREAK},
    {"SYSCALL 15", 0x000003CC, 0, 0, 0, CC100_EXIT_STOP_CORES},
};
#define ENDS (sizeof ends / sizeof ends[0])

/* A step that ends in an exit: nothing changes, whatever the budget, unless a resume is given. */
static void expect_exit(struct machine *m, uint32_t number)
{
    static const uint32_t budgets[] = {1, 2, 1000, 0xFFFFFFFF};
    expect_step(m, number);
    for (size_t i = 0; i < sizeof budgets / sizeof budgets[0]; i++)
        expect_run(m, budgets[i], number, 0);
    expect_run(m, 0, CC100_DONE, 0);
    if (resumable(number))
        want_resumed(m);
    expect_resume(m, resumable(number) ? CC100_DONE : CC100_REFUSED_RESUME);
}

static void each_exit(void)
{
    for (size_t i = 0; i < ENDS; i++) {
        const struct end *e = &ends[i];
        struct machine m = lend(CC100_STATE_LENGTH, MEMORY_LENGTH);
        put_state(&m, CC100_PC, AT);
        put_state(&m, CC100_NEXT_PC, AFTER);
        put_state(&m, CC100_LL, 1);
        put_state(&m, CC100_STATUS, e->status);
        put_state(&m, CC100_REGISTER(5), e->r5);
        put_state(&m, CC100_REGISTER(6), e->r6);
        put_memory(&m, AT, e->word);
        calling("%s in %s mode, register 5 0x%" PRIX32 ", register 6 0x%" PRIX32, e->name, e->status == USER ? "user" : "kernel", e->r5,
                e->r6);
        expect_exit(&m, e->number);
        give_back(&m);
    }
}

static void fetch_outside(void)
{
    static const struct {
        uint32_t pc;
        size_t length;
    } places[] = {{0, 0}, {0, 3}, {60, 63}, {64, 64}, {64, 67}, {0x01000000, 64}, {0x80000000, 64}, {0xFFFFFFFC, 64}};
    for (size_t i = 0; i < sizeof places / sizeof places[0]; i++) {
        struct machine m = lend(CC100_STATE_LENGTH, places[i].length);
        put_pc(&m, places[i].pc);
        calling("PC 0x%" PRIX32 ", memory of %zu bytes", places[i].pc, places[i].length);
        expect_exit(&m, CC100_EXIT_FETCH);
        give_back(&m);
    }
}

void test_exits(void)
{
    each_exit();
    fetch_outside();
}

/* Runs the words of the program on Unicorn, which is QEMU's MIPS, and compares every figure with what the same C gives natively: qemu FILE.
   make.sh builds and runs it; the test does not need it. */
#include <inttypes.h>
#include <stdio.h>
#include <stdlib.h>
#include <unicorn/unicorn.h>

#include "test.h"

#define TABLES 200u
#define SYSCALL_EXCEPTION 17u /* QEMU's number, target/mips/cpu.h */

static uint32_t last_exception;

static void check(uc_err error)
{
    if (error == UC_ERR_OK)
        return;
    fprintf(stderr, "qemu: %s\n", uc_strerror(error));
    exit(1);
}

static void on_exception(uc_engine *engine, uint32_t exception, void *context)
{
    (void)context;
    last_exception = exception;
    uc_emu_stop(engine);
}

/* Runs the program in memory and leaves there what it stored. */
static void run(uint8_t *memory)
{
    uc_engine *engine;
    uc_hook hook;
    check(uc_open(UC_ARCH_MIPS, UC_MODE_MIPS32 | UC_MODE_LITTLE_ENDIAN, &engine));
    check(uc_mem_map_ptr(engine, 0, MEMORY, UC_PROT_ALL, memory));
    check(uc_hook_add(engine, &hook, UC_HOOK_INTR, on_exception, NULL, 1, 0));
    check(uc_emu_start(engine, START, UINT64_MAX, 0, 0));
    check(uc_close(engine));
}

/* QEMU gives other values than document 02 for a zero divisor, which MIPS leaves open. So no count is 0 here. */
static void count_all(struct input *in)
{
    for (int i = 0; i < ROWS; i++) {
        in->totals[i].bookings += in->totals[i].bookings == 0;
        in->totals[i].pieces += in->totals[i].pieces == 0;
    }
}

static unsigned run_table(const struct program *p, uint32_t number, uint32_t *seed)
{
    static struct input in;
    static struct output native;
    static _Alignas(4096) uint8_t memory[MEMORY];
    make_table(number, seed, &in);
    count_all(&in);
    native_figures(&in, &native);
    place_input(memory, p, &in);
    run(memory);
    if (number == 0)
        print_figures(&in, &native);
    return compare_figures("Unicorn", number, &native, memory) + (last_exception != SYSCALL_EXCEPTION);
}

int main(int count, char **arguments)
{
    static struct program p;
    uint32_t seed = SEED;
    unsigned different = 0;
    if (count != 2) {
        fprintf(stderr, "usage: qemu FILE\n");
        return 2;
    }
    if (!load_program(&p, arguments[1]))
        return 2;
    for (uint32_t number = 0; number <= TABLES; number++)
        different += run_table(&p, number, &seed);
    printf("Unicorn: %u tables, %lu figures, %u differ\n", TABLES + 1, figures_compared(), different);
    return different != 0;
}

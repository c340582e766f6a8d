/* The loops on Unicorn, which translates blocks of code to the machine's own. Its engine wants memory of whole pages: making it, and moving
   state and memory in and out, is not timed. */
#include <stdio.h>
#include <stdlib.h>
#include <string.h>
#include <unicorn/unicorn.h>

#include "run.h"

#define PAGE 4096

static uint8_t page[PAGE] __attribute__((aligned(PAGE)));

static void done(uc_err error)
{
    if (error == UC_ERR_OK)
        return;
    fprintf(stderr, "Unicorn: %s\n", uc_strerror(error));
    exit(2);
}

/* A SYSCALL is handed to this hook. */
static void at_exit(uc_engine *engine, uint32_t number, void *a)
{
    (void)number;
    ((struct answer *)a)->number = CC100_EXIT_SYSTEM_CALL;
    done(uc_emu_stop(engine));
}

static void move_register(uc_engine *engine, int id, uint8_t *word, uc_err move(uc_engine *, int, void *))
{
    uint32_t x = cc100_get_word(word);
    done(move(engine, id, &x));
    cc100_set_word(word, x);
}

static uc_err put(uc_engine *engine, int id, void *x) { return uc_reg_write(engine, id, x); }
static uc_err get(uc_engine *engine, int id, void *x) { return uc_reg_read(engine, id, x); }

static void move_state(uc_engine *engine, uint8_t *state, uc_err move(uc_engine *, int, void *))
{
    for (uint32_t r = 1; r < 32; r++)
        move_register(engine, UC_MIPS_REG_0 + (int)r, state + CC100_REGISTER(r), move);
    move_register(engine, UC_MIPS_REG_HI, state + CC100_HI, move);
    move_register(engine, UC_MIPS_REG_LO, state + CC100_LO, move);
    move_register(engine, UC_MIPS_REG_PC, state + CC100_PC, move);
}

double run_unicorn(uint8_t *room, uint8_t *memory, struct answer *a)
{
    uc_engine *engine;
    uc_hook hook;
    (void)room;
    memcpy(page, memory, MEMORY);
    done(uc_open(UC_ARCH_MIPS, UC_MODE_MIPS32 | UC_MODE_LITTLE_ENDIAN, &engine));
    done(uc_mem_map_ptr(engine, 0, PAGE, UC_PROT_ALL, page));
    done(uc_hook_add(engine, &hook, UC_HOOK_INTR, (void *)at_exit, a, 1, 0));
    move_state(engine, a->state, put);
    double from = now();
    uc_err end = uc_emu_start(engine, cc100_get_word(a->state + CC100_PC), PAGE, 0, 0);
    double seconds = now() - from;
    done(end);
    move_state(engine, a->state, get);
    /* Unicorn leaves its program counter behind the SYSCALL */
    cc100_set_word(a->state + CC100_NEXT_PC, cc100_get_word(a->state + CC100_PC));
    cc100_set_word(a->state + CC100_PC, cc100_get_word(a->state + CC100_PC) - 4);
    done(uc_close(engine));
    memcpy(memory, page, MEMORY);
    a->steps = NOT_COUNTED;
    return seconds;
}

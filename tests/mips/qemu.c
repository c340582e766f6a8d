/* Runs cases of crates/steps on Unicorn, which is QEMU's MIPS, and prints what they give there, in the lines of crates/steps: qemu < CASES.
   Of the state, the control registers are not QEMU's and are left as they are. `qemu version` prints the version of Unicorn.

   A case may not begin with the LL bit set, and may not end before a slot: QEMU shows neither that bit nor the next PC. */
#include <inttypes.h>
#include <stdio.h>
#include <stdlib.h>
#include <string.h>
#include <unicorn/unicorn.h>

#define PAGE 4096u
#define PROBE 0x2000u /* where the instruction stands that asks for the LL bit */
#define MEMORY 84u
#define CASE 256u

enum { HI = 32, LO, PC, NEXT, LL, SHOWN };

struct machine {
    uc_engine *engine;
    uint32_t left;   /* steps that are still to begin */
    uint32_t at;     /* the instruction that has begun last */
    uint32_t linked; /* the address of the last LL */
    uint32_t number; /* of the exit, or 0 */
};

static unsigned long cases; /* read so far */

/* QEMU's numbers of exceptions (target/mips/cpu.h) and document 01's of exits. */
static const struct {
    uint32_t exception, number;
} EXITS[] = {
    {21, 40}, /* overflow */
    {12, 42}, /* address error, load */
    {13, 43}, /* address error, store */
    {17, 46}, /* SYSCALL */
    {18, 47}, /* BREAK */
    {22, 48}, /* trap */
};

static void fail(const char *why)
{
    fprintf(stderr, "qemu: case %lu: %s\n", cases, why);
    exit(1);
}

static void check(uc_err error)
{
    if (error != UC_ERR_OK)
        fail(uc_strerror(error));
}

static uint32_t get_word(const uint8_t *bytes)
{
    return bytes[0] | (uint32_t)bytes[1] << 8 | (uint32_t)bytes[2] << 16 | (uint32_t)bytes[3] << 24;
}

static uint32_t get_register(uc_engine *engine, int name)
{
    uint32_t value = 0;
    check(uc_reg_read(engine, name, &value));
    return value;
}

static void set_register(uc_engine *engine, int name, uint32_t value)
{
    check(uc_reg_write(engine, name, &value));
}

/* Called before each instruction. */
static void on_instruction(uc_engine *engine, uint64_t address, uint32_t size, void *context)
{
    struct machine *m = context;
    uint8_t bytes[4];
    (void)size;
    if (m->left == 0) {
        uc_emu_stop(engine);
        return;
    }
    m->left--;
    m->at = (uint32_t)address;
    check(uc_mem_read(engine, address, bytes, 4));
    uint32_t word = get_word(bytes);
    if (word >> 26 == 0x30)
        m->linked = get_register(engine, UC_MIPS_REG_0 + (int)(word >> 21 & 31)) + (uint32_t)(int16_t)word;
}

static void on_exception(uc_engine *engine, uint32_t exception, void *context)
{
    struct machine *m = context;
    for (size_t i = 0; i < sizeof EXITS / sizeof *EXITS; i++)
        if (EXITS[i].exception == exception)
            m->number = EXITS[i].number;
    if (m->number == 0) {
        fprintf(stderr, "qemu: exception %" PRIu32 " at 0x%" PRIx32 "\n", exception, m->at);
        fail("the exception is no exit of document 01");
    }
    uc_emu_stop(engine);
}

static void open_machine(struct machine *m, const uint8_t *given)
{
    check(uc_open(UC_ARCH_MIPS, UC_MODE_MIPS32 | UC_MODE_LITTLE_ENDIAN, &m->engine));
    check(uc_mem_map(m->engine, 0, PAGE, UC_PROT_ALL));
    check(uc_mem_map(m->engine, PROBE, PAGE, UC_PROT_ALL));
    check(uc_mem_write(m->engine, 0, given + CASE - MEMORY, MEMORY));
    for (int i = 0; i < 32; i++)
        set_register(m->engine, UC_MIPS_REG_0 + i, get_word(given + 4 * i));
    set_register(m->engine, UC_MIPS_REG_HI, get_word(given + 4 * HI));
    set_register(m->engine, UC_MIPS_REG_LO, get_word(given + 4 * LO));
    m->left = get_word(given + 168);
    m->linked = 0;
    m->number = 0;
}

/* Takes the steps. A jump out of the page ends in a fetch that finds no memory: its steps are then taken. */
static void run(struct machine *m, uint32_t start)
{
    uc_hook instructions, exceptions;
    check(uc_hook_add(m->engine, &instructions, UC_HOOK_CODE, on_instruction, m, 1, 0));
    check(uc_hook_add(m->engine, &exceptions, UC_HOOK_INTR, on_exception, m, 1, 0));
    uc_err error = uc_emu_start(m->engine, start, UINT64_MAX, 0, 0);
    if (error != UC_ERR_FETCH_UNMAPPED || m->left != 0)
        check(error);
    if (m->left != 0 && m->number == 0)
        fail("the run stopped early");
    check(uc_hook_del(m->engine, instructions));
    check(uc_hook_del(m->engine, exceptions));
}

/* The LL bit, told from whether an SC at the address of the last LL stores. */
static uint32_t get_ll(const struct machine *m)
{
    static const uint8_t SC_4_5[4] = {0, 0, 0xA4, 0xE0}; /* SC of register 4 at register 5 */
    if (m->linked == 0 || m->linked % 4 != 0)
        return 0;
    check(uc_mem_write(m->engine, PROBE, SC_4_5, 4));
    set_register(m->engine, UC_MIPS_REG_5, m->linked);
    check(uc_emu_start(m->engine, PROBE, PROBE + 4, 0, 1));
    return get_register(m->engine, UC_MIPS_REG_4);
}

/* The state's words but the control registers, and then the bytes of memory. After an exception Unicorn's own PC says nothing of use. */
static void get_result(const struct machine *m, uint32_t *words, uint8_t *memory)
{
    for (int i = 0; i < 32; i++)
        words[i] = get_register(m->engine, UC_MIPS_REG_0 + i);
    words[HI] = get_register(m->engine, UC_MIPS_REG_HI);
    words[LO] = get_register(m->engine, UC_MIPS_REG_LO);
    words[PC] = m->number != 0 ? m->at : get_register(m->engine, UC_MIPS_REG_PC);
    words[NEXT] = words[PC] + 4;
    check(uc_mem_read(m->engine, 0, memory, MEMORY));
    words[LL] = get_ll(m);
}

static void print_result(const struct machine *m, const uint8_t *given)
{
    uint32_t words[SHOWN];
    uint8_t memory[MEMORY];
    get_result(m, words, memory);
    printf("%" PRIu32, m->number);
    for (int i = 0; i < SHOWN; i++)
        if (words[i] != get_word(given + 4 * i))
            printf(" %d=%08" PRIx32, i, words[i]);
    for (unsigned i = 0; i < MEMORY; i++)
        if (memory[i] != given[CASE - MEMORY + i])
            printf(" m%u=%02x", i, memory[i]);
    printf("\n");
}

int main(int count, char **arguments)
{
    static uint8_t given[CASE];
    if (count == 2 && strcmp(arguments[1], "version") == 0) {
        printf("%d.%d.%d\n", UC_VERSION_MAJOR, UC_VERSION_MINOR, UC_VERSION_PATCH);
        return 0;
    }
    while (fread(given, CASE, 1, stdin) == 1) {
        cases++;
        struct machine m; /* a new one for each case, so that none depends on another */
        open_machine(&m, given);
        run(&m, get_word(given + 4 * PC));
        print_result(&m, given);
        check(uc_close(m.engine));
    }
    return 0;
}

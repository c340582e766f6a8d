/* Modules to be timed. */
#include "modules.h"

uint8_t large[2][LARGEST], small[2][SMALLEST];

static uint32_t next_random(void)
{
    static uint32_t seed = 1;
    seed ^= seed << 13;
    seed ^= seed >> 17;
    seed ^= seed << 5;
    return seed;
}

static uint32_t below(uint32_t end) { return next_random() % end; }

/* Registers 1 to 25. */
static uint32_t any(void) { return 1 + below(25); }

/* Fields at their places in a word. */
static uint32_t rs(uint32_t r) { return r << 21; }
static uint32_t rt(uint32_t r) { return r << 16; }
static uint32_t rd(uint32_t r) { return r << 11; }

/* Arithmetic, constants, shifts, and now and then a product. */
static uint32_t arithmetic(void)
{
    static const uint32_t three[] = {0x21, 0x23, 0x24, 0x25, 0x26, 0x2A, 0x2B}; /* ADDU SUBU AND OR XOR SLT SLTU */
    static const uint32_t constants[] = {8, 9, 10, 11, 12, 13, 14};             /* ADDI ADDIU SLTI SLTIU ANDI ORI XORI */
    static const uint32_t shifts[] = {0, 2, 3};                                 /* SLL SRL SRA */
    switch (below(16)) {
    case 0: return 0x18 | rs(any()) | rt(any()); /* MULT */
    case 1: return 0x12 | rd(any());             /* MFLO */
    case 2: return 0x3C000000 | rt(any()) | below(65536); /* LUI */
    case 3: return 0; /* nothing */
    case 4: case 5: case 6: return shifts[below(3)] | rt(any()) | rd(any()) | below(32) << 6;
    case 7: case 8: case 9: case 10: return constants[below(7)] << 26 | rs(any()) | rt(any()) | below(65536);
    default: return three[below(7)] | rs(any()) | rt(any()) | rd(any());
    }
}

/* A guard in two words. */
static void put_guard(uint8_t *at, uint32_t r, uint32_t mask, uint32_t base)
{
    cc100_set_word(at, 0x30000000 | rs(any()) | rt(r) | mask);
    cc100_set_word(at + 4, 0x25 | rs(r) | rt(base) | rd(r));
}

/* A guarded load or store of any width in three words. */
static void put_access(uint8_t *at)
{
    static const struct {
        uint32_t opcode, width;
    } accesses[] = {{35, 4}, {35, 4}, {35, 4}, {43, 4}, {43, 4}, {32, 1}, {36, 1}, {40, 1}, {33, 2}, {37, 2}, {41, 2}, {48, 4}, {56, 4}};
    uint32_t i = below(sizeof accesses / sizeof accesses[0]), width = accesses[i].width, r = any();
    put_guard(at, r, DATA_SIZE / 2 - width, 26);
    cc100_set_word(at + 8, accesses[i].opcode << 26 | rs(r) | rt(any()) | below(DATA_SIZE / 2 / width) * width);
}

/* A branch or call to the first word of a bundle, where no guard can be jumped over: mostly near, calls anywhere, and where the module is
   straight-through, ahead. */
static uint32_t direct(uint32_t place, int straight)
{
    uint32_t bundle = place / 16, from = straight ? bundle + 1 : 0, near = bundle + below(32), target = from + below(LARGEST / 16 - from);
    if (below(4) == 0)
        return 0x0C000000 | (CODE_BASE + 16 * target) / 4; /* JAL */
    target = straight ? near + 1 : near < 16 ? 0 : near - 16;
    if (target >= LARGEST / 16)
        target = LARGEST / 16 - 1;
    return (4 + below(2)) << 26 | rs(any()) | rt(any()) | ((16 * target - place - 4) / 4 & 0xFFFF); /* BEQ, BNE */
}

/* JR 31, or JALR 31 and a register, with its guard in three words. */
static void put_indirect(uint8_t *at)
{
    uint32_t r = below(2) ? 31 : any();
    put_guard(at, r, LARGEST - 16, 27);
    cc100_set_word(at + 8, r == 31 ? 0x08 | rs(r) : 0x09 | rs(r) | rd(31));
}

static void put_bundle(uint32_t place, int straight)
{
    uint8_t *at = large[straight] + place;
    for (uint32_t i = 0; i < 16; i += 4)
        cc100_set_word(at + i, arithmetic());
    switch (below(16)) {
    case 0:
        if (!straight)
            put_indirect(at);
        break;
    case 1: cc100_set_word(at + 4 * below(4), 0x0000000C | below(8) << 6); break; /* SYSCALL */
    case 2: case 3: case 4: case 5: cc100_set_word(at + 8, direct(place + 8, straight)); break;
    case 6: case 7: case 8: case 9: case 10: put_access(at + 4 * below(2)); break;
    default: break;
    }
}

/* SYSCALL 0, what it does after that, J back to it and its slot: all of the smallest modules. */
static void put_loop(uint8_t *module, uint32_t place, uint32_t word)
{
    const uint32_t loop[] = {0x0000000C, word, 0x08000000 | (CODE_BASE + place) / 4, 0};
    for (uint32_t i = 0; i < 4; i++)
        cc100_set_word(module + place + 4 * i, loop[i]);
}

void make_modules(void)
{
    for (int straight = 0; straight < 2; straight++)
        for (uint32_t place = 0; place < LARGEST - 16; place += 16)
            put_bundle(place, straight);
    put_indirect(large[0] + LARGEST - 16);
    put_loop(large[1], LARGEST - 16, 0);
    put_loop(small[0], 0, 0x01495020); /* ADD 10,10,9 */
    put_loop(small[1], 0, 0);
}

/* Accesses and the guards before them, written down by hand from document 01 and tickets 5 and 7 of document 02: where the two guard words are
   missing or others the number is 12 and the place the access, whatever the numbers in them are; where they are right and a number is wrong the
   number is 22 and the place the ANDI, and where only mask and width are no power of two, 25 and the ANDI. Each is tried at all places of a bundle,
   by the calls that check a module and by that for straight-through ones. */
#include <inttypes.h>

#include "test.h"

#define WORDS 16
#define LAST 12 /* where the last bundle starts */

#define ANDI_8 0x30880000u /* ANDI 8,4,0, and with a mask put in */
#define OR_8 0x011A4025u   /* OR 8,8,26 */
#define LBU_9 0x91090000u  /* LBU 9,0(8), and with an offset put in */
#define SH_9 0xA5090000u
#define LW_9 0x8D090000u

static struct module m;

static void expect_both(uint32_t number, uint32_t place)
{
    expect_verdict(&m, number, place);
    expect_straight(&m, number, place);
}

/* Three words in a straight-through module of sixteen; the data has 64 bytes. */
static void put_three(uint32_t first, uint32_t andi, uint32_t or, uint32_t access)
{
    struct layout l = usual;
    l.code_size = 4 * WORDS;
    make_straight(&m, l);
    m.words[first] = andi;
    m.words[first + 1] = or;
    m.words[first + 2] = access;
    calling("0x%08" PRIX32 ", 0x%08" PRIX32 ", 0x%08" PRIX32 " from word %" PRIu32 " on", andi, or, access, first);
}

/* The words of a guard are right, and these numbers are in it. */
static const struct {
    uint32_t access, mask, offset, number;
} numbers[] = {
    /* width 1: the sum of mask, offset and 1 is at most 64, and that of mask and 1 a power of two */
    {LBU_9, 0x3F, 0, 0}, {LBU_9, 0, 0x3F, 0}, {LBU_9, 0x1F, 0x20, 0}, {LBU_9, 1, 0x3E, 0}, {LBU_9, 0, 0, 0}, {LBU_9, 3, 0, 0},
    {LBU_9, 0x3E, 1, 25}, {LBU_9, 0x15, 0x2A, 25}, {LBU_9, 0x3E, 0, 25}, {LBU_9, 2, 0, 25}, {LBU_9, 0x34, 0, 25}, {LBU_9, 0x3C, 0, 25},
    {LBU_9, 0x20, 0, 25}, {LBU_9, 0x20, 0x1F, 25}, {LBU_9, 0x37, 0, 25}, {LBU_9, 0x37, 9, 22}, {LBU_9, 0x3E, 2, 22}, {LBU_9, 0x34, 0xFFFF, 22},
    {LBU_9, 0x40, 0, 22}, {LBU_9, 0x3F, 1, 22}, {LBU_9, 1, 0x3F, 22}, {LBU_9, 0, 0x40, 22}, {LBU_9, 0xFFFF, 0x7FFF, 22},
    {LBU_9, 0xFFFF, 1, 22}, {LBU_9, 0xFFC0, 0x40, 22},
    {LBU_9, 0, 0xFFFF, 22}, {LBU_9, 0x3F, 0xFFFF, 22}, {LBU_9, 0x20, 0xFFE0, 22}, {LBU_9, 0x20, 0x8000, 22},
    /* width 2: and mask and offset are even */
    {SH_9, 0x3E, 0, 0}, {SH_9, 0, 0x3E, 0}, {SH_9, 2, 0x3C, 0}, {SH_9, 0x1E, 0x20, 0}, {SH_9, 0, 0, 0}, {SH_9, 6, 0, 0},
    {SH_9, 0x3C, 2, 25}, {SH_9, 0x3C, 0, 25}, {SH_9, 4, 0, 25}, {SH_9, 0x34, 0, 25}, {SH_9, 0x20, 0, 25}, {SH_9, 0x2E, 0x10, 25},
    {SH_9, 0x34, 0xC, 22}, {SH_9, 0x34, 1, 22}, {SH_9, 0x35, 0, 22},
    {SH_9, 1, 0, 22}, {SH_9, 0x3D, 0, 22}, {SH_9, 0x3F, 0, 22}, {SH_9, 0, 1, 22}, {SH_9, 0, 0x3D, 22}, {SH_9, 1, 1, 22}, {SH_9, 0x1F, 0x1F, 22},
    {SH_9, 0x40, 0, 22}, {SH_9, 0x3E, 2, 22}, {SH_9, 2, 0x3E, 22}, {SH_9, 0, 0x40, 22}, {SH_9, 0xFFFE, 2, 22}, {SH_9, 0xFFFE, 0x7FFE, 22},
    {SH_9, 0, 0xFFFE, 22}, {SH_9, 0x3E, 0xFFFE, 22}, {SH_9, 0x3E, 0xFFFF, 22}, {SH_9, 0x20, 0x8000, 22},
    /* width 4: and they are multiples of 4 */
    {LW_9, 0x3C, 0, 0}, {LW_9, 0, 0x3C, 0}, {LW_9, 4, 0x38, 0}, {LW_9, 0x1C, 0x20, 0}, {LW_9, 0, 0, 0}, {LW_9, 0xC, 0x30, 0},
    {LW_9, 0x34, 0, 25}, {LW_9, 0x34, 8, 25}, {LW_9, 0x38, 4, 25}, {LW_9, 0x38, 0, 25}, {LW_9, 0x30, 0, 25}, {LW_9, 0x30, 0xC, 25},
    {LW_9, 0x20, 0, 25}, {LW_9, 8, 0, 25}, {LW_9, 8, 0x34, 25}, {LW_9, 0x34, 0xC, 22}, {LW_9, 0x34, 2, 22}, {LW_9, 0x36, 0, 22},
    {LW_9, 0x34, 0xFFFC, 22}, {LW_9, 0x30, 0x10, 22},
    {LW_9, 1, 0, 22}, {LW_9, 2, 0, 22}, {LW_9, 3, 0, 22}, {LW_9, 0x3E, 0, 22}, {LW_9, 0x3F, 0, 22}, {LW_9, 0, 1, 22}, {LW_9, 0, 2, 22},
    {LW_9, 0, 3, 22}, {LW_9, 0, 0x3A, 22}, {LW_9, 2, 2, 22}, {LW_9, 1, 3, 22},
    {LW_9, 0x40, 0, 22}, {LW_9, 0x3C, 4, 22}, {LW_9, 4, 0x3C, 22}, {LW_9, 0, 0x40, 22}, {LW_9, 0xFFFC, 4, 22}, {LW_9, 0xFFFC, 0x7FFC, 22},
    {LW_9, 0, 0xFFFC, 22}, {LW_9, 0x3C, 0xFFFC, 22}, {LW_9, 0x3C, 0xFFFE, 22}, {LW_9, 0x20, 0x8000, 22},
};

/* A whole guard has its numbers tried; one that is split over two bundles is none, whatever they are. */
static void each_number(uint32_t first)
{
    int whole = first % 4 < 2;
    for (size_t i = 0; i < sizeof numbers / sizeof numbers[0]; i++) {
        put_three(first, ANDI_8 | numbers[i].mask, OR_8, numbers[i].access | numbers[i].offset);
        if (!whole)
            expect_both(12, first + 2);
        else
            expect_both(numbers[i].number, numbers[i].number ? first : CC100_NO_PLACE);
    }
}

/* Two words that are no guard of the access whose base is the register behind them. */
static const struct {
    uint32_t andi, or, base;
} others[] = {
    {0, 0, 8}, {0, OR_8, 8}, {ANDI_8, 0, 8}, {ANDI_8, ANDI_8, 8}, {OR_8, OR_8, 8},
    /* ORI, XORI, ADDIU, SLTI and LUI; AND 8,4,5 */
    {0x34880000, OR_8, 8}, {0x38880000, OR_8, 8}, {0x24880000, OR_8, 8}, {0x28880000, OR_8, 8}, {0x3C080000, OR_8, 8}, {0x00854024, OR_8, 8},
    /* ADDU, SUBU, AND, XOR and NOR; ORI 8,8,26 */
    {ANDI_8, 0x011A4021, 8}, {ANDI_8, 0x011A4023, 8}, {ANDI_8, 0x011A4024, 8}, {ANDI_8, 0x011A4026, 8}, {ANDI_8, 0x011A4027, 8},
    {ANDI_8, 0x3508001A, 8},
    /* ANDI 9,4; ANDI 0,4; OR 9,8,26; OR 8,9,26; OR 8,0,26 */
    {0x30890000, OR_8, 8}, {0x30800000, OR_8, 8}, {ANDI_8, 0x011A4825, 8}, {ANDI_8, 0x013A4025, 8}, {ANDI_8, 0x001A4025, 8},
    /* OR 8,8,27; OR 8,8,25; OR 8,8,0; OR 8,8,8; OR 8,26,8 */
    {ANDI_8, 0x011B4025, 8}, {ANDI_8, 0x01194025, 8}, {ANDI_8, 0x01004025, 8}, {ANDI_8, 0x01084025, 8}, {ANDI_8, 0x03484025, 8},
    /* another base; R is 0 in all three; R is 9 in the first two */
    {ANDI_8, OR_8, 9}, {ANDI_8, OR_8, 0}, {ANDI_8, OR_8, 26}, {ANDI_8, OR_8, 27}, {0x30800000, 0x001A0025, 0}, {0x30890000, 0x013A4825, 8},
};

/* With a mask and an offset that would be right, and with ones that would be wrong. A word without a constant is left as it is. */
static void each_other(uint32_t first, uint32_t access, uint32_t width)
{
    const uint32_t pairs[][2] = {{0x20 - width, 0}, {0x40 - width, 0}, {0x34, 0}, {0x3F, 0}, {0x40, 0}, {0x20, 0x10000 - width}, {0x3F, 0xFFFF},
                                 {0xFFFF, 1}};
    for (size_t i = 0; i < sizeof others / sizeof others[0]; i++)
        for (size_t n = 0; n < sizeof pairs / sizeof pairs[0]; n++) {
            uint32_t constant = others[i].andi >> 26 ? pairs[n][0] : 0;
            put_three(first, others[i].andi | constant, others[i].or, (access & ~RS) | others[i].base << 21 | pairs[n][1]);
            expect_both(12, first + 2);
        }
}

/* R is 26 or 27 in all three words: the ANDI writes it, which 10 refuses before the access is reached. */
static void base_registers(void)
{
    for (uint32_t r = 26; r <= 27; r++)
        for (uint32_t mask = 0x3C; mask <= 0x40; mask++) {
            put_three(4, word_of(ANDI, 4, r, 0, mask), word_of(OR, r, 26, r, 0), word_of(LW, r, 9, 0, 0));
            expect_both(10, 4);
        }
}

/* Every mask, in 65,536 bytes of data, with an access of each width at word 2. */
static void each_mask(uint32_t access, uint32_t width)
{
    for (uint32_t mask = 0; mask <= 0xFFFF; mask++) {
        uint32_t power = width, number = mask % width ? 22 : 25;
        while (power < mask + width)
            power *= 2;
        if (power == mask + width)
            number = 0;
        put_three(0, ANDI_8 | mask, OR_8, access);
        m.layout.data_size = 65536;
        expect_both(number, number ? 0 : CC100_NO_PLACE);
    }
}

/* JR and JALR have 13 for wrong words and for wrong numbers, in a code area of 64 bytes, and none for a mask with a hole, 0x20. They are no words of
   a straight-through module. */
static void register_jumps(void)
{
    static const struct {
        uint32_t andi, or, number;
    } guards[] = {{ANDI_8 | 0x30, 0x011B4025, 0}, {ANDI_8 | 0x20, 0x011B4025, 0}, {ANDI_8 | 0x10, 0x011B4025, 0}, {ANDI_8, 0x011B4025, 0},
                  {ANDI_8 | 0x34, 0x011B4025, 13}, {ANDI_8 | 0x3F, 0x011B4025, 13}, {ANDI_8 | 0x38, 0x011B4025, 13}, {ANDI_8 | 0x40, 0x011B4025, 13},
                  {ANDI_8 | 0x30, OR_8, 13}, {ANDI_8 | 0x3F, OR_8, 13}, {0, 0x011B4025, 13}};
    static const uint32_t jumps[] = {0x01000008, 0x0100F809}; /* JR 8 and JALR 31,8 */
    for (size_t i = 0; i < sizeof guards / sizeof guards[0]; i++)
        for (uint32_t jump = 0; jump < 2; jump++) {
            put_three(1, guards[i].andi, guards[i].or, jumps[jump]);
            expect_verdict(&m, guards[i].number, guards[i].number ? 3 : CC100_NO_PLACE);
            expect_straight(&m, guards[i].number ? guards[i].number : CC100_REFUSED_STRAIGHT, 3);
        }
}

/* Two accesses: the earlier word that is tried is named, though the place of 22 or 25 is before it. */
static void one_after_the_other(uint32_t mask, uint32_t number)
{
    put_three(0, ANDI_8 | mask, OR_8, LW_9);
    m.words[3] = LW_9;
    expect_both(number, 0); /* the word after it has no guard */
    put_three(1, ANDI_8 | mask, OR_8, LW_9);
    m.words[0] = LW_9;
    expect_both(12, 0); /* the word before its guard has none */
    put_three(1, ANDI_8 | mask, OR_8, LW_9);
    m.words[0] = 0xFFFFFFFF;
    expect_both(8, 0);
    put_three(0, ANDI_8 | mask, OR_8, 0x8D1A0000);
    expect_both(10, 2); /* LW 26,0(8) */
    put_three(4, ANDI_8 | mask, OR_8, LW_9);
    m.words[0] = ANDI_8 | 0x3C;
    m.words[1] = OR_8;
    m.words[2] = LW_9;
    expect_both(number, 4); /* the first access is right */
    put_three(4, ANDI_8 | 0x3F, OR_8, LW_9);
    m.words[0] = ANDI_8 | 0x34;
    m.words[1] = OR_8;
    m.words[2] = LW_9;
    expect_both(25, 0); /* the first access has a hole in its mask, and the second a wrong mask */
    put_three(4, ANDI_8 | 0x34, OR_8, LW_9);
    m.words[0] = ANDI_8 | 0x3F;
    m.words[1] = OR_8;
    m.words[2] = LW_9;
    expect_both(22, 0);
}

void test_guards(void)
{
    for (uint32_t first = 0; first + 2 < LAST; first++) {
        each_number(first);
        each_other(first, LBU_9, 1);
        each_other(first, SH_9, 2);
        each_other(first, LW_9, 4);
    }
    each_mask(LBU_9, 1);
    each_mask(SH_9, 2);
    each_mask(LW_9, 4);
    base_registers();
    register_jumps();
    one_after_the_other(0x3F, 22);
    one_after_the_other(0x34, 25);
}

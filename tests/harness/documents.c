/* Document 01's own answers, written down from it by hand: its marked cases C1 to C12, C10 and C11 as ticket 5 of document 02 has them, and every
   example of its refusal table; and the accesses, the straight-through modules, the divisions, the guards, the masks and, in starts_by_hand.c, the
   starts of tickets 1, 2, 4, 5, 7 and 8. The emulator is tried on them, as all else here trusts it, and the product and plain C beside it. */
#include <string.h>

#include "harness.h"

#define MEMORY 0x200
#define UNCHANGED 0xFFFFu /* no such place in a state: nothing changes but the program counters */

static struct machine emulator, product;

/* One step at an address with registers 9 and 10, and what must be at two places of the state afterwards. */
struct step_case {
    const char *name;
    uint32_t at, word, r9, r10, number;
    uint32_t place, value, other_place, other_value;
};

static const struct step_case step_cases[] = {
    {"C1 ADD 8,9,10", 0, 0x012A4020, 0x7FFFFFFF, 1, 40, UNCHANGED, 0, UNCHANGED, 0},
    {"C2 ADDU 8,9,10", 0, 0x012A4021, 0xFFFFFFFF, 1, 0, CC100_REGISTER(8), 0, UNCHANGED, 0},
    {"C3 SLTIU 8,9,0xFFFF", 0, 0x2D28FFFF, 5, 0, 0, CC100_REGISTER(8), 1, UNCHANGED, 0},
    {"C4 SRA 8,9,4", 0, 0x00094103, 0x80000000, 0, 0, CC100_REGISTER(8), 0xF8000000, UNCHANGED, 0},
    {"C5 MULT 9,10", 0, 0x012A0018, 0xFFFFFFFF, 2, 0, CC100_HI, 0xFFFFFFFF, CC100_LO, 0xFFFFFFFE},
    {"C6 MULTU 9,10", 0, 0x012A0019, 0xFFFFFFFF, 2, 0, CC100_HI, 1, CC100_LO, 0xFFFFFFFE},
    {"C7 DIV 9,10", 0, 0x012A001A, 0xFFFFFFF9, 2, 0, CC100_LO, 0xFFFFFFFD, CC100_HI, 0xFFFFFFFF},
    {"C8 BEQ 0,0,-1", 0x100, 0x1000FFFF, 0, 0, 0, CC100_NEXT_PC, 0x100, CC100_PC, 0x104},
    {"Machine: 0x80000000 by -1", 0, 0x012A001A, 0x80000000, 0xFFFFFFFF, 0, CC100_LO, 0x80000000, CC100_HI, 0},
    {"Traps: TGEIU 9,0xFFFF", 0, 0x0529FFFF, 5, 0, 0, UNCHANGED, 0, UNCHANGED, 0},
    {"Traps: TLTIU 9,0xFFFF", 0, 0x052BFFFF, 5, 0, 48, UNCHANGED, 0, UNCHANGED, 0},
    {"Traps: BLTZAL 9 not taken", 0, 0x05300004, 5, 0, 0, CC100_REGISTER(31), 8, CC100_NEXT_PC, 8},
    {"17 PC 2", 2, 0, 0, 0, 17, UNCHANGED, 0, UNCHANGED, 0},
};

/* Ticket 4's zero divisors, and divisions by another that come near to its LO and HI; C7 and 0x80000000 by -1 are above. */
static const struct step_case division_cases[] = {
    {"DIV of 0 by 0", 0, 0x012A001A, 0, 0, 0, CC100_LO, 0xFFFFFFFF, CC100_HI, 0},
    {"DIV of 5 by 0", 0, 0x012A001A, 5, 0, 0, CC100_LO, 0xFFFFFFFF, CC100_HI, 5},
    {"DIV of 0x80000000 by 0", 0, 0x012A001A, 0x80000000, 0, 0, CC100_LO, 0xFFFFFFFF, CC100_HI, 0x80000000},
    {"DIV of 0xFFFFFFFF by 0", 0, 0x012A001A, 0xFFFFFFFF, 0, 0, CC100_LO, 0xFFFFFFFF, CC100_HI, 0xFFFFFFFF},
    {"DIV of 5 by register 0", 0, 0x0120001A, 5, 7, 0, CC100_LO, 0xFFFFFFFF, CC100_HI, 5},
    {"DIVU of 0 by 0", 0, 0x012A001B, 0, 0, 0, CC100_LO, 0xFFFFFFFF, CC100_HI, 0},
    {"DIVU of 5 by 0", 0, 0x012A001B, 5, 0, 0, CC100_LO, 0xFFFFFFFF, CC100_HI, 5},
    {"DIVU of 0x80000000 by 0", 0, 0x012A001B, 0x80000000, 0, 0, CC100_LO, 0xFFFFFFFF, CC100_HI, 0x80000000},
    {"DIVU of 0xFFFFFFFF by 0", 0, 0x012A001B, 0xFFFFFFFF, 0, 0, CC100_LO, 0xFFFFFFFF, CC100_HI, 0xFFFFFFFF},
    {"DIVU of 5 by register 0", 0, 0x0120001B, 5, 7, 0, CC100_LO, 0xFFFFFFFF, CC100_HI, 5},
    {"DIVU of 0xFFFFFFFF by 1", 0, 0x012A001B, 0xFFFFFFFF, 1, 0, CC100_LO, 0xFFFFFFFF, CC100_HI, 0},
    {"DIV of 0xFFFFFFFF by 1", 0, 0x012A001A, 0xFFFFFFFF, 1, 0, CC100_LO, 0xFFFFFFFF, CC100_HI, 0},
    {"DIV of 1 by -1", 0, 0x012A001A, 1, 0xFFFFFFFF, 0, CC100_LO, 0xFFFFFFFF, CC100_HI, 0},
    {"DIV of -3 by 2", 0, 0x012A001A, 0xFFFFFFFD, 2, 0, CC100_LO, 0xFFFFFFFF, CC100_HI, 0xFFFFFFFF},
    {"DIV of -1 by 2", 0, 0x012A001A, 0xFFFFFFFF, 2, 0, CC100_LO, 0, CC100_HI, 0xFFFFFFFF},
    {"DIVU of 5 by 7", 0, 0x012A001B, 5, 7, 0, CC100_LO, 0, CC100_HI, 5},
    {"DIVU of 0x80000000 by 0xFFFFFFFF", 0, 0x012A001B, 0x80000000, 0xFFFFFFFF, 0, CC100_LO, 0, CC100_HI, 0x80000000},
    {"DIV of 0 by 5", 0, 0x012A001A, 0, 5, 0, CC100_LO, 0, CC100_HI, 0},
};

static void expect_place(uint8_t *expected, uint32_t place, uint32_t value)
{
    if (place != UNCHANGED)
        cc100_set_word(expected + place, value);
}

static void put_case(const struct step_case *c)
{
    memset(emulator.state.bytes, 0, CC100_STATE_LENGTH);
    memset(emulator.memory.bytes, 0, MEMORY);
    set_state(&emulator, CC100_HI, 0x1234);
    set_state(&emulator, CC100_LO, 0x5678);
    set_state(&emulator, CC100_REGISTER(9), c->r9);
    set_state(&emulator, CC100_REGISTER(10), c->r10);
    set_state(&emulator, CC100_PC, c->at);
    set_state(&emulator, CC100_NEXT_PC, c->at + 4);
    set_memory(&emulator, c->at, c->word);
    copy_machine(&product, &emulator);
}

static void try_case(const struct step_case *c)
{
    uint8_t expected[CC100_STATE_LENGTH];
    now.name = c->name;
    now.word = c->word;
    put_case(c);
    memcpy(expected, emulator.state.bytes, sizeof expected);
    if (c->number == 0) {
        cc100_set_word(expected + CC100_PC, c->at + 4);
        cc100_set_word(expected + CC100_NEXT_PC, c->at + 8);
    }
    expect_place(expected, c->place, c->value);
    expect_place(expected, c->other_place, c->other_value);
    struct em_access access;
    uint32_t number = compare_step(&emulator, &product, &access);
    now.call = "em_step";
    same_number("number", c->number, number);
    same_bytes("state", expected, emulator.state.bytes, sizeof expected);
}

/* What a step with register 9 at 0x40, and the LL word, answers and carries. */
struct access_case {
    const char *name;
    uint32_t word, ll, number;
    struct em_access access;
};

static const struct access_case access_cases[] = {
    {"LB 8,3(9)", 0x81280003, 0, 0, {0x43, 1, 0}},
    {"LBU 8,3(9)", 0x91280003, 0, 0, {0x43, 1, 0}},
    {"LH 8,2(9)", 0x85280002, 0, 0, {0x42, 2, 0}},
    {"LHU 8,2(9)", 0x95280002, 0, 0, {0x42, 2, 0}},
    {"LW 8,-4(9)", 0x8D28FFFC, 0, 0, {0x3C, 4, 0}},
    {"LL 8,0(9)", 0xC1280000, 0, 0, {0x40, 4, 0}},
    {"SB 8,3(9)", 0xA1280003, 0, 0, {0x43, 1, 1}},
    {"SH 8,2(9)", 0xA5280002, 0, 0, {0x42, 2, 1}},
    {"SW 8,4(9)", 0xAD280004, 0, 0, {0x44, 4, 1}},
    {"SC 8,0(9)", 0xE1280000, 1, 0, {0x40, 4, 1}},
    {"SC 8,0(9) that does not store", 0xE1280000, 0, 0, {0, 0, 0}},
    {"ADDU 8,9,10", 0x012A4021, 1, 0, {0, 0, 0}},
    {"LW 8,2(9), not aligned", 0x8D280002, 1, 42, {0, 0, 0}},
    {"LB 8,0x1C0(9), outside memory", 0x812801C0, 1, 42, {0, 0, 0}},
    {"SC 8,2(9), not aligned", 0xE1280002, 1, 43, {0, 0, 0}},
    {"SW 8,0x1C0(9), outside memory", 0xAD2801C0, 1, 43, {0, 0, 0}},
    {"SYSCALL 0", 0x0000000C, 1, 46, {0, 0, 0}},
};

static void try_access(const struct access_case *c)
{
    struct em_access access;
    now.name = c->name;
    now.word = c->word;
    put_case(&(struct step_case){.word = c->word, .r9 = 0x40});
    set_state(&emulator, CC100_LL, c->ll);
    copy_machine(&product, &emulator);
    uint32_t number = compare_step(&emulator, &product, &access);
    now.call = "em_step";
    same_number("number", c->number, number);
    same_number("address of the access", c->access.address, access.address);
    same_number("width of the access", c->access.width, access.width);
    same_number("store of the access", c->access.store, access.store);
}

/* A module of at most sixteen words, mostly in the layout of the examples with one number of it changed: its verdict. */
#define MOST_CASE_WORDS 16
struct module_case {
    const char *name;
    uint64_t memory_length;
    uint32_t code_base, code_size, data_base, data_size, image_length, words[MOST_CASE_WORDS], number, place;
};

#define EXAMPLE 196608, 0x10000, 32, 0x20000, 64, 32
#define QUIET {0, 0, 0, 0, 0, 0, 0x08004000, 0}
#define NONE EM_NO_PLACE

static const struct module_case module_cases[] = {
    {"C9 module M", EXAMPLE, {0x3108003C, 0x011A4025, 0xAD090000, 0x0000000C, 0, 0, 0x08004000, 0}, 0, NONE},
    {"C10 M, mask 0x3F", EXAMPLE, {0x3108003F, 0x011A4025, 0xAD090000, 0x0000000C, 0, 0, 0x08004000, 0}, 22, 0},
    {"C11 M, mask 0x40", EXAMPLE, {0x31080040, 0x011A4025, 0xAD090000, 0x0000000C, 0, 0, 0x08004000, 0}, 22, 0},
    {"C12 M, jump to word 1", EXAMPLE, {0x3108003C, 0x011A4025, 0xAD090000, 0x0000000C, 0, 0, 0x08004001, 0}, 15, 6},
    {"1 memory of 16,777,217 bytes", 16777217, 0x10000, 32, 0x20000, 64, 32, QUIET, 1, NONE},
    {"2 code size 24", 196608, 0x10000, 24, 0x20000, 64, 32, QUIET, 2, NONE},
    {"3 data size 2", 196608, 0x10000, 32, 0x20000, 2, 32, QUIET, 3, NONE},
    {"4 code base 0x10010", 196608, 0x10010, 32, 0x20000, 64, 32, QUIET, 4, NONE},
    {"5 data base 0x30000", 196608, 0x10000, 32, 0x30000, 64, 32, QUIET, 5, NONE},
    {"6 data base 0x10000", 196608, 0x10000, 32, 0x10000, 64, 32, QUIET, 6, NONE},
    {"7 image of 28 bytes", 196608, 0x10000, 32, 0x20000, 64, 28, QUIET, 7, NONE},
    {"8 word 0xFFFFFFFF", EXAMPLE, {0xFFFFFFFF, 0, 0, 0, 0, 0, 0x08004000, 0}, 8, 0},
    {"9 word 0x42000010", EXAMPLE, {0, 0x42000010, 0, 0, 0, 0, 0x08004000, 0}, 9, 1},
    {"10 word 0x3C1A0000", EXAMPLE, {0, 0, 0x3C1A0000, 0, 0, 0, 0x08004000, 0}, 10, 2},
    {"11 word 0x07F10000", EXAMPLE, {0, 0, 0, 0x07F10000, 0, 0, 0x08004000, 0}, 11, 3},
    {"12 word 0xAD090000", EXAMPLE, {0xAD090000, 0, 0, 0, 0, 0, 0x08004000, 0}, 12, 0},
    {"13 word 0x03E00008", EXAMPLE, {0x03E00008, 0, 0, 0, 0, 0, 0x08004000, 0}, 13, 0},
    {"14 0x08004000 twice", EXAMPLE, {0, 0, 0, 0, 0, 0x08004000, 0x08004000, 0}, 14, 6},
    {"15 word 0x08004007", EXAMPLE, {0, 0, 0, 0, 0, 0, 0x08004007, 0}, 15, 6},
    {"16 eight zero words", EXAMPLE, {0, 0, 0, 0, 0, 0, 0, 0}, 16, 6},
};

/* The same for ticket 2. Modules of eight words have their last bundle at word 4, to which 0x08004004 jumps. */
#define LAST_BUNDLE 0x0000000C, 0, 0x08004004, 0

static const struct module_case straight_cases[] = {
    {"four words", 196608, 0x10000, 16, 0x20000, 64, 16, {0x0000000C, 0, 0x08004000, 0}, 0, NONE},
    {"BEQ two words ahead", EXAMPLE, {0x10000001, 0, 0, 0, LAST_BUNDLE}, 0, NONE},
    {"BEQ to the last bundle's start", EXAMPLE, {0, 0, 0x10000001, 0, LAST_BUNDLE}, 0, NONE},
    {"JAL to the last bundle's start", EXAMPLE, {0x0C004004, 0, 0, 0, LAST_BUNDLE}, 0, NONE},
    {"BEQ one word ahead", EXAMPLE, {0x10000000, 0, 0, 0, LAST_BUNDLE}, 20, 0},
    {"BEQ to itself", EXAMPLE, {0, 0x1000FFFF, 0, 0, LAST_BUNDLE}, 20, 1},
    {"BEQ to the word before it", EXAMPLE, {0, 0, 0, 0x1000FFFE, LAST_BUNDLE}, 20, 3},
    {"J to the last bundle's start, one word ahead", EXAMPLE, {0, 0, 0, 0x08004004, LAST_BUNDLE}, 20, 3},
    {"J past the last bundle's start", EXAMPLE, {0x08004005, 0, 0, 0, LAST_BUNDLE}, 20, 0},
    {"BEQ to the last word but one", EXAMPLE, {0, 0x10000004, 0, 0, LAST_BUNDLE}, 20, 1},
    {"J to the last word", EXAMPLE, {0x08004007, 0, 0, 0, LAST_BUNDLE}, 15, 0},
    {"J to the last bundle's start, at that start", EXAMPLE, {0, 0, 0, 0, 0x08004004, 0, 0x08004004, 0}, 20, 4},
    {"JAL in the last word but one", EXAMPLE, {0, 0, 0, 0, 0x0000000C, 0, 0x0C004004, 0}, 20, 6},
    {"J to word 0 in the last word but one", EXAMPLE, {0, 0, 0, 0, 0x0000000C, 0, 0x08004000, 0}, 20, 6},
    {"J to itself in the last word but one", EXAMPLE, {0, 0, 0, 0, 0x0000000C, 0, 0x08004006, 0}, 20, 6},
    {"C9 module M", EXAMPLE, {0x3108003C, 0x011A4025, 0xAD090000, 0x0000000C, 0, 0, 0x08004000, 0}, 20, 6},
    {"JR with its guard", EXAMPLE, {0x30A50010, 0x00BB2825, 0x00A00008, 0, LAST_BUNDLE}, 20, 2},
    {"JALR with its guard", EXAMPLE, {0, 0x30A50010, 0x00BB2825, 0x00A0F809, LAST_BUNDLE}, 20, 3},
    {"JR without a guard", EXAMPLE, {0x00A00008, 0, 0, 0, LAST_BUNDLE}, 13, 0},
    {"JR with its guard as the last bundle", EXAMPLE, {0, 0, 0, 0, 0x30A50010, 0x00BB2825, 0x00A00008, 0}, 20, 6},
    {"SYSCALL 1", EXAMPLE, {0, 0, 0, 0, 0x0000004C, 0, 0x08004004, 0}, 21, NONE},
    {"BREAK 0", EXAMPLE, {0, 0, 0, 0, 0x0000000D, 0, 0x08004004, 0}, 21, NONE},
    {"ADDU 0,0,0 after SYSCALL 0", EXAMPLE, {0, 0, 0, 0, 0x0000000C, 0x00000021, 0x08004004, 0}, 21, NONE},
    {"ADDU 0,0,0 in the last word", EXAMPLE, {0, 0, 0, 0, 0x0000000C, 0, 0x08004004, 0x00000021}, 21, NONE},
    {"the rest of the bundle differs", EXAMPLE, {0, 0, 0, 0, 0x24050001, 0x24060001, 0x08004004, 0x24070001}, 21, NONE},
    {"eight zero words: 16 before 21", EXAMPLE, {0, 0, 0, 0, 0, 0, 0, 0}, 16, 6},
    {"20 before 16", EXAMPLE, {0x1000FFFF, 0, 0, 0, 0, 0, 0, 0}, 20, 0},
    {"20 before 8 at a later word", EXAMPLE, {0x1000FFFF, 0xFFFFFFFF, 0, 0, LAST_BUNDLE}, 20, 0},
    {"8 before 20 at a later word", EXAMPLE, {0xFFFFFFFF, 0x1000FFFF, 0, 0, LAST_BUNDLE}, 8, 0},
    {"7 before 20", 196608, 0x10000, 32, 0x20000, 64, 28, {0x1000FFFF, 0, 0, 0, LAST_BUNDLE}, 7, NONE},
};

/* The same for ticket 5, in modules that the profile takes too: the first bundle, and behind it the last one. */
#define ANDI_8(mask) (0x31080000 | (mask)) /* ANDI 8,8,mask */
#define OR_8 0x011A4025                    /* OR 8,8,26 */
#define SW_9 0xAD090000                    /* SW 9,0(8), and with an offset added to it */
#define SH_9 0xA5090000
#define LB_9 0x81090000

static const struct module_case guard_cases[] = {
    {"SW, mask no multiple", EXAMPLE, {ANDI_8(0x3E), OR_8, SW_9, 0, LAST_BUNDLE}, 22, 0},
    {"SH, mask no multiple", EXAMPLE, {ANDI_8(0x3D), OR_8, SH_9, 0, LAST_BUNDLE}, 22, 0},
    {"SH, mask a multiple of 2 alone", EXAMPLE, {ANDI_8(0x3E), OR_8, SH_9, 0, LAST_BUNDLE}, 0, NONE},
    {"SW, offset no multiple", EXAMPLE, {ANDI_8(0x38), OR_8, SW_9 | 2, 0, LAST_BUNDLE}, 22, 0},
    {"SH, offset no multiple", EXAMPLE, {ANDI_8(0x30), OR_8, SH_9 | 1, 0, LAST_BUNDLE}, 22, 0},
    {"SW, offset -4", EXAMPLE, {ANDI_8(0x3C), OR_8, SW_9 | 0xFFFC, 0, LAST_BUNDLE}, 22, 0},
    {"SW, offset -2", EXAMPLE, {ANDI_8(0x3C), OR_8, SW_9 | 0xFFFE, 0, LAST_BUNDLE}, 22, 0},
    {"LB, offset -32,768", EXAMPLE, {ANDI_8(0x3F), OR_8, LB_9 | 0x8000, 0, LAST_BUNDLE}, 22, 0},
    {"LB, sum of 64", EXAMPLE, {ANDI_8(0x1F), OR_8, LB_9 | 0x20, 0, LAST_BUNDLE}, 0, NONE},
    {"LB, sum of 65 by the offset", EXAMPLE, {ANDI_8(0x3F), OR_8, LB_9 | 1, 0, LAST_BUNDLE}, 22, 0},
    {"LB, sum of 65 by the mask", EXAMPLE, {ANDI_8(0x40), OR_8, LB_9, 0, LAST_BUNDLE}, 22, 0},
    {"SW, sum of 68 by the offset", EXAMPLE, {ANDI_8(0x3C), OR_8, SW_9 | 4, 0, LAST_BUNDLE}, 22, 0},
    {"SW in the fourth word", EXAMPLE, {0, ANDI_8(0x3F), OR_8, SW_9, LAST_BUNDLE}, 22, 1},
    {"22, and then no instruction", EXAMPLE, {ANDI_8(0x3F), OR_8, SW_9, 0xFFFFFFFF, LAST_BUNDLE}, 22, 0},
    {"no instruction, and then 22", EXAMPLE, {0xFFFFFFFF, ANDI_8(0x3F), OR_8, SW_9, LAST_BUNDLE}, 8, 0},
    {"12, and then 22", EXAMPLE, {SW_9, ANDI_8(0x3F), OR_8, SW_9, LAST_BUNDLE}, 12, 0},
    {"22, and then 12", EXAMPLE, {ANDI_8(0x3F), OR_8, SW_9, SW_9, LAST_BUNDLE}, 22, 0},
    {"LW 26 with a wrong mask", EXAMPLE, {ANDI_8(0x3F), OR_8, 0x8D1A0000, 0, LAST_BUNDLE}, 10, 2},
    {"no ANDI", EXAMPLE, {0, OR_8, SW_9 | 1, 0, LAST_BUNDLE}, 12, 2},
    {"ORI for ANDI", EXAMPLE, {0x3508003F, OR_8, SW_9, 0, LAST_BUNDLE}, 12, 2},
    {"ANDI 9,8 with a wrong mask", EXAMPLE, {0x3109003F, OR_8, SW_9, 0, LAST_BUNDLE}, 12, 2},
    {"OR 8,9,26", EXAMPLE, {ANDI_8(0x3F), 0x013A4025, SW_9, 0, LAST_BUNDLE}, 12, 2},
    {"OR 9,8,26", EXAMPLE, {ANDI_8(0x3F), 0x011A4825, SW_9, 0, LAST_BUNDLE}, 12, 2},
    {"OR 8,8,27", EXAMPLE, {ANDI_8(0x3F), 0x011B4025, SW_9, 0, LAST_BUNDLE}, 12, 2},
    {"OR 8,26,8", EXAMPLE, {ANDI_8(0x3F), 0x03484025, SW_9, 0, LAST_BUNDLE}, 12, 2},
    {"ADDU for OR", EXAMPLE, {ANDI_8(0x3F), 0x011A4021, SW_9, 0, LAST_BUNDLE}, 12, 2},
    {"R is 0", EXAMPLE, {0x3100003F, 0x001A0025, 0xAC090000, 0, LAST_BUNDLE}, 12, 2},
    {"base is 9", EXAMPLE, {ANDI_8(0x3F), OR_8, 0xAD290000, 0, LAST_BUNDLE}, 12, 2},
    {"base is 26", EXAMPLE, {ANDI_8(0x3F), OR_8, 0xAF490000, 0, LAST_BUNDLE}, 12, 2},
    {"base is 27", EXAMPLE, {ANDI_8(0x3F), OR_8, 0xAF690000, 0, LAST_BUNDLE}, 12, 2},
    {"R is 26: its ANDI is refused before", EXAMPLE, {0x311A003F, 0x035AD025, 0xAF490000, 0, LAST_BUNDLE}, 10, 0},
    {"a word between the guard and SW", EXAMPLE, {ANDI_8(0x3F), OR_8, 0, SW_9, LAST_BUNDLE}, 12, 3},
    {"SW in the next bundle", EXAMPLE, {0, 0, ANDI_8(0x3F), OR_8, SW_9, 0, 0x08004004, 0}, 12, 4},
    {"OR and SW in the next bundle", EXAMPLE, {0, 0, 0, ANDI_8(0x3F), OR_8, SW_9, 0x08004004, 0}, 12, 5},
    {"JR, mask no multiple", EXAMPLE, {ANDI_8(0x1F), 0x011B4025, 0x01000008, 0, LAST_BUNDLE}, 13, 2},
    {"JALR, mask too large", EXAMPLE, {ANDI_8(0x20), 0x011B4025, 0x0100F809, 0, LAST_BUNDLE}, 13, 2},
    {"JR with OR 8,8,26", EXAMPLE, {ANDI_8(0x3F), OR_8, 0x01000008, 0, LAST_BUNDLE}, 13, 2},
};

/* And for ticket 7, in the same way. */
#define DATA_OF(size) 196608, 0x10000, 32, 0x20000, size, 32
#define FIRST(mask, access) {ANDI_8(mask), OR_8, access, 0, LAST_BUNDLE}

static const struct module_case hole_cases[] = {
    {"SW, mask 0x34", EXAMPLE, FIRST(0x34, SW_9), 25, 0},
    {"SW, mask 0x3C", EXAMPLE, FIRST(0x3C, SW_9), 0, NONE},
    {"SW, mask 0x30", EXAMPLE, FIRST(0x30, SW_9), 25, 0},
    {"SW, mask 0x20", EXAMPLE, FIRST(0x20, SW_9), 25, 0},
    {"SW, mask 0x38", EXAMPLE, FIRST(0x38, SW_9), 25, 0},
    {"SW, mask 0x1C", EXAMPLE, FIRST(0x1C, SW_9), 0, NONE},
    {"SW, mask 0x1C and offset 0x20", EXAMPLE, FIRST(0x1C, SW_9 | 0x20), 0, NONE},
    {"SW, mask 0x34 and offset 8", EXAMPLE, FIRST(0x34, SW_9 | 8), 25, 0},
    {"SW, mask 0", EXAMPLE, FIRST(0, SW_9), 0, NONE},
    {"SW, mask 0 and offset 0x3C", EXAMPLE, FIRST(0, SW_9 | 0x3C), 0, NONE},
    {"SW, mask 4", EXAMPLE, FIRST(4, SW_9), 0, NONE},
    {"SW, mask 8", EXAMPLE, FIRST(8, SW_9), 25, 0},
    {"SW, mask 0xC", EXAMPLE, FIRST(0xC, SW_9), 0, NONE},
    {"SH, mask 0", EXAMPLE, FIRST(0, SH_9), 0, NONE},
    {"SH, mask 2", EXAMPLE, FIRST(2, SH_9), 0, NONE},
    {"SH, mask 4", EXAMPLE, FIRST(4, SH_9), 25, 0},
    {"SH, mask 0x3C", EXAMPLE, FIRST(0x3C, SH_9), 25, 0},
    {"SH, mask 0x3E", EXAMPLE, FIRST(0x3E, SH_9), 0, NONE},
    {"LB, mask 0", EXAMPLE, FIRST(0, LB_9), 0, NONE},
    {"LB, mask 1", EXAMPLE, FIRST(1, LB_9), 0, NONE},
    {"LB, mask 2", EXAMPLE, FIRST(2, LB_9), 25, 0},
    {"LB, mask 3", EXAMPLE, FIRST(3, LB_9), 0, NONE},
    {"LB, mask 0x3C", EXAMPLE, FIRST(0x3C, LB_9), 25, 0},
    {"LB, mask 0x3E", EXAMPLE, FIRST(0x3E, LB_9), 25, 0},
    {"LB, mask 0x3F", EXAMPLE, FIRST(0x3F, LB_9), 0, NONE},
    {"LBU, mask 0x1F", EXAMPLE, FIRST(0x1F, 0x91090000), 0, NONE},
    {"LBU, mask 0x20", EXAMPLE, FIRST(0x20, 0x91090000), 25, 0},
    {"SB, mask 0x3F", EXAMPLE, FIRST(0x3F, 0xA1090000), 0, NONE},
    {"SB, mask 0x2F", EXAMPLE, FIRST(0x2F, 0xA1090000), 25, 0},
    {"LH, mask 0x1E", EXAMPLE, FIRST(0x1E, 0x85090000), 0, NONE},
    {"LH, mask 0x1C", EXAMPLE, FIRST(0x1C, 0x85090000), 25, 0},
    {"LHU, mask 6", EXAMPLE, FIRST(6, 0x95090000), 0, NONE},
    {"LHU, mask 0xA", EXAMPLE, FIRST(0xA, 0x95090000), 25, 0},
    {"LW, mask 0x3C", EXAMPLE, FIRST(0x3C, 0x8D090000), 0, NONE},
    {"LW, mask 0x34", EXAMPLE, FIRST(0x34, 0x8D090000), 25, 0},
    {"LL, mask 0x3C", EXAMPLE, FIRST(0x3C, 0xC1090000), 0, NONE},
    {"LL, mask 0x2C", EXAMPLE, FIRST(0x2C, 0xC1090000), 25, 0},
    {"SC, mask 0x3C", EXAMPLE, FIRST(0x3C, 0xE1090000), 0, NONE},
    {"SC, mask 0x18", EXAMPLE, FIRST(0x18, 0xE1090000), 25, 0},
    {"LB, mask 0xFFFF", DATA_OF(65536), FIRST(0xFFFF, LB_9), 0, NONE},
    {"LB, mask 0xFFFE", DATA_OF(65536), FIRST(0xFFFE, LB_9), 25, 0},
    {"LB, mask 0x8000", DATA_OF(65536), FIRST(0x8000, LB_9), 25, 0},
    {"LB, mask 0x7FFF and offset 0x7FFF", DATA_OF(65536), FIRST(0x7FFF, LB_9 | 0x7FFF), 0, NONE},
    {"SH, mask 0xFFFE", DATA_OF(65536), FIRST(0xFFFE, SH_9), 0, NONE},
    {"SH, mask 0xFFFC", DATA_OF(65536), FIRST(0xFFFC, SH_9), 25, 0},
    {"SW, mask 0xFFFC", DATA_OF(65536), FIRST(0xFFFC, SW_9), 0, NONE},
    {"SW, mask 0x7FFC", DATA_OF(65536), FIRST(0x7FFC, SW_9), 0, NONE},
    {"SW, mask 0x8000", DATA_OF(65536), FIRST(0x8000, SW_9), 25, 0},
    {"SW, mask 0 of 4 bytes", DATA_OF(4), FIRST(0, SW_9), 0, NONE},
    {"SW, mask 0x34 of 128 bytes", DATA_OF(128), FIRST(0x34, SW_9), 25, 0},
    {"SW, mask 0x40 of 128 bytes", DATA_OF(128), FIRST(0x40, SW_9), 25, 0},
    {"SW in the fourth word", EXAMPLE, {0, ANDI_8(0x34), OR_8, SW_9, LAST_BUNDLE}, 25, 1},
    {"22 before 25: mask no multiple", EXAMPLE, FIRST(0x36, SW_9), 22, 0},
    {"22 before 25: mask too large", EXAMPLE, FIRST(0x40, SW_9), 22, 0},
    {"22 before 25: offset no multiple", EXAMPLE, FIRST(0x34, SW_9 | 2), 22, 0},
    {"22 before 25: offset negative", EXAMPLE, FIRST(0x34, SW_9 | 0xFFFC), 22, 0},
    {"22 before 25: sum of 68", EXAMPLE, FIRST(0x34, SW_9 | 0xC), 22, 0},
    {"22 alone: mask 0x7C", EXAMPLE, FIRST(0x7C, SW_9), 22, 0},
    {"12 before 25: ORI for ANDI", EXAMPLE, {0x35080034, OR_8, SW_9, 0, LAST_BUNDLE}, 12, 2},
    {"12 before 25: OR 8,8,27", EXAMPLE, {ANDI_8(0x34), 0x011B4025, SW_9, 0, LAST_BUNDLE}, 12, 2},
    {"12 before 25: base is 9", EXAMPLE, FIRST(0x34, 0xAD290000), 12, 2},
    {"12 before 25: SW in the next bundle", EXAMPLE, {0, 0, ANDI_8(0x34), OR_8, SW_9, 0, 0x08004004, 0}, 12, 4},
    {"12, and then 25", EXAMPLE, {SW_9, ANDI_8(0x34), OR_8, SW_9, LAST_BUNDLE}, 12, 0},
    {"25, and then 12", EXAMPLE, {ANDI_8(0x34), OR_8, SW_9, SW_9, LAST_BUNDLE}, 25, 0},
    {"22, and then 25", EXAMPLE, {ANDI_8(0x3F), OR_8, SW_9, 0, ANDI_8(0x34), OR_8, SW_9, 0}, 22, 0},
    {"25, and then 22", EXAMPLE, {ANDI_8(0x34), OR_8, SW_9, 0, ANDI_8(0x3F), OR_8, SW_9, 0}, 25, 0},
    {"25, and then no instruction", EXAMPLE, {ANDI_8(0x34), OR_8, SW_9, 0xFFFFFFFF, LAST_BUNDLE}, 25, 0},
    {"no instruction, and then 25", EXAMPLE, {0xFFFFFFFF, ANDI_8(0x34), OR_8, SW_9, LAST_BUNDLE}, 8, 0},
    {"25 before 16", EXAMPLE, {ANDI_8(0x34), OR_8, SW_9, 0, 0, 0, 0, 0}, 25, 0},
    {"LW 26, mask 0x34", EXAMPLE, FIRST(0x34, 0x8D1A0000), 10, 2},
    {"JR, mask 0x18", EXAMPLE, {ANDI_8(0x18), 0x011B4025, 0x01000008, 0, LAST_BUNDLE}, 13, 2},
};

/* JR and JALR keep their masks, in 64 bytes of code with a jump in the last word but one. The profile refuses them by 20. */
#define JUMP_OF(mask, jump) \
    196608, 0x10000, 64, 0x20000, 64, 64, {ANDI_8(mask), 0x011B4025, jump, 0, 0, 0, 0, 0, 0, 0, 0, 0, 0, 0, 0x08004000, 0}

static const struct module_case jump_cases[] = {
    {"JR, mask 0x30", JUMP_OF(0x30, 0x01000008), 0, NONE},
    {"JR, mask 0x20", JUMP_OF(0x20, 0x01000008), 0, NONE},
    {"JR, mask 0x10", JUMP_OF(0x10, 0x01000008), 0, NONE},
    {"JALR, mask 0x20", JUMP_OF(0x20, 0x0100F809), 0, NONE},
    {"JALR, mask 0x34", JUMP_OF(0x34, 0x0100F809), 13, 2},
};

static void try_module(const struct profile *p, const struct module_case *c)
{
    static struct module m;
    uint8_t image[4 * MOST_CASE_WORDS];
    struct em_module e = {c->memory_length, c->code_base, c->code_size, c->data_base, c->data_size, image, c->image_length};
    uint32_t place;
    m = (struct module){c->memory_length, c->code_base, c->code_size, c->data_base, c->data_size, c->image_length, 0, {0}};
    memcpy(m.words, c->words, sizeof c->words);
    now.name = c->name;
    now.word = c->number;
    write_image(&m, image);
    now.call = "the emulator's checker";
    same_number("number", c->number, p->check(&e, &place));
    same_number("place", c->place, place);
    p->compare(&m);
    now.call = "the emulator's broken rules";
    same_number("the rule is among them", c->number != 0, p->broken(&m) >> c->number & 1);
}

/* Writing a shift of 32, a run and a resume with PC 2, and a resume at the word 0. */
static void other_refusals(void)
{
    uint32_t word = 1, steps = 1;
    struct em_access access;
    now.name = "18 shift 32";
    now.call = "em_write";
    same_number("number", 18, em_write((struct em_instruction){SLL, 0, 1, 2, 32, 0}, &word));
    same_number("word", 0, word);
    same_number("number of cc100_write", 18, cc100_write(SLL, 0, 1, 2, 32, 0).number);
    now.name = "17 PC 2";
    put_case(&(struct step_case){.at = 2});
    same_number("number of em_run", 17, compare_run(&emulator, &product, 1, &steps, &access));
    same_number("steps of em_run", 0, steps);
    same_number("number of em_resume", 17, compare_resume(&emulator, &product));
    now.name = "19 PC at word 0x00000000";
    put_case(&(struct step_case){.at = 0x40});
    same_number("number of em_resume", 19, compare_resume(&emulator, &product));
}

void test_documents(void)
{
    begin_part("documents");
    emulator = machine_for(MEMORY);
    product = machine_for(MEMORY);
    for (size_t i = 0; i < COUNT(step_cases); i++)
        try_case(&step_cases[i]);
    for (size_t i = 0; i < COUNT(division_cases); i++)
        try_case(&division_cases[i]);
    for (size_t i = 0; i < COUNT(access_cases); i++)
        try_access(&access_cases[i]);
    for (size_t i = 0; i < COUNT(module_cases); i++)
        try_module(&usual, &module_cases[i]);
    for (size_t i = 0; i < COUNT(straight_cases); i++)
        try_module(&straight, &straight_cases[i]);
    for (size_t i = 0; i < 2 * COUNT(guard_cases); i++)
        try_module(i % 2 ? &straight : &usual, &guard_cases[i / 2]);
    for (size_t i = 0; i < 2 * COUNT(hole_cases); i++)
        try_module(i % 2 ? &straight : &usual, &hole_cases[i / 2]);
    for (size_t i = 0; i < COUNT(jump_cases); i++)
        try_module(&usual, &jump_cases[i]);
    other_refusals();
    size_t starts = try_starts_by_hand();
    end_part("%zu steps and %zu modules with document 01's answers, %zu accesses, %zu divisions, %zu straight-through modules, %zu guards, %zu "
             "masks and %zu starts with document 02's", COUNT(step_cases) + 2, COUNT(module_cases), COUNT(access_cases), COUNT(division_cases),
             COUNT(straight_cases), COUNT(guard_cases), COUNT(hole_cases) + COUNT(jump_cases), starts);
}

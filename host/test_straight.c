/* The rules for straight-through modules, 20 and 21, at their limits and beside the others. */
#include <inttypes.h>
#include <string.h>

#include "test.h"

#define NONE CC100_NO_PLACE

/* Modules of sixteen words: the last bundle starts at word 12. */
#define WORDS 16
#define LAST 12

static struct module m;

static struct layout with_code(uint32_t base, uint32_t size)
{
    struct layout l = usual;
    l.code_base = base;
    l.code_size = size;
    return l;
}

/* A straight-through module of sixteen words. */
static void make_sixteen(void) { make_straight(&m, with_code(usual.code_base, 4 * WORDS)); }

/* A module of eight words, whose last bundle starts at word 4. */
struct example {
    const char *name;
    uint32_t words[8], number, place;
};

#define BUNDLE 0x0000000C, 0, 0x08004004, 0

static const struct example examples[] = {
    {"nothing but the last bundle", {0, 0, 0, 0, BUNDLE}, 0, NONE},
    {"module M", {0x3108003C, 0x011A4025, 0xAD090000, 0x0000000C, 0, 0, 0x08004000, 0}, 20, 6},
    {"module M's work, and the last bundle", {0x3108003C, 0x011A4025, 0xAD090000, 0x0000004C, BUNDLE}, 0, NONE},
    /* document 01's examples, in the words before the last bundle */
    {"no instruction", {0xFFFFFFFF, 0, 0, 0, BUNDLE}, 8, 0},
    {"RFE", {0, 0x42000010, 0, 0, BUNDLE}, 9, 1},
    {"LUI 26", {0x3C1A0000, 0, 0, 0, BUNDLE}, 10, 0},
    {"BGEZAL 31", {0x07F10001, 0, 0, 0, BUNDLE}, 11, 0},
    {"SW without guard", {0xAD090000, 0, 0, 0, BUNDLE}, 12, 0},
    {"C10: mask 0x3F", {0x3108003F, 0x011A4025, 0xAD090000, 0, BUNDLE}, 22, 0},
    {"mask 0x34", {0x31080034, 0x011A4025, 0xAD090000, 0, BUNDLE}, 25, 0},
    {"JR without guard", {0x03E00008, 0, 0, 0, BUNDLE}, 13, 0},
    {"J after J", {0x08004004, 0x08004004, 0, 0, BUNDLE}, 14, 1},
    {"J to the last word", {0x08004007, 0, 0, 0, BUNDLE}, 15, 0},
    {"eight zero words: 16 and 21", {0, 0, 0, 0, 0, 0, 0, 0}, 16, 6},
    /* two rules broken */
    {"JR without guard: 13 and 20", {0, 0, 0x00A00008, 0, BUNDLE}, 13, 2},
    {"BEQ to the word before an access: 15 before 20 at one word", {0x3108003C, 0x011A4025, 0xAD090000, 0x1000FFFD, BUNDLE}, 15, 3},
    {"BEQ ahead to an access: 15 alone", {0x10000001, 0x3108003C, 0x011A4025, 0xAD090000, BUNDLE}, 15, 0},
    {"J back after J: 14 and 20", {0x08004004, 0x08004000, 0, 0, BUNDLE}, 14, 1},
    {"BEQ to itself, then no instruction: 20 before 8 at a later word", {0x1000FFFF, 0, 0xFFFFFFFF, 0, BUNDLE}, 20, 0},
    {"BEQ to itself, then J to the last word: 20 before 15 at a later word", {0x1000FFFF, 0, 0x08004007, 0, BUNDLE}, 20, 0},
    {"no instruction, then BEQ to itself: 8 before 20 at a later word", {0xFFFFFFFF, 0, 0x1000FFFF, 0, BUNDLE}, 8, 0},
    {"mask 0x3F, then BEQ to itself: 22 before 20 at a later word", {0x3108003F, 0x011A4025, 0xAD090000, 0x1000FFFF, BUNDLE}, 22, 0},
    {"BEQ to itself, then mask 0x3F: 20 before 22 at a later word", {0x1000FFFF, 0x3108003F, 0x011A4025, 0xAD090000, BUNDLE}, 20, 0},
    {"mask 0x3F, and SYSCALL 1: 22 before 21", {0, 0x3108003F, 0x011A4025, 0xAD090000, 0x0000004C, 0, 0x08004004, 0}, 22, 1},
    {"mask 0x34, then BEQ to itself: 25 before 20 at a later word", {0x31080034, 0x011A4025, 0xAD090000, 0x1000FFFF, BUNDLE}, 25, 0},
    {"BEQ to itself, then mask 0x34: 20 before 25 at a later word", {0x1000FFFF, 0x31080034, 0x011A4025, 0xAD090000, BUNDLE}, 20, 0},
    {"mask 0x34, and SYSCALL 1: 25 before 21", {0, 0x31080034, 0x011A4025, 0xAD090000, 0x0000004C, 0, 0x08004004, 0}, 25, 1},
    {"BEQ to itself twice: the earlier word", {0, 0x1000FFFF, 0, 0x1000FFFF, BUNDLE}, 20, 1},
    {"BEQ to itself, and no last jump: 20 before 16", {0, 0, 0x1000FFFF, 0, 0x0000000C, 0, 0, 0}, 20, 2},
    {"BEQ to itself, and SYSCALL 1: 20 before 21", {0, 0, 0x1000FFFF, 0, 0x0000004C, 0, 0x08004004, 0}, 20, 2},
    {"no instruction in the last word: 8 before 21", {0, 0, 0, 0, 0x0000000C, 0, 0x08004004, 0xFFFFFFFF}, 8, 7},
    {"all but the jump differs: 21 and not 20", {0, 0, 0, 0, 0x24050001, 0x24060001, 0x08004004, 0x24070001}, 21, NONE},
};

static void each_example(void)
{
    for (size_t i = 0; i < sizeof examples / sizeof examples[0]; i++) {
        make_quiet(&m, usual);
        memcpy(m.words, examples[i].words, sizeof examples[i].words);
        calling("straight-through: %s", examples[i].name);
        expect_straight(&m, examples[i].number, examples[i].place);
    }
}

/* A branch or jump at a word to another word. */
static uint32_t to_word(uint32_t kind, uint32_t at, uint32_t target)
{
    return word_of(kind, 5, 0, 0, drawings[kind - 1].value == INDEX ? usual.code_base / 4 + target : target - at - 1);
}

/* What a branch at a word of sixteen is refused by: the last word and all outside break 15, and in the last word it is in a slot. */
static uint32_t expected_at(uint32_t kind, int at, int target)
{
    if (at == WORDS - 1)
        return CC100_REFUSED_SLOT;
    if (target < 0 || target >= WORDS - 1)
        return CC100_REFUSED_TARGET;
    int excused = kind == J && at == WORDS - 2 && target == LAST;
    return (target >= at + 2 && target <= LAST) || excused ? CC100_DONE : CC100_REFUSED_STRAIGHT;
}

static void every_target(uint32_t kind)
{
    for (int at = 0; at < WORDS; at++)
        for (int target = -3; target < WORDS + 3; target++) {
            uint32_t number = expected_at(kind, at, target);
            make_sixteen();
            m.words[at] = to_word(kind, (uint32_t)at, (uint32_t)target);
            calling("kind %" PRIu32 " at word %d to word %d of %d", kind, at, target, WORDS);
            expect_straight(&m, number, number ? (uint32_t)at : NONE);
        }
}

/* The largest module, at two bases: from both ends of its words to the last bundle's start, and one word further. */
static void far_targets(uint32_t base)
{
    static const struct {
        uint32_t at, target, number;
    } far[] = {{0, 16380, 0}, {0, 16381, 20}, {0, 16382, 20}, {0, 16383, 15}, {16378, 16380, 0}, {16379, 16380, 20}, {16378, 16379, 20},
               {16378, 0, 20}, {0, 2, 0}, {0, 1, 20}, {0, 0, 20}, {8191, 8193, 0}, {8191, 8192, 20}, {8191, 8190, 20}};
    for (size_t i = 0; i < sizeof far / sizeof far[0]; i++)
        for (int jump = 0; jump < 2; jump++) {
            uint32_t index = base / 4 + far[i].target, offset = far[i].target - far[i].at - 1;
            make_straight(&m, with_code(base, 65536));
            m.words[far[i].at] = jump ? word_of(J, 0, 0, 0, index) : word_of(BEQ, 0, 0, 0, offset);
            calling("0x%08" PRIX32 " at word %" PRIu32 " of 16384 at 0x%" PRIx32, m.words[far[i].at], far[i].at, base);
            expect_straight(&m, far[i].number, far[i].number ? far[i].at : NONE);
        }
}

/* JR and JALR with a guard that fits, at every place that a guard may have, also in the last bundle. */
static void register_jumps(uint32_t kind)
{
    for (uint32_t first = 0; first < WORDS - 2; first++) {
        if (first % 4 > 1)
            continue;
        make_sixteen();
        put_guard(&m, first, 8, 16, CODE_REGISTER);
        m.words[first + 2] = word_of(kind, 8, 0, 31, 0);
        calling("kind %" PRIu32 " with its guard at word %" PRIu32, kind, first + 2);
        expect_straight(&m, CC100_REFUSED_STRAIGHT, first + 2);
        m.words[first] = 0;
        calling("kind %" PRIu32 " without its guard at word %" PRIu32, kind, first + 2);
        expect_straight(&m, CC100_REFUSED_JUMP, first + 2);
    }
}

/* One word of the last bundle replaced. */
static void expect_last(uint32_t place, uint32_t word, uint32_t number)
{
    make_sixteen();
    m.words[LAST + place] = word;
    calling("0x%08" PRIX32 " at word %" PRIu32 " of the last bundle", word, place);
    expect_straight(&m, number, number == CC100_DONE || number == CC100_REFUSED_LAST_BUNDLE ? NONE : LAST + place);
}

static void last_bundles(void)
{
    static const uint32_t others[] = {0, 0x0000000D, 0x0000004D, 0x0000000F, 0x00000034, 0x24050001, 0x00000021, 0x3108003C};
    expect_last(0, 0x0000000C, CC100_DONE);
    for (uint32_t bit = 6; bit < 26; bit++)
        expect_last(0, 0x0000000C | 1u << bit, CC100_REFUSED_LAST_BUNDLE);
    expect_last(0, 0x03FFFFCC, CC100_REFUSED_LAST_BUNDLE);
    expect_last(0, 0x000003CD, CC100_REFUSED_PRIVILEGED); /* BREAK 15 */
    for (size_t i = 0; i < sizeof others / sizeof others[0]; i++) {
        expect_last(0, others[i], CC100_REFUSED_LAST_BUNDLE);
        expect_last(1, others[i], others[i] ? CC100_REFUSED_LAST_BUNDLE : CC100_DONE);
        expect_last(2, others[i], CC100_REFUSED_END);
        expect_last(3, others[i], others[i] ? CC100_REFUSED_LAST_BUNDLE : CC100_DONE);
    }
    for (uint32_t shift = 1; shift < 32; shift++) { /* SLL 0,0: it does nothing, and is not the zero word */
        expect_last(1, shift << 6, CC100_REFUSED_LAST_BUNDLE);
        expect_last(3, shift << 6, CC100_REFUSED_LAST_BUNDLE);
    }
    expect_last(1, 0x0000000C, CC100_REFUSED_LAST_BUNDLE);
    expect_last(3, 0x0000000C, CC100_REFUSED_LAST_BUNDLE);
    /* its jump with each bit of its index off: to words 13, 14, 8 and 4, and then outside */
    for (uint32_t bit = 0; bit < 26; bit++)
        expect_last(2, to_word(J, LAST + 2, LAST) ^ 1u << bit, bit < 4 ? CC100_REFUSED_STRAIGHT : CC100_REFUSED_TARGET);
}

/* The last bundle twice, whose first J leads back; then that J ahead, to the last one and to zeros. */
static void misplaced(void)
{
    make_sixteen();
    memmove(m.words + LAST - 4, m.words + LAST, 4 * sizeof m.words[0]);
    m.words[LAST - 2] = to_word(J, LAST - 2, LAST - 4);
    calling("two last bundles");
    expect_straight(&m, CC100_REFUSED_STRAIGHT, LAST - 2);
    m.words[LAST - 2] = to_word(J, LAST - 2, LAST);
    calling("a bundle before the last one that leads to it");
    expect_straight(&m, CC100_DONE, NONE);
    memset(m.words + LAST, 0, 4 * sizeof m.words[0]);
    calling("a bundle that leads to zeros");
    expect_straight(&m, CC100_REFUSED_END, WORDS - 2);
}

void test_straight(void)
{
    each_example();
    for (uint32_t kind = 1; kind <= KINDS; kind++)
        if (direct(kind))
            every_target(kind);
    far_targets(usual.code_base);
    far_targets(0);
    register_jumps(JR);
    register_jumps(JALR);
    last_bundles();
    misplaced();
}

/* The checker's calls: document 01's refusal table and marked cases, C10 and C11 as ticket 5 of document 02 has them, ticket 7's mask, the layout at
   its limits, and the order of the rules. */
#include <inttypes.h>
#include <string.h>

#include "test.h"

#define NONE CC100_NO_PLACE

static struct module m;

/* A module of eight words. */
struct example {
    const char *name;
    uint32_t words[8], number, place;
};

static const struct example examples[] = {
    {"C9: M", {0x3108003C, 0x011A4025, 0xAD090000, 0x0000000C, 0, 0, 0x08004000, 0}, 0, NONE},
    {"C10: M, first word 0x3108003F", {0x3108003F, 0x011A4025, 0xAD090000, 0x0000000C, 0, 0, 0x08004000, 0}, 22, 0},
    {"C11: M, first word 0x31080040", {0x31080040, 0x011A4025, 0xAD090000, 0x0000000C, 0, 0, 0x08004000, 0}, 22, 0},
    {"M, mask 0x34", {0x31080034, 0x011A4025, 0xAD090000, 0x0000000C, 0, 0, 0x08004000, 0}, 25, 0},
    {"C12: M, jump 0x08004001", {0x3108003C, 0x011A4025, 0xAD090000, 0x0000000C, 0, 0, 0x08004001, 0}, 15, 6},
    {"no instruction", {0xFFFFFFFF, 0, 0, 0, 0, 0, 0x08004000, 0}, 8, 0},
    {"RFE", {0x42000010, 0, 0, 0, 0, 0, 0x08004000, 0}, 9, 0},
    {"LUI 26", {0x3C1A0000, 0, 0, 0, 0, 0, 0x08004000, 0}, 10, 0},
    {"BGEZAL 31", {0x07F10000, 0, 0, 0, 0, 0, 0x08004000, 0}, 11, 0},
    {"SW without guard", {0xAD090000, 0, 0, 0, 0, 0, 0x08004000, 0}, 12, 0},
    {"JR without guard", {0x03E00008, 0, 0, 0, 0, 0, 0x08004000, 0}, 13, 0},
    {"J after J", {0x08004000, 0x08004000, 0, 0, 0, 0, 0x08004000, 0}, 14, 1},
    {"J to the last word", {0x08004007, 0, 0, 0, 0, 0, 0x08004000, 0}, 15, 0},
    {"J to the last word, in the last word but one", {0, 0, 0, 0, 0, 0, 0x08004007, 0}, 15, 6},
    {"eight zero words", {0, 0, 0, 0, 0, 0, 0, 0}, 16, 6},
    /* two rules broken: the earlier word first, and of one word the lower number, but 22 and 25 after 12 */
    {"22, then 8", {0x3108003F, 0x011A4025, 0xAD090000, 0xFFFFFFFF, 0, 0, 0x08004000, 0}, 22, 0},
    {"8, then 22", {0xFFFFFFFF, 0x3108003F, 0x011A4025, 0xAD090000, 0, 0, 0x08004000, 0}, 8, 0},
    {"12, then 22", {0xAD090000, 0x3108003F, 0x011A4025, 0xAD090000, 0, 0, 0x08004000, 0}, 12, 0},
    {"22, then 12", {0x3108003F, 0x011A4025, 0xAD090000, 0xAD090000, 0, 0, 0x08004000, 0}, 22, 0},
    {"mask 0x36: 22 and 25", {0x31080036, 0x011A4025, 0xAD090000, 0, 0, 0, 0x08004000, 0}, 22, 0},
    {"mask 0x34 and offset 12: 22 and 25", {0x31080034, 0x011A4025, 0xAD09000C, 0, 0, 0, 0x08004000, 0}, 22, 0},
    {"mask 0x34 with OR 8,8,27: 12 alone", {0x31080034, 0x011B4025, 0xAD090000, 0, 0, 0, 0x08004000, 0}, 12, 2},
    {"25, then 8", {0x31080034, 0x011A4025, 0xAD090000, 0xFFFFFFFF, 0, 0, 0x08004000, 0}, 25, 0},
    {"8, then 25", {0xFFFFFFFF, 0x31080034, 0x011A4025, 0xAD090000, 0, 0, 0x08004000, 0}, 8, 0},
    {"12, then 25", {0xAD090000, 0x31080034, 0x011A4025, 0xAD090000, 0, 0, 0x08004000, 0}, 12, 0},
    {"25, then 12", {0x31080034, 0x011A4025, 0xAD090000, 0xAD090000, 0, 0, 0x08004000, 0}, 25, 0},
    {"25, then 22", {0x31080034, 0x011A4025, 0xAD090000, 0, 0, 0x3108003F, 0x011A4025, 0xAD090000}, 25, 0},
    {"22, then 25", {0x3108003F, 0x011A4025, 0xAD090000, 0, 0, 0x31080034, 0x011A4025, 0xAD090000}, 22, 0},
    {"15, then 8", {0x08004007, 0xFFFFFFFF, 0, 0, 0, 0, 0x08004000, 0}, 15, 0},
    {"8 in the last word, and 16", {0, 0, 0, 0, 0, 0, 0, 0xFFFFFFFF}, 8, 7},
    {"9 in the last word, and 16", {0, 0, 0, 0, 0, 0, 0, 0x42000010}, 9, 7},
    {"MFC0 26,12: 9 and 10", {0x401A6000, 0, 0, 0, 0, 0, 0x08004000, 0}, 9, 0},
    {"JALR 27,27: 10, 11 and 13", {0x0360D809, 0, 0, 0, 0, 0, 0x08004000, 0}, 10, 0},
    {"LW 26,0(5): 10 and 12", {0x8CBA0000, 0, 0, 0, 0, 0, 0x08004000, 0}, 10, 0},
    {"SC 27,0(5): 10 and 12", {0xE0BB0000, 0, 0, 0, 0, 0, 0x08004000, 0}, 10, 0},
    {"LW 26,0(8) with mask 0x3F: 10 and 22", {0x3108003F, 0x011A4025, 0x8D1A0000, 0, 0, 0, 0x08004000, 0}, 10, 2},
    {"LW 26,0(8) with mask 0x34: 10 and 25", {0x31080034, 0x011A4025, 0x8D1A0000, 0, 0, 0, 0x08004000, 0}, 10, 2},
    {"mask 0x3F with ORI for ANDI: 12 alone", {0x3508003F, 0x011A4025, 0xAD090000, 0, 0, 0, 0x08004000, 0}, 12, 2},
    {"22 in the last word, and 16", {0, 0, 0, 0, 0, 0x3108003F, 0x011A4025, 0xAD090000}, 22, 5},
    {"25 in the last word, and 16", {0, 0, 0, 0, 0, 0x31080034, 0x011A4025, 0xAD090000}, 25, 5},
    {"JALR 5,5: 11 and 13", {0x00A02809, 0, 0, 0, 0, 0, 0x08004000, 0}, 11, 0},
    {"BLTZAL 31 after J and out of the code: 11, 14 and 15", {0x08004000, 0x07F07FFF, 0, 0, 0, 0, 0x08004000, 0}, 11, 1},
    {"JR after J: 13 and 14", {0x08004004, 0x00A00008, 0, 0, 0, 0, 0x08004000, 0}, 13, 1},
    {"JALR 31,5 after J: 13 and 14", {0x08004004, 0x00A0F809, 0, 0, 0, 0, 0x08004000, 0}, 13, 1},
    {"J to the last word after J: 14 and 15", {0x08004000, 0x08004007, 0, 0, 0, 0, 0x08004000, 0}, 14, 1},
    {"J to SW with mask 0x3F: 15 before 22", {0x08004006, 0, 0, 0, 0x3108003F, 0x011A4025, 0xAD090000, 0}, 15, 0},
    {"J to SW with mask 0x34: 15 before 25", {0x08004006, 0, 0, 0, 0x31080034, 0x011A4025, 0xAD090000, 0}, 15, 0},
    {"J to SW without guard: 15 before 12", {0x08004004, 0, 0, 0, 0xAD090000, 0, 0x08004000, 0}, 15, 0},
};

static void each_example(void)
{
    for (size_t i = 0; i < sizeof examples / sizeof examples[0]; i++) {
        make_quiet(&m, usual);
        memcpy(m.words, examples[i].words, sizeof examples[i].words);
        calling("%s", examples[i].name);
        expect_verdict(&m, examples[i].number, examples[i].place);
    }
}

/* A layout, the length of its image, and what is said of a module that does nothing, also as a straight-through one. */
struct limit {
    struct layout layout;
    size_t length;
    uint32_t number;
};

static const struct limit limits[] = {
    /* document 01's examples */
    {{16777217, 0x10000, 32, 0x20000, 64}, 32, 1},
    {{196608, 0x10000, 24, 0x20000, 64}, 24, 2},
    {{196608, 0x10000, 32, 0x20000, 2}, 32, 3},
    {{196608, 0x10010, 32, 0x20000, 64}, 32, 4},
    {{196608, 0x10000, 32, 0x30000, 64}, 32, 5},
    {{196608, 0x10000, 32, 0x10000, 64}, 32, 6},
    {{196608, 0x10000, 32, 0x20000, 64}, 28, 7},
    /* memory: the longest, longer, and one that 32 bits would cut to a length that fits */
    {{16777216, 0x10000, 32, 0x20000, 64}, 32, 0},
    {{16777216, 0xFFFFE0, 32, 0x20000, 64}, 32, 0},
    {{16777216, 0x10000, 32, 0xFFFFC0, 64}, 32, 0},
    {{16777216, 0x1000000, 32, 0x20000, 64}, 32, 4},
    {{16777216, 0x10000, 32, 0x1000000, 64}, 32, 5},
    {{16777217, 0x1000000, 32, 0x20000, 64}, 32, 1},
    {{0x100000000, 0x10000, 32, 0x20000, 64}, 32, 1},
    {{0x100030000, 0x10000, 32, 0x20000, 64}, 32, 1},
    {{0xFFFFFFFFFFFFFFFF, 0x10000, 32, 0x20000, 64}, 32, 1},
    /* memory that ends with an area, in one, or before it */
    {{0x20040, 0x10000, 32, 0x20000, 64}, 32, 0},
    {{0x2003F, 0x10000, 32, 0x20000, 64}, 32, 5},
    {{0x10020, 0x10000, 32, 0, 64}, 32, 0},
    {{0x1001F, 0x10000, 32, 0, 64}, 32, 4},
    {{0x10020, 0x10000, 32, 0x20000, 64}, 32, 5},
    {{20, 0, 16, 16, 4}, 16, 0},
    {{19, 0, 16, 16, 4}, 16, 5},
    {{32, 16, 16, 0, 4}, 16, 0},
    {{31, 16, 16, 0, 4}, 16, 4},
    {{15, 0, 16, 0, 4}, 16, 4},
    {{0, 0, 16, 0, 4}, 16, 4},
    /* bases */
    {{196608, 0, 32, 0x20000, 64}, 32, 0},
    {{196608, 0x10000, 32, 0, 64}, 32, 0},
    {{196608, 0x2FFE0, 32, 0x20000, 64}, 32, 0},
    {{196608, 0x30000, 32, 0x20000, 64}, 32, 4},
    {{196608, 0x10001, 32, 0x20000, 64}, 32, 4},
    {{196608, 0x10004, 32, 0x20000, 64}, 32, 4},
    {{196608, 0x1001F, 32, 0x20000, 64}, 32, 4},
    {{196608, 0xFFFFFFE0, 32, 0x20000, 64}, 32, 4},
    {{196608, 0xFFFFFFFF, 32, 0x20000, 64}, 32, 4},
    {{196608, 0xFFFF0000, 65536, 0x20000, 64}, 65536, 4},
    {{196608, 0x10000, 32, 0x2FFC0, 64}, 32, 0},
    {{196608, 0x10000, 32, 0x20020, 64}, 32, 5},
    {{196608, 0x10000, 32, 0x20001, 64}, 32, 5},
    {{196608, 0x10000, 32, 0x20002, 4}, 32, 5},
    {{196608, 0x10000, 32, 0xFFFFFFC0, 64}, 32, 5},
    {{196608, 0x10000, 32, 0xFFFFFFFF, 64}, 32, 5},
    /* areas side by side, one in the other, and the same */
    {{196608, 0x10000, 64, 0x10040, 64}, 64, 0},
    {{196608, 0x10040, 64, 0x10000, 64}, 64, 0},
    {{196608, 0x10000, 64, 0x1003C, 4}, 64, 6},
    {{196608, 0x10000, 64, 0x10040, 4}, 64, 0},
    {{196608, 0x10000, 64, 0xFFFC, 4}, 64, 0},
    {{196608, 0x20000, 32, 0x20000, 64}, 32, 6},
    {{196608, 0x20020, 32, 0x20000, 64}, 32, 6},
    {{196608, 0x20040, 32, 0x20000, 64}, 32, 0},
    {{196608, 0x1FFE0, 32, 0x20000, 64}, 32, 0},
    {{196608, 0x10000, 65536, 0x1FFC0, 64}, 65536, 6},
    {{196608, 0x10000, 65536, 0x20000, 65536}, 65536, 0},
    {{196608, 0x10000, 32, 0x10000, 65536}, 32, 6},
    /* the image */
    {{196608, 0x10000, 32, 0x20000, 64}, 0, 7},
    {{196608, 0x10000, 32, 0x20000, 64}, 16, 7},
    {{196608, 0x10000, 32, 0x20000, 64}, 31, 7},
    {{196608, 0x10000, 32, 0x20000, 64}, 33, 7},
    {{196608, 0x10000, 32, 0x20000, 64}, 64, 7},
    {{196608, 0x10000, 65536, 0x20000, 64}, 65535, 7},
    {{196608, 0x10000, 65536, 0x20000, 64}, 65537, 7},
    {{196608, 0x10000, 65536, 0x20000, 64}, 65536, 0},
    /* one less is broken than before: what is left has the higher number */
    {{16777217, 0x10010, 24, 0x30001, 2}, 28, 1},
    {{196608, 0x10010, 24, 0x30001, 2}, 28, 2},
    {{196608, 0x10010, 32, 0x30001, 2}, 28, 3},
    {{196608, 0x10010, 32, 0x30001, 64}, 28, 4},
    {{196608, 0x10000, 32, 0x30001, 64}, 28, 5},
    {{196608, 0x10000, 32, 0x10000, 64}, 28, 6},
};

/* Sizes that are refused have no last bundle that could be put in: the layout is put in afterwards. */
static void expect_layout(const struct layout *l, size_t length, uint32_t number)
{
    struct layout right = usual;
    if (number != CC100_REFUSED_CODE_SIZE) {
        right.code_base = l->code_base;
        right.code_size = l->code_size;
    }
    make_straight(&m, right);
    m.layout = *l;
    m.length = length;
    calling("memory of %" PRIu64 " bytes, code 0x%" PRIx32 " size %" PRIu32 ", data 0x%" PRIx32 " size %" PRIu32 ", image of %zu",
            l->memory_length, l->code_base, l->code_size, l->data_base, l->data_size, length);
    expect_verdict(&m, number, CC100_NO_PLACE);
    expect_straight(&m, number, CC100_NO_PLACE);
}

static void each_limit(void)
{
    for (size_t i = 0; i < sizeof limits / sizeof limits[0]; i++)
        expect_layout(&limits[i].layout, limits[i].length, limits[i].number);
}

static int power_of_two(uint32_t size) { return size != 0 && (size & (size - 1)) == 0; }

/* Each power of two, and the numbers beside it. */
static void each_size(void)
{
    for (int bit = 0; bit < 32; bit++)
        for (uint32_t size = (1u << bit) - 1; size != (1u << bit) + 2; size++) {
            struct layout code = usual, data = usual;
            int fits = power_of_two(size) && size <= 65536;
            code.code_size = data.data_size = size;
            expect_layout(&code, fits ? size : 32, fits && size >= 16 ? CC100_DONE : CC100_REFUSED_CODE_SIZE);
            expect_layout(&data, 32, fits && size >= 4 ? CC100_DONE : CC100_REFUSED_DATA_SIZE);
        }
}

/* A refused layout is told before anything in the image is looked at, and 7 before its words. */
static void layout_before_words(void)
{
    make_quiet(&m, usual);
    m.words[0] = 0xFFFFFFFF;
    m.length = 28;
    calling("an image of 28 bytes, and a word that is no instruction");
    expect_verdict(&m, CC100_REFUSED_IMAGE_LENGTH, CC100_NO_PLACE);
    m.layout.data_base = 0x10000;
    calling("areas that overlap, and a word that is no instruction");
    expect_verdict(&m, CC100_REFUSED_OVERLAP, CC100_NO_PLACE);
    m.layout = usual;
    m.length = 32;
    calling("a word that is no instruction");
    expect_verdict(&m, CC100_REFUSED_NO_INSTRUCTION, 0);
}

void test_check(void)
{
    each_example();
    each_limit();
    each_size();
    layout_before_words();
}

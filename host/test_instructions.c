/* cc100_read and cc100_write, beside the drawings and beside a reader in plain C. */
#include <inttypes.h>

#include "test.h"

#define FIELDS 5
#define WORDS_OF_A_KIND 50
#define RANDOM_WORDS 20000

/* The field under a mask, as a number. */
static uint32_t cut(uint32_t word, uint32_t mask) { return mask ? (word & mask) / (mask & -mask) : 0; }

static cc100_instruction expected_read(uint32_t kind, uint32_t word)
{
    const struct drawing *d = &drawings[kind - 1];
    cc100_instruction i = {kind, cut(word, d->rs), cut(word, d->rt), cut(word, d->rd), cut(word, d->shift), cut(word, d->value)};
    return i;
}

static void expect_read(uint32_t word, cc100_instruction expected)
{
    cc100_instruction came = cc100_read(word);
    calling("cc100_read(0x%08" PRIX32 ")", word);
    expect_number("kind", expected.kind, came.kind);
    expect_number("rs", expected.rs, came.rs);
    expect_number("rt", expected.rt, came.rt);
    expect_number("rd", expected.rd, came.rd);
    expect_number("shift", expected.shift, came.shift);
    expect_number("value", expected.value, came.value);
}

static void expect_write(cc100_instruction i, uint32_t number, uint32_t word)
{
    cc100_written came = cc100_write(i.kind, i.rs, i.rt, i.rd, i.shift, i.value);
    calling("cc100_write(%" PRIu32 ", %" PRIu32 ", %" PRIu32 ", %" PRIu32 ", %" PRIu32 ", %" PRIu32 ")", i.kind, i.rs, i.rt, i.rd, i.shift,
            i.value);
    expect_number("number", number, came.number);
    expect_number("word", word, came.word);
}

static void both_ways(uint32_t kind)
{
    for (int n = 0; n < WORDS_OF_A_KIND; n++) {
        uint32_t word = random_word_of(kind);
        expect_read(word, expected_read(kind, word));
        expect_write(expected_read(kind, word), CC100_DONE, word);
    }
    /* a bit off can be another instruction, or none */
    uint32_t word = random_word_of(kind);
    for (int bit = 0; bit < 32; bit++)
        expect_read(word ^ 1u << bit, plain_read(word ^ 1u << bit));
}

/* Each field just too wide, far too wide, and 1 where the kind does not have it. */
static void wrong_fields(uint32_t kind)
{
    const struct drawing *d = &drawings[kind - 1];
    const uint32_t masks[FIELDS] = {d->rs, d->rt, d->rd, d->shift, d->value};
    cc100_instruction right = expected_read(kind, random_word_of(kind));
    for (int f = 0; f < FIELDS; f++) {
        uint32_t first_wrong = masks[f] ? masks[f] / (masks[f] & -masks[f]) + 1 : 1;
        cc100_instruction wrong = right;
        uint32_t *const fields[FIELDS] = {&wrong.rs, &wrong.rt, &wrong.rd, &wrong.shift, &wrong.value};
        *fields[f] = first_wrong;
        expect_write(wrong, CC100_REFUSED_INSTRUCTION, 0);
        *fields[f] = 0xFFFFFFFF;
        expect_write(wrong, CC100_REFUSED_INSTRUCTION, 0);
    }
}

static void control_registers(uint32_t kind)
{
    for (uint32_t rd = 0; rd < 32; rd++) {
        uint32_t word = drawings[kind - 1].fixed | 6 << 16 | rd << 11;
        int legal = rd == 8 || rd == 12 || rd == 13 || rd == 14;
        cc100_instruction none = {0, 0, 0, 0, 0, 0}, i = {kind, 0, 6, rd, 0, 0};
        expect_read(word, legal ? i : none);
        expect_write(i, legal ? CC100_DONE : CC100_REFUSED_INSTRUCTION, legal ? word : 0);
    }
}

void test_instructions(void)
{
    static const uint32_t no_kinds[] = {0, 73, 74, 0x80000001, 0xFFFFFFFF};
    for (size_t n = 0; n < sizeof no_kinds / sizeof no_kinds[0]; n++) {
        cc100_instruction i = {no_kinds[n], 0, 0, 0, 0, 0};
        expect_write(i, CC100_REFUSED_INSTRUCTION, 0);
    }
    for (uint32_t kind = 1; kind <= KINDS; kind++) {
        both_ways(kind);
        wrong_fields(kind);
        if (control_register(kind))
            control_registers(kind);
    }
    for (int n = 0; n < RANDOM_WORDS; n++) {
        uint32_t word = next_random();
        expect_read(word, plain_read(word));
    }
}

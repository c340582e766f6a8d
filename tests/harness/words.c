/* The reader and the writer: words that are drawn, damaged and random, and fields that are legal, too wide and not legal. */
#include <string.h>

#include "harness.h"

#define WORDS_OF_A_KIND 200
#define DOUBLE_DAMAGES 64
#define RANDOM_WORDS 1000000
#define FIELDS_OF_A_KIND 10
#define RANDOM_FIELDS 500000

static unsigned long reads, none, writes, refused, met[EM_KINDS + 1];

static void same_instruction(const char *call, struct em_instruction expected, cc100_instruction came)
{
    now.call = call;
    same_number("kind", expected.kind, came.kind);
    same_number("rs", expected.rs, came.rs);
    same_number("rt", expected.rt, came.rt);
    same_number("rd", expected.rd, came.rd);
    same_number("shift", expected.shift, came.shift);
    same_number("value", expected.value, came.value);
}

/* Gives the word, or 0 where it is refused. */
static uint32_t compare_write(struct em_instruction i)
{
    uint32_t word = 0, number = em_write(i, &word);
    cc100_written came = cc100_write(i.kind, i.rs, i.rt, i.rd, i.shift, i.value);
    now.call = "cc100_write";
    now.word = i.kind;
    same_number("number", number, came.number);
    same_number("word", word, came.word);
    writes++;
    refused += number != 0;
    return word;
}

static void compare_read(uint32_t word)
{
    struct em_instruction i = em_read(word);
    now.name = "word";
    now.word = word;
    same_instruction("cc100_read", i, cc100_read(word));
    same_instruction("plain_read", i, plain_read(word));
    reads++;
    if (i.kind == 0) {
        none++;
        return;
    }
    met[i.kind]++;
    same_number("word read and written", word, compare_write(i));
}

/* The word, each of its bits damaged, and many pairs of bits. */
static void damaged(uint32_t word)
{
    compare_read(word);
    for (int bit = 0; bit < 32; bit++)
        compare_read(word ^ 1u << bit);
    for (int i = 0; i < DOUBLE_DAMAGES; i++)
        compare_read(word ^ 1u << below(32) ^ 1u << below(32));
}

static void drawn_words(void)
{
    for (uint64_t i = 0; i < (uint64_t)KINDS * WORDS_OF_A_KIND * rounds; i++) {
        now.turn = i;
        damaged(random_word_of(1 + (uint32_t)(i % KINDS)));
    }
}

/* An opcode, rs and rt with every function, and edges in the fields between. */
static void table_words(uint32_t opcode, uint32_t rs, uint32_t rt)
{
    static const uint32_t rd[] = {0, 8, 12, 15, 31}, shift[] = {0, 31};
    for (uint32_t i = 0; i < 64 * 10; i++) {
        uint32_t function = i % 64, edges = i / 64;
        compare_read(opcode << 26 | rs << 21 | rt << 16 | rd[edges % 5] << 11 | shift[edges / 5] << 6 | function);
    }
}

/* Every place of a table by opcode, function, rt or rs: an opcode with every rt and edges of rs, and with every rs. */
static void places(uint32_t opcode)
{
    static const uint32_t rs[] = {0, 4, 16, 31};
    for (uint32_t i = 0; i < 32 * 4; i++)
        table_words(opcode, rs[i / 32], i % 32);
    for (uint32_t i = 0; i < 32; i++)
        table_words(opcode, i, 0);
}

static void random_words(void)
{
    for (uint64_t i = 0; i < (uint64_t)RANDOM_WORDS * rounds; i++) {
        now.turn = i;
        compare_read(next_random());
    }
}

static uint32_t edge_field(void)
{
    static const uint32_t edges[] = {
        0, 1, 8, 12, 13, 14, 15, 16, 31, 32, 33, 64, 0xFF, 0x3FF, 0x400, 0x7FFF, 0x8000, 0xFFFF, 0x10000, 0x10001, 0xFFFFF, 0x100000,
        0x3FFFFFF, 0x4000000, 0x7FFFFFFF, 0x80000000, 0x80000001, 0xFFFFFFFF
    };
    return below(2) ? below(34) : PICK(edges);
}

static uint32_t *field(struct em_instruction *i, uint32_t which)
{
    uint32_t *fields[] = {&i->rs, &i->rt, &i->rd, &i->shift, &i->value};
    return fields[which];
}

/* A legal instruction, and it with each of its fields replaced by every small number and by every number of one bit or of ones only. */
static void written_fields(uint32_t kind)
{
    struct em_instruction legal = em_read(random_word_of(kind));
    compare_write(legal);
    for (uint32_t i = 0; i < 5 * 98; i++) {
        struct em_instruction changed = legal;
        uint32_t n = i / 5;
        *field(&changed, i % 5) = n < 34 ? n : n < 66 ? 1u << (n - 34) : UINT32_MAX >> (n - 66);
        compare_write(changed);
    }
}

static void random_fields(void)
{
    static const uint32_t kinds[] = {0, 73, 74, 127, 128, 255, 256, 257, 0x10001, 0x7FFFFFFF, 0x80000001, 0xFFFFFFFF};
    uint32_t kind = below(8) ? 1 + below(KINDS) : PICK(kinds);
    struct em_instruction i = kind <= KINDS && kind > 0 ? em_read(random_word_of(kind)) : (struct em_instruction){.rs = below(32)};
    i.kind = kind;
    for (uint32_t changes = below(4); changes > 0; changes--)
        *field(&i, below(5)) = edge_field();
    compare_write(i);
}

static void writer(void)
{
    now.name = "kind";
    for (uint64_t i = 0; i < (uint64_t)KINDS * FIELDS_OF_A_KIND * rounds; i++)
        written_fields(1 + (uint32_t)(i % KINDS));
    for (uint64_t i = 0; i < (uint64_t)RANDOM_FIELDS * rounds; i++)
        random_fields();
    for (uint32_t kind = 0; kind <= 0xFFFF; kind++)
        compare_write((struct em_instruction){.kind = kind});
}

void test_words(void)
{
    begin_part("words");
    drawn_words();
    for (uint32_t opcode = 0; opcode < 64; opcode++)
        places(opcode);
    random_words();
    writer();
    for (uint32_t kind = 1; kind <= KINDS; kind++) {
        now.name = drawings[kind - 1].name;
        same_number("its name", 0, (uint64_t)strcmp(now.name, em_name(kind)));
        at_least("words of the kind", kind == RFE ? WORDS_OF_A_KIND : 5 * WORDS_OF_A_KIND, met[kind]);
    }
    at_least("words that are no instruction", 1000000, none);
    at_least("instructions refused", 100000, refused);
    end_part("%lu words read, %lu of them no instruction; %lu instructions written, %lu refused", reads, none, writes, refused);
}

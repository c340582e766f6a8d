/* The start: every number, the order in which they are tried, and what is left of the state. Image and memory can only be read, and so can a state
   whose start is refused; all three end where a page begins that cannot be touched, or begin where one ends. */
#include <inttypes.h>
#include <string.h>

#include "test.h"

#define NONE CC100_NO_PLACE
#define MOST_STATE 170u
#define WORDS 8u
#define LINKED 1u
#define STATUS 0x1FF7u /* all bits but the mode */

static struct module m;
static struct room image_room, state_room, memory_room;

/* What is lent. */
static const uint8_t *image;
static uint8_t *state, *memory;
static size_t state_length;

static const uint32_t m_words[WORDS] = {0x3108003C, 0x011A4025, 0xAD090000, 0x0000000C, 0, 0, 0x08004000, 0};

static uint8_t *in_room(struct room *r, size_t most, size_t length, int at_end)
{
    open_room(r, most);
    return r->bytes + (at_end ? r->size - length : 0);
}

static void put(uint32_t place, uint32_t word) { cc100_set_word(state + place, word); }

/* Every word is another; the counters are elsewhere, and the mode is kernel. */
static void put_state_words(void)
{
    for (uint32_t place = 0; place < CC100_STATE_LENGTH; place += 4)
        put(place, 0x01010101 * place);
    put(CC100_REGISTER(DATA_REGISTER), m.layout.data_base);
    put(CC100_REGISTER(CODE_REGISTER), m.layout.code_base);
    put(CC100_PC, 0x400);
    put(CC100_NEXT_PC, 0x7FFFFFFC);
    put(CC100_LL, LINKED);
    put(CC100_STATUS, STATUS);
}

/* The module is placed, where there is room for it, and a state is ready for it. */
static void lend_at(int at_end)
{
    const struct layout *l = &m.layout;
    uint8_t *bytes = in_room(&image_room, sizeof m.words, m.length, at_end);
    write_image(&m, bytes);
    image = bytes;
    memory = in_room(&memory_room, CC100_LONGEST_MEMORY + 1, l->memory_length, at_end);
    if (l->code_base + (uint64_t)m.length <= l->memory_length)
        write_image(&m, memory + l->code_base);
    state_length = CC100_STATE_LENGTH;
    state = in_room(&state_room, MOST_STATE, state_length, at_end);
    put_state_words();
}

static void lend_module(void) { lend_at(1); }

static void make_m(void)
{
    make_quiet(&m, usual);
    memcpy(m.words, m_words, sizeof m_words);
}

static void lend_m(void)
{
    make_m();
    lend_module();
}

/* A state of another length, with the same bytes as far as it has them. */
static void lend_state_of(size_t length)
{
    uint8_t bytes[MOST_STATE] = {0};
    memcpy(bytes, state, CC100_STATE_LENGTH);
    state_length = length;
    state = in_room(&state_room, MOST_STATE, length, 1);
    memcpy(state, bytes, length);
}

static void expect_one(const char *name, plain_starter *start, uint32_t number, uint32_t place, const uint8_t *wanted)
{
    const struct layout *l = &m.layout;
    cc100_verdict v = start(l->code_base, l->code_size, l->data_base, l->data_size, image, m.length, state, state_length, memory, l->memory_length);
    expect_number(name, number, v.number);
    expect_number("its place", place, v.place);
    expect_number("bytes of its state are wrong", 0, memcmp(wanted, state, state_length) != 0);
}

/* Of a state that is started three words are others. It is given back as it was lent. */
static void expect_start(uint32_t number, uint32_t place)
{
    uint8_t lent[MOST_STATE], wanted[MOST_STATE];
    memcpy(lent, state, state_length);
    memcpy(wanted, state, state_length);
    if (number == CC100_DONE) {
        cc100_set_word(wanted + CC100_PC, m.layout.code_base);
        cc100_set_word(wanted + CC100_NEXT_PC, m.layout.code_base + 4);
        cc100_set_word(wanted + CC100_STATUS, cc100_get_word(lent + CC100_STATUS) | CC100_STATUS_USER);
    } else {
        close_room(&state_room);
    }
    close_room(&image_room);
    close_room(&memory_room);
    expect_one("number of cc100_start", cc100_start, number, place, wanted);
    if (number == CC100_DONE)
        memcpy(state, lent, state_length);
    expect_one("number of plain_start", plain_start, number, place, wanted);
    open_room(&state_room, MOST_STATE);
    open_room(&image_room, sizeof m.words);
    open_room(&memory_room, CC100_LONGEST_MEMORY + 1);
    memcpy(state, lent, state_length);
}

/* Module M, with its own image and with the code area as the image. */
static void started(void)
{
    for (int at_end = 0; at_end < 2; at_end++) {
        make_m();
        lend_at(at_end);
        calling("module M at the %s of its pages", at_end ? "end" : "beginning");
        expect_start(CC100_DONE, NONE);
        image = memory + m.layout.code_base;
        calling("module M, with its code area as the image");
        expect_start(CC100_DONE, NONE);
    }
}

/* What a bit of a state makes of a start, by document 01's 17 and by 27. */
static uint32_t number_of_bit(uint32_t place, uint32_t bit)
{
    switch (place) {
    case CC100_REGISTER(0): return CC100_REFUSED_STATE;
    case CC100_PC: case CC100_NEXT_PC: return bit < 2 ? CC100_REFUSED_STATE : CC100_DONE;
    case CC100_LL: return bit > 0 ? CC100_REFUSED_STATE : CC100_DONE;
    case CC100_STATUS: return bit > 12 ? CC100_REFUSED_STATE : CC100_DONE;
    case CC100_REGISTER(DATA_REGISTER): case CC100_REGISTER(CODE_REGISTER): return CC100_REFUSED_BASES;
    default: return CC100_DONE;
    }
}

static void each_bit(void)
{
    for (uint32_t i = 0; i < 8 * CC100_STATE_LENGTH; i++) {
        uint32_t place = 4 * (i / 32), bit = i % 32;
        lend_m();
        put(place, cc100_get_word(state + place) ^ 1u << bit);
        calling("bit %" PRIu32 " of the state's word at %" PRIu32, bit, place);
        expect_start(number_of_bit(place, bit), NONE);
    }
}

static void each_state_length(void)
{
    for (size_t length = 0; length <= MOST_STATE; length++) {
        lend_m();
        lend_state_of(length);
        calling("a state of %zu bytes", length);
        expect_start(length == CC100_STATE_LENGTH ? CC100_DONE : CC100_REFUSED_STATE, NONE);
    }
}

static void expect_byte(uint32_t address, uint32_t number)
{
    lend_module();
    memory[address] ^= 0x10;
    calling("another byte at 0x%" PRIx32 ", %" PRIu32 " bytes of code", address, m.layout.code_size);
    expect_start(number, NONE);
    memory[address] ^= 0x10;
}

/* Every byte of a code area, and those beside it; of the largest, the first, the last and some between. */
static void each_byte(void)
{
    struct layout largest = usual;
    make_m();
    for (uint32_t at = 0; at < 96; at++)
        expect_byte(usual.code_base - 32 + at, at >= 32 && at < 64 ? CC100_REFUSED_CODE_BYTES : CC100_DONE);
    expect_byte(0, CC100_DONE);
    expect_byte(31, CC100_DONE);
    largest.code_size = 65536;
    make_quiet(&m, largest);
    for (uint32_t at = 0; at < 65536; at += at < 40 ? 1 : 4093)
        expect_byte(usual.code_base + at, CC100_REFUSED_CODE_BYTES);
    for (uint32_t at = 65536 - 40; at < 65536; at++)
        expect_byte(usual.code_base + at, CC100_REFUSED_CODE_BYTES);
    expect_byte(usual.code_base - 1, CC100_DONE);
    expect_byte(usual.code_base + 65536, CC100_DONE);
}

static void expect_bases(uint32_t data, uint32_t code, uint32_t number)
{
    lend_m();
    put(CC100_REGISTER(DATA_REGISTER), data);
    put(CC100_REGISTER(CODE_REGISTER), code);
    calling("register 26 0x%" PRIx32 ", register 27 0x%" PRIx32, data, code);
    expect_start(number, NONE);
}

static void bases(void)
{
    uint32_t data = usual.data_base, code = usual.code_base;
    expect_bases(data, code, CC100_DONE);
    expect_bases(code, data, CC100_REFUSED_BASES);
    expect_bases(data, data, CC100_REFUSED_BASES);
    expect_bases(code, code, CC100_REFUSED_BASES);
    expect_bases(0, code, CC100_REFUSED_BASES);
    expect_bases(data, 0, CC100_REFUSED_BASES);
    expect_bases(data + 4, code, CC100_REFUSED_BASES);
    expect_bases(data, code + 4, CC100_REFUSED_BASES);
    expect_bases(data + 1, code - 1, CC100_REFUSED_BASES);
}

/* What the checker says of M with a word changed, or an image of another length. */
static const struct verdict {
    uint32_t at, word;
    size_t length;
    uint32_t number, place;
} verdicts[] = {
    {0, 0x3108003C, 32, 0, NONE}, {0, 0x3108003C, 28, 7, NONE}, {7, 0xFFFFFFFF, 32, 8, 7}, {4, 0x42000010, 32, 9, 4}, {0, 0x3508003C, 32, 12, 2},
    {0, 0x3108003F, 32, 22, 0}, {0, 0x31080034, 32, 25, 0}, {4, 0x08004007, 32, 15, 4}, {6, 0, 32, 16, 6},
};

/* With a state that 17 refuses, another byte in the code area and another base, or some of them: the first is named. */
static void order(void)
{
    for (size_t i = 0; i < sizeof verdicts / sizeof verdicts[0]; i++)
        for (uint32_t wrong = 0; wrong < 8; wrong++) {
            const struct verdict *v = &verdicts[i];
            uint32_t number = wrong & 1 ? CC100_REFUSED_STATE : wrong & 2 ? CC100_REFUSED_CODE_BYTES : wrong & 4 ? CC100_REFUSED_BASES : 0;
            make_m();
            m.words[v->at] = v->word;
            m.length = v->length;
            lend_module();
            put(CC100_NEXT_PC, wrong & 1 ? 2 : 8);
            memory[usual.code_base + 31] ^= wrong & 2 ? 0x80 : 0;
            put(CC100_REGISTER(CODE_REGISTER), usual.code_base + (wrong & 4 ? 32 : 0));
            calling("word %" PRIu32 " 0x%08" PRIX32 ", %zu bytes, and wrong, by bits, %" PRIu32, v->at, v->word, v->length, wrong);
            expect_start(v->number ? v->number : number, v->place);
            memory[usual.code_base + 31] ^= wrong & 2 ? 0x80 : 0;
        }
}

static void expect_layout(uint32_t memory_length, uint32_t code_base, uint32_t data_base, uint32_t number)
{
    struct layout l = {memory_length, code_base, 16, data_base, 4};
    make_quiet(&m, l);
    lend_module();
    calling("memory of %" PRIu32 " bytes, code at 0x%" PRIx32 ", data at 0x%" PRIx32, memory_length, code_base, data_base);
    expect_start(number, NONE);
}

/* The memory that is lent is all that there is. */
static void memory_lengths(void)
{
    expect_layout(CC100_LONGEST_MEMORY, 0, CC100_LONGEST_MEMORY - 4, CC100_DONE);
    expect_layout(CC100_LONGEST_MEMORY, CC100_LONGEST_MEMORY - 16, 0, CC100_DONE);
    expect_layout(CC100_LONGEST_MEMORY, CC100_LONGEST_MEMORY, 0, CC100_REFUSED_CODE_AREA);
    expect_layout(CC100_LONGEST_MEMORY + 1, 0, CC100_LONGEST_MEMORY - 4, CC100_REFUSED_MEMORY);
    expect_layout(20, 0, 16, CC100_DONE);
    expect_layout(19, 0, 16, CC100_REFUSED_DATA_AREA);
    expect_layout(32, 16, 0, CC100_DONE);
    expect_layout(31, 16, 0, CC100_REFUSED_CODE_AREA);
    expect_layout(16, 0, 0, CC100_REFUSED_OVERLAP);
    expect_layout(0, 0, 16, CC100_REFUSED_CODE_AREA);
    expect_layout(32, 0xFFFFFFF0, 0, CC100_REFUSED_CODE_AREA);
    expect_layout(32, 0, 0xFFFFFFFC, CC100_REFUSED_DATA_AREA);
}

static void image_lengths(void)
{
    static const size_t lengths[] = {0, 1, 4, 28, 31, 33, 36, 64};
    for (size_t i = 0; i < sizeof lengths / sizeof lengths[0]; i++) {
        make_m();
        m.length = lengths[i];
        lend_module();
        calling("an image of %zu bytes", lengths[i]);
        expect_start(CC100_REFUSED_IMAGE_LENGTH, NONE);
        image = memory + usual.code_base;
        calling("%zu bytes of the memory as the image", lengths[i]);
        expect_start(CC100_REFUSED_IMAGE_LENGTH, NONE);
    }
}

/* An image that is another part of the memory: a copy, one that is changed, and one that begins in the bundle before the code area, where the same
   words stand in each of them. */
static void image_in_memory(void)
{
    lend_m();
    image = memory + 0x8000;
    memcpy(memory + 0x8000, memory + usual.code_base, 32);
    calling("a copy in the memory as the image");
    expect_start(CC100_DONE, NONE);
    memory[0x801F] = 1; /* the slot of the last jump */
    calling("a copy in the memory with another byte");
    expect_start(CC100_REFUSED_NO_INSTRUCTION, 7);
    memory[0x801F] = 0;
    memory[0x8013] = 0x24; /* ADDIU 0,0,0 for a zero word */
    calling("a copy in the memory with another word");
    expect_start(CC100_REFUSED_CODE_BYTES, NONE);
    make_quiet(&m, usual);
    m.words[2] = m.words[6];
    lend_module();
    memcpy(memory + usual.code_base - 16, memory + usual.code_base, 16);
    image = memory + usual.code_base - 16;
    calling("an image that overlaps the code area and has the same words");
    expect_start(CC100_DONE, NONE);
    memory[usual.code_base - 13] = 0x24;
    calling("an image that overlaps the code area and has another word");
    expect_start(CC100_REFUSED_CODE_BYTES, NONE);
}

/* A module that is started, run and resumed, and started once more from where it stands. */
static void run_from_start(void)
{
    struct machine x = lend(CC100_STATE_LENGTH, usual.memory_length);
    for (uint32_t i = 0; i < WORDS; i++)
        put_memory(&x, usual.code_base + 4 * i, m_words[i]);
    for (int turn = 0; turn < 2; turn++) {
        calling("module M, started the %s time", turn ? "second" : "first");
        start_module(&x, 4 * WORDS);
        uint32_t place = usual.data_base + (cc100_get_word(x.state.bytes + CC100_REGISTER(8)) & 0x3C);
        want_state(&x, CC100_REGISTER(8), place);
        want_memory(&x, place, cc100_get_word(x.state.bytes + CC100_REGISTER(9)));
        want_access(&x, place, 4, 1);
        want_pc(&x, usual.code_base + 12, usual.code_base + 16);
        expect_run(&x, 100, CC100_EXIT_SYSTEM_CALL, 3);
        want_resumed(&x);
        expect_resume(&x, CC100_DONE);
    }
    give_back(&x);
}

void test_start(void)
{
    started();
    each_bit();
    each_state_length();
    each_byte();
    bases();
    order();
    memory_lengths();
    image_lengths();
    image_in_memory();
    run_from_start();
}

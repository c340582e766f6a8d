/* Modules as the tests make them, and the checker's calls and the start on them. */
#include <string.h>
#include <sys/mman.h>
#include <unistd.h>

#include "test.h"

const struct layout usual = {196608, 0x10000, 32, 0x20000, 64};

void make_quiet(struct module *m, struct layout l)
{
    m->layout = l;
    m->length = l.code_size;
    memset(m->words, 0, sizeof m->words);
    m->words[l.code_size / 4 - 2] = word_of(J, 0, 0, 0, l.code_base / 4);
}

void make_straight(struct module *m, struct layout l)
{
    uint32_t last = l.code_size / 4 - 4;
    make_quiet(m, l);
    m->words[last] = word_of(SYSCALL, 0, 0, 0, 0);
    m->words[last + 2] = word_of(J, 0, 0, 0, l.code_base / 4 + last);
}

void put_guard(struct module *m, uint32_t at, uint32_t r, uint32_t mask, uint32_t base)
{
    m->words[at] = word_of(ANDI, 4, r, 0, mask);
    m->words[at + 1] = word_of(OR, r, base, r, 0);
}

void write_image(const struct module *m, uint8_t *to)
{
    for (size_t i = 0; i < m->length; i++)
        to[i] = (uint8_t)(m->words[i / 4] >> 8 * (i % 4));
}

static void expect_same(const char *number_of, const char *place_of, cc100_verdict expected, cc100_verdict came)
{
    expect_number(number_of, expected.number, came.number);
    expect_number(place_of, expected.place, came.place);
}

void open_room(struct room *r, size_t length)
{
    size_t size = (size_t)sysconf(_SC_PAGESIZE);
    if (!r->bytes) {
        r->size = (length + size - 1) / size * size;
        r->bytes = page(r->size);
    }
    mprotect(r->bytes, r->size, PROT_READ | PROT_WRITE);
}

void close_room(struct room *r) { mprotect(r->bytes, r->size, PROT_READ); }

/* Gives the module's image. */
static const uint8_t *closed_image(const struct module *m)
{
    static struct room room;
    open_room(&room, sizeof m->words);
    uint8_t *image = room.bytes + room.size - m->length;
    write_image(m, image);
    close_room(&room);
    return image;
}

static cc100_verdict checked(plain_checker *check, const struct module *m, const uint8_t *image)
{
    const struct layout *l = &m->layout;
    return check(l->memory_length, l->code_base, l->code_size, l->data_base, l->data_size, image, m->length);
}

/* The start of a placed module with the bases in their registers, which refuses what the checker does, with its place. */
static void check_started(const struct module *m, cc100_verdict expected, const uint8_t *image, const uint8_t *memory)
{
    const struct layout *l = &m->layout;
    uint8_t state[CC100_STATE_LENGTH] = {0};
    uint32_t pc = expected.number == CC100_DONE ? l->code_base : 0;
    cc100_set_word(state + CC100_REGISTER(DATA_REGISTER), l->data_base);
    cc100_set_word(state + CC100_REGISTER(CODE_REGISTER), l->code_base);
    expect_same("number of cc100_start", "place of cc100_start", expected,
                cc100_start(l->code_base, l->code_size, l->data_base, l->data_size, image, m->length, state, sizeof state, memory,
                            (size_t)l->memory_length));
    expect_number("PC after cc100_start", pc, cc100_get_word(state + CC100_PC));
}

/* What else is in memory is what other modules left there. A layout that is refused may have its code area outside memory. An image of another length
   than the code area cannot be placed: that area's bytes would be the image. */
static void check_in_memory(const struct module *m, cc100_verdict expected, const uint8_t *image)
{
    static struct room room;
    const struct layout *l = &m->layout;
    open_room(&room, CC100_LONGEST_MEMORY + 1);
    uint8_t *memory = room.bytes + room.size - l->memory_length;
    if (l->code_base + (uint64_t)m->length <= l->memory_length)
        write_image(m, memory + l->code_base);
    close_room(&room);
    if (expected.number != CC100_REFUSED_IMAGE_LENGTH)
        expect_same("number of cc100_check_placed", "place of cc100_check_placed", expected,
                    cc100_check_placed(l->code_base, l->code_size, l->data_base, l->data_size, memory, (size_t)l->memory_length));
    check_started(m, expected, image, memory);
}

void expect_verdict(const struct module *m, uint32_t number, uint32_t place)
{
    cc100_verdict expected = {number, place};
    const uint8_t *image = closed_image(m);
    expect_same("number of cc100_check", "place of cc100_check", expected, checked(cc100_check, m, image));
    expect_same("number of plain_check", "place of plain_check", expected, checked(plain_check, m, image));
    if (m->layout.memory_length <= CC100_LONGEST_MEMORY + 1)
        check_in_memory(m, expected, image);
}

void expect_accepted(const struct module *m) { expect_verdict(m, CC100_DONE, CC100_NO_PLACE); }

void expect_straight(const struct module *m, uint32_t number, uint32_t place)
{
    cc100_verdict expected = {number, place};
    const uint8_t *image = closed_image(m);
    expect_same("number of cc100_check_straight", "place of cc100_check_straight", expected, checked(cc100_check_straight, m, image));
    expect_same("number of plain_check_straight", "place of plain_check_straight", expected, checked(plain_check_straight, m, image));
}

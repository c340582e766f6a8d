/* Ticket 8's answers, worked out from it by hand: what a start of document 01's module M in the layout of its examples answers and leaves. The
   emulator is tried on them, as the other parts trust it, and plain C and the call beside it. */
#include <string.h>

#include "harness.h"

#define CODE_AT 0x10000u
#define DATA_AT 0x20000u
#define LENGTH 196608u /* of memory */
#define OTHER_IMAGE 0x8000u
#define MOST_SET 3

static const uint32_t m_words[8] = {0x3108003C, 0x011A4025, 0xAD090000, 0x0000000C, 0, 0, 0x08004000, 0};

/* Words of a state by their places; place 0xFFFF ends them. And one word of a part of memory. */
struct set {
    uint32_t place, value;
};
#define END {0xFFFF, 0}
#define NO_CHANGE {0, 0}

/* What is changed of a start that is right: its state, a word of memory, the lengths, and the word of the image that comes first. */
static const struct by_hand {
    const char *name;
    struct set state[MOST_SET], memory;
    uint32_t memory_length, state_length, image_length, first_word;
    uint32_t number, place, status; /* the status that is left */
} cases[] = {
#define RIGHT LENGTH, 164, 32, 0x3108003C
#define NONE EM_NO_PLACE
#define WAS 0x1FF7
#define IS 0x1FFF
#define SET(place, value) {{place, value}, END, END}
#define NOTHING {END, END, END}
    {"M", NOTHING, NO_CHANGE, RIGHT, 0, NONE, IS},
    {"M, in user mode already", SET(CC100_STATUS, 8), NO_CHANGE, RIGHT, 0, NONE, 8},
    {"M, status 0", SET(CC100_STATUS, 0), NO_CHANGE, RIGHT, 0, NONE, 8},
    {"M, previous mode user", SET(CC100_STATUS, 0x10), NO_CHANGE, RIGHT, 0, NONE, 0x18},
    {"M, LL 0", SET(CC100_LL, 0), NO_CHANGE, RIGHT, 0, NONE, IS},
    {"M, PC at its code already", {{CC100_PC, CODE_AT}, {CC100_NEXT_PC, CODE_AT + 4}, END}, NO_CHANGE, RIGHT, 0, NONE, IS},
    {"M, PC 0xFFFFFFFC", SET(CC100_PC, 0xFFFFFFFC), NO_CHANGE, RIGHT, 0, NONE, IS},
    {"M, the word before its code", NOTHING, {CODE_AT - 4, 0xFFFFFFFF}, RIGHT, 0, NONE, IS},
    {"M, the word behind its code", NOTHING, {CODE_AT + 32, 0xFFFFFFFF}, RIGHT, 0, NONE, IS},
    {"M, the first word of memory", NOTHING, {0, 0xFFFFFFFF}, RIGHT, 0, NONE, IS},
    {"M, memory to the end of its data", NOTHING, NO_CHANGE, 0x20040, 164, 32, 0x3108003C, 0, NONE, IS},
    {"17 register 0", SET(CC100_REGISTER(0), 1), NO_CHANGE, RIGHT, 17, NONE, WAS},
    {"17 PC 2", SET(CC100_PC, 2), NO_CHANGE, RIGHT, 17, NONE, WAS},
    {"17 PC one past the code base", SET(CC100_PC, CODE_AT + 1), NO_CHANGE, RIGHT, 17, NONE, WAS},
    {"17 next PC 6", SET(CC100_NEXT_PC, 6), NO_CHANGE, RIGHT, 17, NONE, WAS},
    {"17 LL 2", SET(CC100_LL, 2), NO_CHANGE, RIGHT, 17, NONE, WAS},
    {"17 status bit 13", SET(CC100_STATUS, 0x2000), NO_CHANGE, RIGHT, 17, NONE, 0x2000},
    {"17 status bit 31", SET(CC100_STATUS, 0x80000000), NO_CHANGE, RIGHT, 17, NONE, 0x80000000},
    {"17 163 bytes", NOTHING, NO_CHANGE, LENGTH, 163, 32, 0x3108003C, 17, NONE, WAS},
    {"17 165 bytes", NOTHING, NO_CHANGE, LENGTH, 165, 32, 0x3108003C, 17, NONE, WAS},
    {"17 no bytes", NOTHING, NO_CHANGE, LENGTH, 0, 32, 0x3108003C, 17, NONE, WAS},
    {"26 first word", NOTHING, {CODE_AT, 0x3108003D}, RIGHT, 26, NONE, WAS},
    {"26 first word, its mask", NOTHING, {CODE_AT, 0x3108001C}, RIGHT, 26, NONE, WAS},
    {"26 last word, its first byte", NOTHING, {CODE_AT + 28, 1}, RIGHT, 26, NONE, WAS},
    {"26 last word, its last byte", NOTHING, {CODE_AT + 28, 0x80000000}, RIGHT, 26, NONE, WAS},
    {"26 fifth word", NOTHING, {CODE_AT + 16, 0x25290001}, RIGHT, 26, NONE, WAS},
    {"26 another image, accepted too", NOTHING, NO_CHANGE, LENGTH, 164, 32, 0x3108001C, 26, NONE, WAS},
    {"27 register 26 is 0", SET(CC100_REGISTER(26), 0), NO_CHANGE, RIGHT, 27, NONE, WAS},
    {"27 register 26, a byte on", SET(CC100_REGISTER(26), DATA_AT + 1), NO_CHANGE, RIGHT, 27, NONE, WAS},
    {"27 register 26, its data size on", SET(CC100_REGISTER(26), DATA_AT + 64), NO_CHANGE, RIGHT, 27, NONE, WAS},
    {"27 register 27 is 0", SET(CC100_REGISTER(27), 0), NO_CHANGE, RIGHT, 27, NONE, WAS},
    {"27 register 27, its highest bit", SET(CC100_REGISTER(27), CODE_AT | 0x80000000), NO_CHANGE, RIGHT, 27, NONE, WAS},
    {"27 both exchanged", {{CC100_REGISTER(26), CODE_AT}, {CC100_REGISTER(27), DATA_AT}, END}, NO_CHANGE, RIGHT, 27, NONE, WAS},
    {"1 before all others", {{CC100_PC, 2}, {CC100_REGISTER(26), 0}, END}, {CODE_AT, 0}, 16777217, 164, 32, 0x3108003F, 1, NONE, WAS},
    {"5 memory a byte too short for the data", NOTHING, NO_CHANGE, 0x2003F, 164, 32, 0x3108003C, 5, NONE, WAS},
    {"4 memory a byte too short for the code", NOTHING, NO_CHANGE, 0x1001F, 164, 32, 0x3108003C, 4, NONE, WAS},
    {"4 no memory, and no state", NOTHING, NO_CHANGE, 0, 0, 32, 0x3108003C, 4, NONE, WAS},
    {"7 image of 28 bytes", NOTHING, NO_CHANGE, LENGTH, 164, 28, 0x3108003C, 7, NONE, WAS},
    {"7 image of 36 bytes", NOTHING, NO_CHANGE, LENGTH, 164, 36, 0x3108003C, 7, NONE, WAS},
    {"7 no image", NOTHING, NO_CHANGE, LENGTH, 164, 0, 0x3108003C, 7, NONE, WAS},
    {"22 before 17", SET(CC100_PC, 2), NO_CHANGE, LENGTH, 164, 32, 0x3108003F, 22, 0, WAS},
    {"22 before 26", NOTHING, NO_CHANGE, LENGTH, 164, 32, 0x3108003F, 22, 0, WAS},
    {"25 before 27", SET(CC100_REGISTER(27), 0), NO_CHANGE, LENGTH, 164, 32, 0x31080034, 25, 0, WAS},
    {"12 before 17 by length", NOTHING, NO_CHANGE, LENGTH, 160, 32, 0, 12, 2, WAS},
    {"17 before 26", SET(CC100_NEXT_PC, 1), {CODE_AT, 0}, RIGHT, 17, NONE, WAS},
    {"17 before 27", {{CC100_NEXT_PC, 1}, {CC100_REGISTER(26), 0}, END}, NO_CHANGE, RIGHT, 17, NONE, WAS},
    {"26 before 27", SET(CC100_REGISTER(26), 0), {CODE_AT, 0}, RIGHT, 26, NONE, WAS},
    {"17 before 26 and 27", {{CC100_LL, 2}, {CC100_REGISTER(26), 0}, {CC100_REGISTER(27), 0}}, {CODE_AT, 0}, RIGHT, 17, NONE, WAS},
};

static struct machine lent, before;
static uint8_t image[36];

/* Every word of the state is another, and the counters and the mode are not those of a module that is started. */
static void put_state(const struct by_hand *c)
{
    set_length(&lent.state, MOST_STATE);
    for (uint32_t place = 4; place < CC100_STATE_LENGTH; place += 4)
        set_state(&lent, place, 0x10203040 * place);
    set_state(&lent, CC100_REGISTER(0), 0);
    set_state(&lent, CC100_REGISTER(26), DATA_AT);
    set_state(&lent, CC100_REGISTER(27), CODE_AT);
    set_state(&lent, CC100_PC, 0x400);
    set_state(&lent, CC100_NEXT_PC, 0x800);
    set_state(&lent, CC100_LL, 1);
    set_state(&lent, CC100_STATUS, WAS);
    for (size_t i = 0; i < MOST_SET && c->state[i].place != 0xFFFF; i++)
        set_state(&lent, c->state[i].place, c->state[i].value);
    set_length(&lent.state, c->state_length);
}

static void put_memory(const struct by_hand *c)
{
    set_length(&lent.memory, LENGTH);
    memset(lent.memory.bytes, 0, LENGTH);
    for (uint32_t i = 0; i < 8; i++) {
        set_memory(&lent, CODE_AT + 4 * i, m_words[i]);
        cc100_set_word(image + 4 * i, i == 0 ? c->first_word : m_words[i]);
    }
    if (c->memory.value || c->memory.place)
        set_memory(&lent, c->memory.place, c->memory.value);
    memcpy(lent.memory.bytes + OTHER_IMAGE, image, sizeof image);
    set_length(&lent.memory, c->memory_length);
}

/* The state that must be left. A state of another length is left in all its bytes. */
static void put_left(const struct by_hand *c, struct lent *left)
{
    copy_lent(left, &before.state);
    if (c->number == 0) {
        cc100_set_word(left->bytes + CC100_PC, CODE_AT);
        cc100_set_word(left->bytes + CC100_NEXT_PC, CODE_AT + 4);
    }
    if (left->length == CC100_STATE_LENGTH)
        cc100_set_word(left->bytes + CC100_STATUS, c->status);
}

static void try_one(const struct by_hand *c, const struct lent *left, const struct starter *s, const uint8_t *from)
{
    now.call = s->name;
    copy_lent(&lent.state, &before.state);
    cc100_verdict v = s->start(CODE_AT, 32, DATA_AT, 64, from, c->image_length, lent.state.bytes, lent.state.length, lent.memory.bytes, lent.memory.length);
    same_number("number", c->number, v.number);
    same_number("place", c->place, v.place);
    same_lent("state", left, &lent.state);
    same_lent("memory", &before.memory, &lent.memory);
}

/* With the image by itself, and where memory reaches so far, as a part of it. */
static void try_case(const struct by_hand *c, struct lent *left)
{
    now.name = c->name;
    now.word = c->number;
    put_state(c);
    put_memory(c);
    copy_machine(&before, &lent);
    put_left(c, left);
    for (size_t i = 0; i < STARTERS; i++) {
        try_one(c, left, &starters[i], image);
        if (c->memory_length >= OTHER_IMAGE + sizeof image)
            try_one(c, left, &starters[i], lent.memory.bytes + OTHER_IMAGE);
    }
}

size_t try_starts_by_hand(void)
{
    struct lent left = room_for(MOST_STATE);
    lent = machine_for(CC100_LONGEST_MEMORY + 1);
    before = machine_for(CC100_LONGEST_MEMORY + 1);
    for (size_t i = 0; i < COUNT(cases); i++)
        try_case(&cases[i], &left);
    give_back(&lent);
    give_back(&before);
    return COUNT(cases);
}

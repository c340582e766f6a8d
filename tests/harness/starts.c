/* Starts: the emulator, plain C and the call on modules that are placed and right, and on such where the module, the state, the code area, the bases
   or several of them are wrong. What is tried first is named, and all that is lent stays as it was but for three words of a state that is started. */
#include <string.h>

#include "harness.h"

#define TRIES 120000
#define MOST_MEMORY 8192 /* outside code and data */
#define LARGE 2097152    /* comparing a longer memory takes long: one of so many is tried */
#define ONE_OF_LARGE 6
#define LEAST 1000       /* times that everything counted has to happen, but for refusals by the checker */
#define LEAST_OF_A_REFUSAL 30
#define NUMBERS 28

static struct module m;
static struct machine lent, before;
static struct lent image, image_before, left; /* the image by itself, and the state that a call must leave */
static const uint8_t *lent_image;             /* the same image, or a part of the memory */

/* What is wrong, in the order in which it is tried. */
enum { MODULE = 1, STATE = 2, BYTES = 4, REGISTERS = 8, ALL = 15 };

/* How it is, and how the image is lent. */
enum { LENGTH, REGISTER_0, COUNTER, NEXT_COUNTER, LL_WORD, STATUS, STATES };
enum { FIRST, LAST, BETWEEN, PLACES };
enum { OF_DATA, OF_CODE, OF_BOTH, BASES };
enum { BY_ITSELF, THE_AREA, A_COPY, OVERLAPPING, IMAGES };

static struct counts {
    unsigned long given[NUMBERS], together[ALL + 1], states[STATES], places[PLACES], bases[BASES], images[IMAGES], kernel, linked;
} counts;

static const struct way *random_way(void)
{
    static const struct way *const tables[] = {layout_ways, word_ways, access_ways, jump_ways};
    const struct way *table = PICK(tables);
    uint32_t number = 0;
    while (table[number].rule)
        number++;
    return &table[below(number)];
}

/* The memory's length is one that can be lent. Gives whether the module is to be tried. */
static int make_module(uint32_t wrong)
{
    const struct way *way = random_way();
    make_accepted(&m, MOST_MEMORY);
    if (wrong & MODULE && (way->slow || !way->change(&m, way->detail)))
        return 0;
    return m.memory_length <= LARGE || (m.memory_length <= CC100_LONGEST_MEMORY + 1 && below(ONE_OF_LARGE) == 0);
}

static int area_fits(void) { return m.code_base + (uint64_t)m.image_length <= m.memory_length; }

/* Where in the memory the image is lent from: the code area, a little beside it, or anywhere; or NOWHERE. */
static uint32_t image_place(void)
{
    if (!area_fits() || below(2))
        return NOWHERE;
    uint32_t most = (uint32_t)(m.memory_length - m.image_length);
    const uint32_t places[] = {m.code_base, m.code_base - 16 + below(33), below(most + 1)};
    uint32_t place = PICK(places);
    return place <= most ? place : m.code_base;
}

/* Places the module, and lends its image. Gives how. */
static uint32_t lend_image(void)
{
    uint32_t place = image_place();
    set_length(&image, m.image_length);
    write_image(&m, image.bytes);
    lent_image = place == NOWHERE ? image.bytes : lent.memory.bytes + place;
    if (area_fits())
        memcpy(lent.memory.bytes + m.code_base, image.bytes, m.image_length);
    if (place == NOWHERE || place == m.code_base)
        return place == NOWHERE ? BY_ITSELF : THE_AREA;
    if (place < m.code_base + m.image_length && m.code_base < place + m.image_length)
        return OVERLAPPING;
    memcpy(lent.memory.bytes + place, image.bytes, m.image_length);
    return A_COPY;
}

static void change_state(uint32_t place, uint32_t bits) { set_state(&lent, place, state_word(&lent, place) ^ bits); }

static void spoil_state(uint32_t how)
{
    static const uint32_t lengths[] = {0, 1, 160, 163, 165, 168, MOST_STATE};
    switch (how) {
    case LENGTH: set_length(&lent.state, below(2) ? PICK(lengths) : below(CC100_STATE_LENGTH)); break;
    case REGISTER_0: change_state(CC100_REGISTER(0), 1u << below(32)); break;
    case COUNTER: change_state(CC100_PC, 1 + below(3)); break;
    case NEXT_COUNTER: change_state(CC100_NEXT_PC, 1 + below(3)); break;
    case LL_WORD: change_state(CC100_LL, 2u << below(31)); break;
    default: change_state(CC100_STATUS, 1u << (13 + below(19))); break;
    }
}

static void spoil_byte(uint32_t where)
{
    uint32_t size = (uint32_t)m.image_length, at = where == FIRST ? 0 : where == LAST ? size - 1 : 1 + below(size - 2);
    lent.memory.bytes[m.code_base + at] ^= (uint8_t)(1 + below(255));
}

static uint32_t other_value(uint32_t base, uint32_t size, uint32_t other_base)
{
    const uint32_t values[] = {base ^ 1u << below(32), base + size, base - size, base + 4, other_base, 0, next_random()};
    uint32_t value;
    do
        value = PICK(values);
    while (value == base);
    return value;
}

static void spoil_bases(uint32_t which)
{
    if (which != OF_CODE)
        set_state(&lent, CC100_REGISTER(DATA_REGISTER), other_value(m.data_base, m.data_size, m.code_base));
    if (which != OF_DATA)
        set_state(&lent, CC100_REGISTER(CODE_REGISTER), other_value(m.code_base, m.code_size, m.data_base));
}

/* What is lent, and how it is wrong. */
struct trial {
    uint32_t wrong, image, state, place, bases;
};

/* A code area from which the image is lent cannot differ from it. What else is in a large memory is what was there before. */
static void make_trial(struct trial *t)
{
    *t = (struct trial){t->wrong, 0, below(STATES), below(PLACES), below(BASES)};
    set_length(&lent.memory, (size_t)m.memory_length);
    if (m.memory_length <= LARGE)
        fill_random(&lent.memory);
    t->image = lend_image();
    set_length(&lent.state, CC100_STATE_LENGTH);
    random_state(&lent);
    set_state(&lent, CC100_REGISTER(DATA_REGISTER), m.data_base);
    set_state(&lent, CC100_REGISTER(CODE_REGISTER), m.code_base);
    if (t->wrong & BYTES && area_fits() && t->image != THE_AREA)
        spoil_byte(t->place);
    if (t->wrong & REGISTERS)
        spoil_bases(t->bases);
    if (t->wrong & STATE)
        spoil_state(t->state);
    copy_machine(&before, &lent);
    copy_lent(&image_before, &image);
}

/* What ticket 8 says of the trial: the first that is wrong. What is wrong with module and code area is seen anew, as a change can have changed nothing. */
static cc100_verdict expected_verdict(struct trial *t)
{
    struct em_module e = {m.memory_length, m.code_base, m.code_size, m.data_base, m.data_size, lent_image, m.image_length};
    cc100_verdict v;
    v.number = em_check(&e, &v.place);
    t->wrong &= STATE | REGISTERS;
    t->wrong |= v.number != CC100_DONE ? MODULE : 0;
    t->wrong |= area_fits() && memcmp(lent_image, lent.memory.bytes + m.code_base, m.image_length) != 0 ? BYTES : 0;
    if (v.number == CC100_DONE)
        v.number = t->wrong & STATE ? CC100_REFUSED_STATE : t->wrong & BYTES ? CC100_REFUSED_CODE_BYTES : t->wrong & REGISTERS ? CC100_REFUSED_BASES : 0;
    return v;
}

/* PC, next PC and the mode of a state that is started, and no other byte. */
static void make_left(uint32_t number)
{
    copy_lent(&left, &before.state);
    if (number != CC100_DONE)
        return;
    cc100_set_word(left.bytes + CC100_PC, m.code_base);
    cc100_set_word(left.bytes + CC100_NEXT_PC, m.code_base + 4);
    cc100_set_word(left.bytes + CC100_STATUS, state_word(&before, CC100_STATUS) | CC100_STATUS_USER);
}

static cc100_verdict start_emulated(uint32_t code_base, uint32_t code_size, uint32_t data_base, uint32_t data_size, const uint8_t *from, size_t length,
                                    uint8_t *state, size_t state_length, const uint8_t *memory, size_t memory_length)
{
    struct em_module e = {memory_length, code_base, code_size, data_base, data_size, from, length};
    cc100_verdict v;
    v.number = em_start(&e, state, state_length, memory, &v.place);
    return v;
}

const struct starter starters[STARTERS] = {{"em_start", start_emulated}, {"plain_start", plain_start}, {"cc100_start", cc100_start}};

static void compare_start(const struct starter *s, cc100_verdict expected)
{
    now.call = s->name;
    copy_lent(&lent.state, &before.state);
    cc100_verdict v = s->start(m.code_base, m.code_size, m.data_base, m.data_size, lent_image, m.image_length, lent.state.bytes, lent.state.length,
                               lent.memory.bytes, lent.memory.length);
    same_number("number", expected.number, v.number);
    same_number("place", expected.place, v.place);
    same_lent("state", &left, &lent.state);
}

static void compare_starts(cc100_verdict expected)
{
    make_left(expected.number);
    for (size_t i = 0; i < STARTERS; i++)
        compare_start(&starters[i], expected);
    same_lent("memory", &before.memory, &lent.memory);
    same_lent("image", &image_before, &image);
}

/* How it is wrong is counted where it is named. */
static void count_trial(const struct trial *t, uint32_t number)
{
    if (number < NUMBERS)
        counts.given[number]++;
    counts.together[t->wrong]++;
    counts.states[t->state] += number == CC100_REFUSED_STATE;
    counts.places[t->place] += number == CC100_REFUSED_CODE_BYTES;
    counts.bases[t->bases] += number == CC100_REFUSED_BASES;
    counts.images[t->image] += number == CC100_DONE || t->image == OVERLAPPING;
    counts.kernel += number == CC100_DONE && !(state_word(&before, CC100_STATUS) & CC100_STATUS_USER);
    counts.linked += number == CC100_DONE && state_word(&before, CC100_LL);
}

static void try_start(void)
{
    struct trial t = {.wrong = below(ALL + 1)};
    if (!make_module(t.wrong))
        return;
    now.word = t.wrong;
    make_trial(&t);
    cc100_verdict expected = expected_verdict(&t);
    compare_starts(expected);
    count_trial(&t, expected.number);
}

static void require_each(const char *what, const unsigned long *came, uint32_t number)
{
    now.name = "which";
    for (now.word = 0; now.word < number; now.word++)
        at_least(what, LEAST, came[now.word]);
}

static void require_counts(void)
{
    now.name = "refusal by the checker";
    for (now.word = 1; now.word <= CC100_REFUSED_MASK_HOLE; now.word++)
        at_least("starts that are refused by it", now.word <= 16 || now.word == 22 || now.word == 25 ? LEAST_OF_A_REFUSAL : 0, counts.given[now.word]);
    require_each("starts of which these are wrong", counts.together, ALL + 1);
    require_each("states refused", counts.states, STATES);
    require_each("bytes refused", counts.places, PLACES);
    require_each("bases refused", counts.bases, BASES);
    require_each("images lent", counts.images, IMAGES);
    now.name = "";
    at_least("starts that are given", LEAST, counts.given[CC100_DONE]);
    at_least("starts from kernel mode", LEAST, counts.kernel);
    at_least("starts that keep an LL word of 1", LEAST, counts.linked);
}

void start_by_call(const struct module *of, struct machine *x, const struct machine *by_hand)
{
    if (below(2)) {
        set_state(x, CC100_PC, next_random() & ~3u);
        set_state(x, CC100_NEXT_PC, next_random() & ~3u);
        set_state(x, CC100_STATUS, state_word(x, CC100_STATUS) & ~CC100_STATUS_USER);
    }
    now.call = "cc100_start";
    cc100_verdict v = cc100_start(of->code_base, of->code_size, of->data_base, of->data_size, x->memory.bytes + of->code_base, of->code_size,
                                  x->state.bytes, x->state.length, x->memory.bytes, x->memory.length);
    same_number("number", CC100_DONE, v.number);
    same_number("place", CC100_NO_PLACE, v.place);
    same_lent("state, started by hand", &by_hand->state, &x->state);
}

void test_starts(void)
{
    begin_part("starts");
    lent = machine_for(CC100_LONGEST_MEMORY + 1);
    before = machine_for(CC100_LONGEST_MEMORY + 1);
    left = room_for(MOST_STATE);
    image = room_for(sizeof m.words);
    image_before = room_for(sizeof m.words);
    now.name = "wrong, by bits";
    for (now.turn = 0; now.turn < (uint64_t)TRIES * rounds; now.turn++)
        try_start();
    require_counts();
    end_part("%lu given, %lu of them from kernel mode, with an image of its own %lu, the code area %lu, a copy in memory %lu, and %lu that overlap the "
             "code area; refused by 17 %lu, 26 %lu, 27 %lu, 22 %lu, 25 %lu, 1 to 16:%s",
             counts.given[0], counts.kernel, counts.images[BY_ITSELF], counts.images[THE_AREA], counts.images[A_COPY], counts.images[OVERLAPPING],
             counts.given[17], counts.given[26], counts.given[27], counts.given[22], counts.given[25], listed(counts.given, 1, 16));
}

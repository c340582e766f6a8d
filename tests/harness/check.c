/* The checkers' calls on a module. */
#include <string.h>

#include "harness.h"

void write_image(const struct module *m, uint8_t *to)
{
    for (size_t i = 0; i < m->image_length; i++)
        to[i] = (uint8_t)(m->words[i / 4] >> 8 * (i % 4));
}

/* The module as the emulator takes it, with its image in the emulator's room. */
static struct em_module emulated(const struct module *m, struct lent *image)
{
    if (!image->bytes)
        *image = room_for(sizeof m->words);
    set_length(image, m->image_length);
    write_image(m, image->bytes);
    return (struct em_module){m->memory_length, m->code_base, m->code_size, m->data_base, m->data_size, image->bytes, m->image_length};
}

static void same_verdict(const char *call, uint32_t number, uint32_t place, cc100_verdict came)
{
    now.call = call;
    same_number("number", number, came.number);
    same_number("place", place, came.place);
}

/* What else is in memory is what other modules left there. A layout that is refused may have its code area outside memory. */
static void check_placed(const struct module *m, const struct lent *image, uint32_t number, uint32_t place)
{
    static struct lent memory;
    if (!memory.bytes)
        memory = room_for(CC100_LONGEST_MEMORY + 1);
    int fits = m->code_base + (uint64_t)m->image_length <= m->memory_length;
    if (fits)
        memcpy(memory.bytes + m->code_base, image->bytes, m->image_length);
    same_verdict("cc100_check_placed", number, place,
                 cc100_check_placed(m->code_base, m->code_size, m->data_base, m->data_size, memory.bytes, (size_t)m->memory_length));
    if (fits)
        same_bytes("code area", image->bytes, memory.bytes + m->code_base, m->image_length);
}

const struct profile usual = {make_accepted, em_check, compare_check, broken_rules};
const struct profile straight = {make_straight, em_check_straight, compare_check_straight, broken_rules_straight};

/* The calls that are compared with the emulator's. */
struct calls {
    const char *product_name, *plain_name;
    plain_checker *product, *plain;
};
static const struct calls usual_calls = {"cc100_check", "plain_check", cc100_check, plain_check};
static const struct calls straight_calls = {"cc100_check_straight", "plain_check_straight", cc100_check_straight, plain_check_straight};

/* The image that was lent to the last check. */
static struct lent image;

/* Of an access's three refusals, 12 names the access, and 22 and 25 the ANDI of its guard, two words before it. */
static void look_at_place(const struct module *m, uint32_t number, uint32_t place)
{
    now.call = "the emulator's checker";
    if (number == CC100_REFUSED_ACCESS)
        same_number("an access is at the place", 1, (uint64_t)(place < word_count(m) && access_width(kind_at(m, place))));
    if (number == CC100_REFUSED_MASK || number == CC100_REFUSED_MASK_HOLE)
        same_number("an ANDI is at the place, and an access two words on", 1,
                    (uint64_t)(place < word_count(m) - 2 && kind_at(m, place) == ANDI && access_width(kind_at(m, place + 2))));
}

/* Gives the emulator's number and place. */
static uint32_t compare(em_checker *check, const struct calls *c, const struct module *m, uint32_t *place)
{
    static struct lent expected;
    struct em_module e = emulated(m, &expected);
    uint32_t number = check(&e, place);
    look_at_place(m, number, *place);
    if (!image.bytes)
        image = room_for(sizeof m->words);
    copy_lent(&image, &expected);
    same_verdict(c->product_name, number, *place,
                 c->product(m->memory_length, m->code_base, m->code_size, m->data_base, m->data_size, image.bytes, image.length));
    same_lent("image", &expected, &image);
    same_verdict(c->plain_name, number, *place,
                 c->plain(m->memory_length, m->code_base, m->code_size, m->data_base, m->data_size, image.bytes, image.length));
    return number;
}

/* An image of another length than the code area cannot be placed: that area's bytes would be the image. */
uint32_t compare_check(const struct module *m)
{
    uint32_t place, number = compare(em_check, &usual_calls, m, &place);
    if (m->memory_length <= CC100_LONGEST_MEMORY + 1 && number != CC100_REFUSED_IMAGE_LENGTH)
        check_placed(m, &image, number, place);
    return number;
}

/* Of what the profile refuses, 20 names a branch or jump and 21 nothing. */
uint32_t compare_check_straight(const struct module *m)
{
    uint32_t place, number = compare(em_check_straight, &straight_calls, m, &place);
    now.call = "em_check_straight";
    if (number == CC100_REFUSED_STRAIGHT)
        same_number("a branch or jump is at the place", 1, (uint64_t)(place < m->code_size / 4 && branches(kind_at(m, place))));
    if (number == CC100_REFUSED_LAST_BUNDLE)
        same_number("place", CC100_NO_PLACE, place);
    return number;
}

static uint32_t broken_by(uint32_t broken(const struct em_module *), const struct module *m)
{
    static struct lent bytes;
    struct em_module e = emulated(m, &bytes);
    return broken(&e);
}

uint32_t broken_rules(const struct module *m) { return broken_by(em_broken, m); }
uint32_t broken_rules_straight(const struct module *m) { return broken_by(em_broken_straight, m); }

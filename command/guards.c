/* What is wrong with an access and its guard, for refusals 12, 22 and 25: which word, what it must be, and what to mend. The number and the place
   are the checker's; what is said here only goes by them. */
#include <inttypes.h>
#include <stdarg.h>
#include <string.h>

#include "command.h"

#define BUNDLE 4u
#define DATA 26u /* the register that holds the data's base */
#define CODE 27u
#define ANDI 6u /* their numbers in docs/INSTRUCTIONS.md */
#define OR 38u
#define LARGEST_DATA 65536u

/* A text that grows by sentences. */
struct said {
    char *text;
    size_t size;
};

static void __attribute__((format(printf, 2, 3))) say(struct said *s, const char *format, ...)
{
    size_t used = strlen(s->text);
    va_list values;
    va_start(values, format);
    vsnprintf(s->text + used, s->size - used, format, values);
    va_end(values);
}

/* An access of a module, where its two guard words have to be, and its numbers. */
struct guarded {
    const struct excerpt *e;
    uint32_t index, width;
    cc100_instruction access;
    const char *name;
};

static cc100_instruction read_at(const struct excerpt *e, uint32_t index) { return cc100_read(module_word(e->module, index)); }

static struct guarded guarded_at(const struct excerpt *e, uint32_t index)
{
    cc100_instruction access = read_at(e, index);
    return (struct guarded){e, index, width_of(access.kind), access, mnemonic_of(access.kind)};
}

static bool masks(cc100_instruction i, uint32_t r) { return i.kind == ANDI && i.rt == r; }
static bool adds_base(cc100_instruction i, uint32_t r) { return i.kind == OR && i.rd == r && i.rs == r && i.rt == DATA; }
static bool can_be_guarded(uint32_t r) { return r != 0 && r != DATA && r != CODE; }

/* Whether the words before are a guard of this register, also where they begin in the bundle before. */
static bool guard_of(const struct guarded *g, uint32_t r)
{
    return g->index >= 2 && masks(read_at(g->e, g->index - 2), r) && adds_base(read_at(g->e, g->index - 1), r);
}

/* The text of a word, as a listing has it. */
static void say_word(struct said *s, const struct guarded *g, uint32_t index)
{
    struct text t = text_of(module_word(g->e->module, index), g->e->layout.code_base + 4 * index);
    say(s, "Word %" PRIu32 " is %s%s%s", index, t.name, *t.operands ? " " : "", t.operands);
}

/* 12 for an access that is the first or second word of its bundle. */
static void say_split(struct said *s, const struct guarded *g)
{
    uint32_t r = g->access.rs;
    say(s, "The %s at word %" PRIu32 " is the %s word of its bundle, and two words of a guard have no room before it there.", g->name, g->index,
        g->index % BUNDLE ? "second" : "first");
    if (guard_of(g, r))
        say(s, " Its guard, words %" PRIu32 " and %" PRIu32 ", begins in the bundle before.", g->index - 2, g->index - 1);
    if (can_be_guarded(r))
        say(s, " To mend: put andi $%" PRIu32 ",S,m and or $%" PRIu32 ",$%" PRIu32 ",$26 and the %s into one bundle.", r, r, r, g->name);
}

static void say_no_register(struct said *s, const struct guarded *g)
{
    say(s, "The base of the %s at word %" PRIu32 " is register %" PRIu32 ", which no guard can be of. To mend: take another register R as the "
        "base, with andi R,S,m and or R,R,$26 before it.", g->name, g->index, g->access.rs);
}

/* 12 where two right words are of another register than the base. */
static void say_other_register(struct said *s, const struct guarded *g, uint32_t other)
{
    uint32_t r = g->access.rs;
    say(s, "Words %" PRIu32 " and %" PRIu32 " are a guard of register %" PRIu32 ", and the base of the %s at word %" PRIu32 " is register %" PRIu32
        ". To mend: make them andi $%" PRIu32 ",S,m and or $%" PRIu32 ",$%" PRIu32 ",$26, or make $%" PRIu32 " the base.", g->index - 2,
        g->index - 1, other, g->name, g->index, r, r, r, r, other);
}

/* 12 where one of the two words, or each, is not what it must be. */
static void say_words(struct said *s, const struct guarded *g)
{
    uint32_t r = g->access.rs, andi = g->index - 2, or = g->index - 1;
    bool masked = masks(read_at(g->e, andi), r), added = adds_base(read_at(g->e, or), r);
    say(s, "The base of the %s at word %" PRIu32 " is register %" PRIu32 ".", g->name, g->index, r);
    if (!masked) {
        say(s, " ");
        say_word(s, g, andi);
        say(s, " and must be andi $%" PRIu32 ",S,m.", r);
    }
    if (!added) {
        say(s, " ");
        say_word(s, g, or);
        say(s, " and must be or $%" PRIu32 ",$%" PRIu32 ",$26.", r, r);
    }
    if (!masked && !added)
        say(s, " To mend: put the two words before it, in the same bundle.");
    else
        say(s, " To mend: change that word.");
}

static void say_missing(struct said *s, const struct guarded *g)
{
    uint32_t r = g->access.rs;
    if (g->index % BUNDLE < 2) {
        say_split(s, g);
        return;
    }
    uint32_t other = read_at(g->e, g->index - 2).rt;
    if (!can_be_guarded(r))
        say_no_register(s, g);
    else if (other != r && can_be_guarded(other) && guard_of(g, other))
        say_other_register(s, g, other);
    else
        say_words(s, g);
}

/* The numbers of a guard and its access, and which of them is wrong by itself, also where the number is 22 and 25 would come next. Mask and width
   are the guard's reach. The sum has a meaning where it is not negative. */
struct numbers {
    uint32_t mask, width, reach, size, sum;
    int32_t offset;
    bool hole, mask_wrong, offset_wrong, sum_wrong;
};

static struct numbers numbers_of(const struct guarded *g)
{
    struct numbers n = {.mask = read_at(g->e, g->index - 2).value, .width = g->width, .size = g->e->layout.data_size};
    n.offset = (int32_t)(g->access.value ^ 0x8000u) - 0x8000;
    n.reach = n.mask + n.width;
    n.hole = (n.reach & (n.reach - 1)) != 0; /* so it is too where the mask is no multiple of the width */
    n.mask_wrong = n.hole || n.reach > n.size;
    n.offset_wrong = n.offset < 0 || (uint32_t)n.offset % n.width != 0 || (uint32_t)n.offset + n.width > n.size;
    n.sum = n.reach + (uint32_t)n.offset;
    n.sum_wrong = n.reach + (int64_t)n.offset > n.size;
    return n;
}

/* The largest power of two that a mask and this width can be in so many bytes, which are not fewer than the width. */
static uint32_t largest_reach(uint32_t width, uint32_t bytes)
{
    uint32_t reach = width;
    while (2 * reach <= bytes)
        reach *= 2;
    return reach;
}

static void say_broken_rules(struct said *s, const struct numbers *n)
{
    if (n->mask % n->width != 0)
        say(s, " The mask is no multiple of %" PRIu32 ".", n->width);
    if (n->offset % (int32_t)n->width != 0)
        say(s, " The offset is no multiple of %" PRIu32 ".", n->width);
    if (n->offset < 0)
        say(s, " The offset is negative.");
    if (n->sum_wrong)
        say(s, " Mask, offset and width are %" PRIu32 " %c %" PRId32 " + %" PRIu32 " = %" PRIu32 ", and the data has %" PRIu32 " bytes.", n->mask,
            n->offset < 0 ? '-' : '+', n->offset < 0 ? -n->offset : n->offset, n->width, n->sum, n->size);
    if (n->hole && n->mask % n->width == 0)
        say(s, " The mask has a hole too, which is refused by 25.");
}

/* Where the size rule alone is broken, a module may have been compiled for more data. */
static void say_larger_data(struct said *s, const struct numbers *n)
{
    uint32_t size = n->size;
    while (size < n->sum)
        size *= 2;
    if (!n->hole && size <= LARGEST_DATA)
        say(s, " With a data size of %" PRIu32 " it would fit as it is.", size);
}

static void say_both(struct said *s, const struct numbers *n)
{
    say(s, "change both, so that the mask is a power of two less %" PRIu32 ", the offset not negative", n->width);
    if (n->width > 1)
        say(s, " and a multiple of %" PRIu32, n->width);
    say(s, ", and the three are at most %" PRIu32 ".", n->size);
}

/* What an offset or a mask must be: up to the largest that the other one leaves. */
static void say_offset(struct said *s, const struct guarded *g, const struct numbers *n)
{
    say(s, "make the offset of word %" PRIu32 " ", g->index);
    if (n->width > 1)
        say(s, "a multiple of %" PRIu32 ", ", n->width);
    say(s, "at most 0x%" PRIx32 " and not negative.", n->size - n->reach);
}

static void say_mask(struct said *s, const struct guarded *g, const struct numbers *n)
{
    say(s, "make the mask of word %" PRIu32 " a power of two less %" PRIu32 ", at most 0x%" PRIx32 ".", g->index - 2, n->width,
        largest_reach(n->width, n->size - (uint32_t)n->offset) - n->width);
}

static void say_mend(struct said *s, const struct guarded *g, const struct numbers *n)
{
    say(s, " To mend: ");
    if (n->offset_wrong && n->mask_wrong)
        say_both(s, n);
    else if (n->offset_wrong)
        say_offset(s, g, n);
    else
        say_mask(s, g, n);
    if (n->sum_wrong && n->offset >= 0 && n->offset % (int32_t)n->width == 0)
        say_larger_data(s, n);
}

static void say_numbers(struct said *s, const struct guarded *g, const struct numbers *n)
{
    say(s, "Word %" PRIu32 ", with the mask 0x%" PRIx32 ", guards the %s at word %" PRIu32 ", with the offset %" PRId32 " and a width of %" PRIu32
        ".", g->index - 2, n->mask, g->name, g->index, n->offset, n->width);
}

static void say_wrong_numbers(struct said *s, const struct guarded *g)
{
    struct numbers n = numbers_of(g);
    say_numbers(s, g, &n);
    say_broken_rules(s, &n);
    say_mend(s, g, &n);
}

/* In binary, from its highest one on. Gives how many ones it has. */
static uint32_t say_bits(struct said *s, uint32_t number)
{
    uint32_t ones = 0;
    for (uint32_t bit = largest_reach(1, number); bit > 0; bit /= 2) {
        say(s, "%d", (number & bit) != 0);
        ones += (number & bit) != 0;
    }
    return ones;
}

/* 25: the bits that the mask leaves out, two places that go to one cell by the lowest of them, and the masks without a hole next to it. The one
   below always fits, as this mask does. */
static void say_hole(struct said *s, const struct guarded *g)
{
    struct numbers n = numbers_of(g);
    uint32_t below = largest_reach(1, n.reach), above = 2 * below, left_out = (above - n.width) & ~n.mask;
    say_numbers(s, g, &n);
    say(s, " Mask and width are %" PRIu32 " + %" PRIu32 " = %" PRIu32 ", which is ", n.mask, n.width, n.reach);
    uint32_t ones = say_bits(s, n.reach);
    say(s, " in binary, with %" PRIu32 " ones, and a power of two has one. The mask is ", ones);
    say_bits(s, n.mask);
    say(s, " and leaves 0x%" PRIx32 " out of a place, so that the places 0x0 and 0x%" PRIx32 " go to one cell, and two rows can too.", left_out,
        left_out & -left_out);
    say(s, " To mend: make the mask of word %" PRIu32 " 0x%" PRIx32, g->index - 2, below - n.width);
    if (above + (uint32_t)n.offset <= n.size)
        say(s, ", or 0x%" PRIx32 ", which leaves nothing out and fits the data.", above - n.width);
    else
        say(s, ". With this offset 0x%" PRIx32 ", which leaves nothing out, does not fit the data.", above - n.width);
}

bool describe_guard(const struct excerpt *e, cc100_verdict v, char *text, size_t size)
{
    struct said s = {text, size};
    *text = 0;
    if (v.number == CC100_REFUSED_ACCESS) {
        struct guarded g = guarded_at(e, v.place);
        say_missing(&s, &g);
    } else if (v.number == CC100_REFUSED_MASK) {
        struct guarded g = guarded_at(e, v.place + 2);
        say_wrong_numbers(&s, &g);
    } else if (v.number == CC100_REFUSED_MASK_HOLE) {
        struct guarded g = guarded_at(e, v.place + 2);
        say_hole(&s, &g);
    }
    return *text != 0;
}

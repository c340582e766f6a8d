/* Ways to break rule 12, 13, 22 or 25 and no other, or 22 and 25 at one access: an access, JR or JALR whose guard is nearly right. */
#include "harness.h"

enum {
    NO_GUARD, EARLIER_BUNDLE, BETWEEN, OTHER_ORDER, NO_ANDI, NO_OR, ZERO, BASE_IS_26, BASE_IS_27, OTHER_BASE, OTHER_ANDI, OTHER_SOURCE,
    OTHER_RESULT, OTHER_AREA, SWAPPED, MASK_NO_MULTIPLE, MASK_TOO_LARGE, REACH_TOO_LARGE, OFFSET_NO_MULTIPLE, OFFSET_NEGATIVE,
    OFFSET_ODD_NEGATIVE, OFFSET_TOO_LARGE, SUM_PAST_16_BITS, ONE_HOLE, LOW_HOLES, TOP_BIT_ALONE, ANY_HOLES, UP_TO_THE_END, ALL_NUMBERS
};
/* A way, the kind that is guarded, of wrong words also wrong numbers, and of wrong numbers also a mask with holes. */
#define OF_KIND(way, kind) ((way) | (kind) << 8)
#define WRONG_NUMBERS 0x10000u
#define WITH_HOLES 0x20000u
#define ANY_ACCESS 0

/* The guard and what is guarded: three words in a fresh bundle, where another fresh one follows. */
struct nearly {
    uint32_t *w;
    uint32_t unit;  /* what the mask is a multiple of: the width, or 16 */
    uint32_t size;  /* of the area */
    uint32_t other; /* a register that is none of R, the link, 0, 26 and 27 */
};

static uint32_t with_field(uint32_t word, uint32_t field, uint32_t value) { return (word & ~field) | (value * (field & -field) & field); }
static uint32_t mask_of(const struct nearly *n) { return n->w[0] & CONSTANT; }
static uint32_t offset_of(const struct nearly *n) { return n->unit == 16 ? 0 : n->w[2] & CONSTANT; }

static void swap(uint32_t *a, uint32_t *b)
{
    uint32_t kept = *a;
    *a = *b;
    *b = kept;
}

/* The guard's places. What comes in between is ordinary. */
static void move_words(uint32_t *w, uint32_t way)
{
    uint32_t to = 2 + below(2), place = below(4);
    switch (way) {
    case NO_GUARD:
        w[0] = ordinary_word();
        w[1] = ordinary_word();
        swap(&w[2], &w[place]);
        break;
    case EARLIER_BUNDLE:
        swap(&w[2], &w[to + 2]);
        swap(&w[1], &w[to + 1]);
        swap(&w[0], &w[to]);
        break;
    case BETWEEN: swap(&w[2], &w[3]); break;
    default: swap(&w[0], &w[1]); break;
    }
}

static void change_registers(const struct nearly *n, uint32_t way)
{
    static const uint32_t not_andi[] = {0x34000000, 0x38000000, 0x24000000, 0x28000000, 0x2C000000}; /* ORI, XORI, ADDIU, SLTI, SLTIU */
    static const uint32_t not_or[] = {0x21, 0x23, 0x24, 0x26, 0x27}; /* ADDU, SUBU, AND, XOR, NOR */
    uint32_t *w = n->w, area = w[1] >> 16 & 31;
    switch (way) {
    case NO_ANDI: w[0] = (w[0] & INDEX) | PICK(not_andi); break;
    case NO_OR: w[1] = (w[1] & ~63u) | PICK(not_or); break;
    case ZERO:
        w[0] &= ~RT;
        w[1] &= ~(RS | RD);
        w[2] &= ~RS;
        break;
    case BASE_IS_26: w[2] = with_field(w[2], RS, DATA_REGISTER); break;
    case BASE_IS_27: w[2] = with_field(w[2], RS, CODE_REGISTER); break;
    case OTHER_BASE: w[2] = with_field(w[2], RS, n->other); break;
    case OTHER_ANDI: w[0] = with_field(w[0], RT, n->other); break;
    case OTHER_SOURCE: w[1] = with_field(w[1], RS, n->other); break;
    case OTHER_RESULT: w[1] = with_field(w[1], RD, n->other); break;
    case OTHER_AREA: w[1] = with_field(w[1], RT, below(4) ? DATA_REGISTER + CODE_REGISTER - area : n->other); break;
    default: w[1] = with_field(with_field(w[1], RS, area), RT, w[1] >> 21 & 31); break;
    }
}

static void set_offset(const struct nearly *n, uint32_t offset) { n->w[2] = with_field(n->w[2], CONSTANT, offset); }

/* Makes a number of a word a little smaller, so that it is no multiple. Gives whether that could be. */
static int take_off(const struct nearly *n, uint32_t *word, uint32_t number)
{
    int could = n->unit > 1 && number >= n->unit;
    *word -= could ? 1 + below(n->unit - 1) : 0;
    return could;
}

/* Gives whether the mask fits its field. */
static int set_mask(const struct nearly *n, uint32_t mask)
{
    n->w[0] = with_field(n->w[0], CONSTANT, mask);
    return mask <= CONSTANT;
}

/* A mask with holes, which keeps all rules but 25: some bits of a whole one are missing below its highest, or it goes up to the data's end. Gives
   whether that could be. */
static int put_holes(const struct nearly *n, uint32_t way)
{
    uint32_t mask = mask_of(n), below_highest = mask ? (mask + n->unit) / 2 - n->unit : 0, bits = 0;
    while (n->unit << bits <= below_highest)
        bits++;
    uint32_t hole = n->unit << below(bits);
    switch (way) {
    case ONE_HOLE: return (hole & below_highest) && set_mask(n, mask & ~hole);
    case LOW_HOLES: return hole <= below_highest && set_mask(n, mask & ~(2 * hole - 1));
    case TOP_BIT_ALONE: return below_highest && set_mask(n, mask & ~below_highest);
    case UP_TO_THE_END: return set_mask(n, n->size - offset_of(n) - n->unit);
    default: return below_highest && set_mask(n, mask & ~(below_highest & next_random()));
    }
}

/* The numbers of the guard, each wrong in one respect only, but for the last way, where all are wrong. Gives whether that could be. */
static int change_numbers(const struct nearly *n, uint32_t way)
{
    uint32_t mask = mask_of(n), offset = offset_of(n), rest = n->size - offset, below_zero = 0 - n->unit * (1 + below(0x8000 / n->unit));
    switch (way) {
    case MASK_NO_MULTIPLE: return take_off(n, &n->w[0], mask);
    case MASK_TOO_LARGE: return set_mask(n, rest);
    case REACH_TOO_LARGE: return set_mask(n, 2 * largest_reach(n->unit, rest) - n->unit);
    case OFFSET_NO_MULTIPLE: return take_off(n, &n->w[2], offset);
    case OFFSET_NEGATIVE: set_offset(n, below(2) ? below_zero : 0 - n->unit * (1 + below(4))); return 1;
    case OFFSET_ODD_NEGATIVE: set_offset(n, below_zero + 1 + below(n->unit - 1)); return n->unit > 1;
    case OFFSET_TOO_LARGE: set_offset(n, n->size - mask); return n->size - mask <= 0x7FFF;
    case SUM_PAST_16_BITS: set_offset(n, n->unit); return set_mask(n, 0x10000 - n->unit);
    case ALL_NUMBERS: set_offset(n, 0x8001 + 2 * below(0x4000)); return set_mask(n, CONSTANT);
    default: return put_holes(n, way);
    }
}

/* One of the ways in which numbers are wrong; where it cannot be, all of them. Of JR and JALR the mask alone is one. */
static void change_some_numbers(const struct nearly *n)
{
    if (n->unit == 16)
        n->w[0] |= CONSTANT;
    else if (!change_numbers(n, MASK_NO_MULTIPLE + below(ALL_NUMBERS - MASK_NO_MULTIPLE)))
        change_numbers(n, ALL_NUMBERS);
}

static uint32_t put_guarded(struct module *m, uint32_t at, uint32_t kind)
{
    uint32_t access = kind == ANY_ACCESS ? random_access(m->data_size) : kind;
    if (access_width(access)) {
        put_access(m, at, access);
        return (uint32_t)access_width(access);
    }
    put_register_jump(m, at, kind);
    return 16;
}

static uint32_t other_register(const uint32_t *w)
{
    uint32_t other, r = w[2] >> 21 & 31, link = w[2] >> 11 & 31;
    do
        other = random_register(1);
    while (other == r || other == link);
    return other;
}

static int change_guard(struct module *m, uint32_t detail)
{
    uint32_t way = detail & 0xFF, kind = detail >> 8 & 0xFF, at = fresh_bundles(m, 2), moved = way <= OTHER_ORDER;
    if (at == NOWHERE)
        return 0;
    at += moved ? 0 : below(2);
    uint32_t unit = put_guarded(m, at, kind);
    struct nearly n = {&m->words[at], unit, unit == 16 ? m->code_size : m->data_size, other_register(&m->words[at])};
    int could = !(detail & WITH_HOLES) || put_holes(&n, ANY_HOLES);
    if (detail & WRONG_NUMBERS)
        change_some_numbers(&n);
    if (moved)
        move_words(n.w, way);
    else if (way < MASK_NO_MULTIPLE)
        change_registers(&n, way);
    else
        could = change_numbers(&n, way) && could;
    choose_targets(m, m->code_size / 4);
    return could;
}

/* A load into 26 or 27, whose guard has wrong words or wrong numbers. */
static int load_into_base(struct module *m, uint32_t detail)
{
    uint32_t at = fresh_bundles(m, 1);
    if (at == NOWHERE)
        return 0;
    at += below(2);
    put_access(m, at, LW);
    struct nearly n = {&m->words[at], 4, m->data_size, other_register(&m->words[at])};
    if (detail < MASK_NO_MULTIPLE)
        change_registers(&n, detail);
    else
        change_some_numbers(&n);
    n.w[2] = with_field(n.w[2], RT, DATA_REGISTER + below(2));
    choose_targets(m, word_count(m));
    return 1;
}

#define FOR_WORDS(of) \
    of(NO_GUARD, "no guard at all"), of(EARLIER_BUNDLE, "guard begins in the bundle before"), of(BETWEEN, "a word between the guard and it"), \
    of(OTHER_ORDER, "OR before ANDI"), of(NO_ANDI, "no ANDI"), of(NO_OR, "no OR"), of(ZERO, "R is 0"), of(BASE_IS_26, "base is 26"), \
    of(BASE_IS_27, "base is 27"), of(OTHER_BASE, "base is another register"), of(OTHER_ANDI, "ANDI of another register"), \
    of(OTHER_SOURCE, "OR reads another register"), of(OTHER_RESULT, "OR writes another register"), \
    of(OTHER_AREA, "OR with another area's base"), of(SWAPPED, "operands of OR swapped")
#define ACCESS(way, name) \
    {12, "access, " name, change_guard, OF_KIND(way, ANY_ACCESS), 0}, \
    {12, "access, numbers wrong too, " name, change_guard, OF_KIND(way, ANY_ACCESS) | WRONG_NUMBERS, 0}
#define MASKS(way, name) \
    {13, "JR, " name, change_guard, OF_KIND(way, JR), 0}, {13, "JALR, " name, change_guard, OF_KIND(way, JALR), 0}
#define JUMPS(way, name) \
    MASKS(way, name), {13, "JR, mask wrong too, " name, change_guard, OF_KIND(way, JR) | WRONG_NUMBERS, 0}
#define NUMBERS(way, kind, name) {22, name, change_guard, OF_KIND(way, kind), 0}
#define MULTIPLES(way, name) \
    NUMBERS(way, ANY_ACCESS, "access, " name), NUMBERS(way, SH, "SH, " name), NUMBERS(way, LW, "LW, " name)
#define WIDTHS(way, name) MULTIPLES(way, name), NUMBERS(way, LB, "LB, " name)
#define HOLE(way, kind, name) {25, name, change_guard, OF_KIND(way, kind), 0}
#define HOLES(way, name) \
    HOLE(way, ANY_ACCESS, "access, " name), HOLE(way, LBU, "LBU, " name), HOLE(way, SH, "SH, " name), HOLE(way, LL, "LL, " name)

const struct way access_ways[] = {
    FOR_WORDS(ACCESS),
    MULTIPLES(OFFSET_NO_MULTIPLE, "offset no multiple"),
    WIDTHS(OFFSET_NEGATIVE, "offset negative, and a multiple"),
    MULTIPLES(OFFSET_ODD_NEGATIVE, "offset negative, and no multiple"),
    WIDTHS(REACH_TOO_LARGE, "mask whole and too large"),
    WIDTHS(OFFSET_TOO_LARGE, "offset too large by a width"),
    WIDTHS(SUM_PAST_16_BITS, "sum of 65,536 and a width"),
    NUMBERS(ALL_NUMBERS, LB, "LB, mask whole and too large, and offset negative"),
    HOLES(ONE_HOLE, "one bit of the mask missing"),
    HOLES(LOW_HOLES, "the lowest bits of the mask missing"),
    HOLES(TOP_BIT_ALONE, "all but the highest bit of the mask missing"),
    HOLES(ANY_HOLES, "any bits of the mask missing"),
    HOLES(UP_TO_THE_END, "mask with a hole, up to the data's end"),
    {0, NULL, NULL, 0, 0},
};

const struct way jump_ways[] = {
    FOR_WORDS(JUMPS),
    MASKS(MASK_NO_MULTIPLE, "mask no multiple"),
    MASKS(MASK_TOO_LARGE, "mask too large by one"),
    {0, NULL, NULL, 0, 0},
};

#define BOTH(way, kind, name) {{22, name, change_guard, OF_KIND(way, kind), 0}, RULE(25)}

const struct combined access_combined[] = {
    {{10, "load into 26 or 27 with another ANDI", load_into_base, OTHER_ANDI, 0}, RULE(12)},
    {{10, "load into 26 or 27 with a whole mask and wrong numbers", load_into_base, ALL_NUMBERS, 0}, RULE(22)},
    {{10, "load into 26 or 27 with a hole in the mask", load_into_base, ALL_NUMBERS, 0}, RULE(25)},
    {{10, "load into 26 or 27 with a hole and wrong numbers", load_into_base, ALL_NUMBERS, 0}, RULE(22) | RULE(25)},
    BOTH(MASK_NO_MULTIPLE, SH, "SH, mask no multiple"),
    BOTH(MASK_NO_MULTIPLE, LW, "LW, mask no multiple"),
    BOTH(MASK_TOO_LARGE, ANY_ACCESS, "access, mask with a hole and too large by a width"),
    BOTH(ALL_NUMBERS, SC, "SC, mask no multiple and too large, and offset negative"),
    BOTH(OFFSET_NO_MULTIPLE | WITH_HOLES, LHU, "LHU, mask with holes, and offset no multiple"),
    BOTH(OFFSET_NEGATIVE | WITH_HOLES, ANY_ACCESS, "access, mask with holes, and offset negative"),
    BOTH(OFFSET_TOO_LARGE | WITH_HOLES, ANY_ACCESS, "access, mask with holes, and offset too large"),
    {{0, NULL, NULL, 0, 0}, 0},
};

/* Random modules that are accepted and do things: they loop, call, return, load and store at both ends of their data, and exit at times.
   Straight-through ones go on ahead instead, to their last bundle. */
#include <string.h>

#include "harness.h"

#define TRIES 8 /* for a target that is allowed, before one is taken that always is */

static const uint32_t accesses[] = {LB, LBU, SB, LH, LHU, SH, LW, SW, LL, SC};
static const uint32_t never_exit[] = {
    ADDIU, ADDU, AND, ANDI, DIV, DIVU, LUI, MFHI, MFLO, MTHI, MTLO, MULT, MULTU, NOR, OR, ORI, SLL, SLLV, SLT, SLTI, SLTIU, SLTU, SRA, SRAV,
    SRL, SRLV, SUBU, SYNC, XOR, XORI
};
static const uint32_t may_exit[] = {
    ADD, ADDI, SUB, ADD, ADDI, SUB, SYSCALL, SYSCALL, BREAK, BREAK, TEQ, TEQI, TGE, TGEI, TGEIU, TGEU, TLT, TLTI, TLTIU, TLTU, TNE, TNEI
};

/* What a module is made with: one ordinary word of so many may exit, and so many registers are used; few, so that words share values. */
static uint32_t exit_in = 8, registers = 30;

void copy_module(struct module *to, const struct module *from)
{
    memcpy(to, from, offsetof(struct module, words));
    memcpy(to->words, from->words, 4 * (from->image_length / 4 + 4));
}

uint32_t word_count(const struct module *m) { return m->code_size / 4; }

uint32_t kind_at(const struct module *m, uint32_t at) { return plain_read(m->words[at]).kind; }

int guarded(const struct module *m, uint32_t at)
{
    uint32_t kind = kind_at(m, at);
    return access_width(kind) || kind == JR || kind == JALR;
}

/* Mostly small areas, so that words are near each other and bases differ in their low bits. */
static void random_layout(struct module *m, uint32_t most_memory)
{
    do {
        m->code_size = 16u << (below(1000) ? below(6) : below(13));
        m->data_size = 4u << below(15);
        m->memory_length = m->code_size + m->data_size + below(below(8) ? most_memory : 16);
        m->code_base = below((uint32_t)m->memory_length / m->code_size) * m->code_size;
        m->data_base = below((uint32_t)m->memory_length / m->data_size) * m->data_size;
    } while (m->code_base < m->data_base + m->data_size && m->data_base < m->code_base + m->code_size);
    m->image_length = m->code_size;
}

uint32_t random_register(uint32_t least)
{
    uint32_t r = below(8) ? least + below(registers - least) : least + below(30 - least);
    return r < DATA_REGISTER ? r : r + 2;
}

/* Any register may be read; the bases are read now and then. */
static uint32_t source(void) { return below(16) ? random_register(0) : DATA_REGISTER + below(2); }

uint32_t random_access(uint32_t largest_width)
{
    uint32_t kind;
    do
        kind = PICK(accesses);
    while ((uint32_t)access_width(kind) > largest_width);
    return kind;
}

uint32_t word_with_registers(uint32_t kind)
{
    const struct drawing *d = &drawings[kind - 1];
    uint32_t rest = random_word_of(kind) & ~(d->rs | d->rt | d->rd), written = random_register(0);
    uint32_t rt = written_by(kind, 1, 0) == 1 ? written : source();
    return rest | (source() << 21 & d->rs) | (rt << 16 & d->rt) | (written << 11 & d->rd);
}

/* Words that change a register at every turn of a loop, so that conditions, addresses and targets change too. */
static uint32_t counting_word(void)
{
    static const uint32_t small[] = {1, 2, 4, 16, 0xFFFF, 0xFFFC, 0xFFF0, 0x7FFF};
    uint32_t r = random_register(1);
    switch (below(4)) {
    case 0: return word_of(ADD, r, r, r, 0);
    case 1: return word_of(ADDU, r, source(), r, 0);
    default: return word_of(ADDIU, r, r, 0, PICK(small));
    }
}

uint32_t ordinary_word(void)
{
    uint32_t kind = below(exit_in) ? PICK(never_exit) : PICK(may_exit), code = below(20);
    if (below(5) == 0)
        return counting_word();
    if (kind == BREAK)
        return word_of(BREAK, 0, 0, 0, code == 15 ? 0 : code);
    if (kind == SYSCALL)
        return word_of(SYSCALL, 0, 0, 0, code);
    return word_with_registers(kind);
}

uint32_t direct_word(void)
{
    static const uint32_t kinds[] = {BEQ, BGEZ, BGEZAL, BGTZ, BLEZ, BLTZ, BLTZAL, BNE, J, JAL};
    uint32_t kind = PICK(kinds), rs = source();
    return word_of(kind, rs == 31 ? 0 : rs, source(), 0, 0);
}

/* ANDI and OR. The register that is masked is often the link or the guard's own. */
static void put_guard(struct module *m, uint32_t at, uint32_t r, uint32_t mask, uint32_t base)
{
    uint32_t link = base == CODE_REGISTER && below(2), s = link ? 31 : below(4) ? source() : r;
    m->words[at] = word_of(ANDI, s, r, 0, mask);
    m->words[at + 1] = word_of(OR, r, base, r, 0);
}

uint32_t largest_reach(uint32_t width, uint32_t size)
{
    uint32_t reach = width;
    while (2 * reach <= size && reach < 65536)
        reach *= 2;
    return reach;
}

/* Mask and width together are a power of two, the guard's reach, which is often the largest that the data has room for. The offset is often 0 or the
   largest, so that the ends of the data are met. */
void put_access(struct module *m, uint32_t at, uint32_t kind)
{
    uint32_t width = (uint32_t)access_width(kind), r = random_register(1), reach = largest_reach(width, m->data_size);
    for (uint32_t i = below(2) ? 0 : below(8); i > 0 && reach > width; i--)
        reach /= 2;
    uint32_t rest = m->data_size - reach, most = rest < 0x7FFF ? rest : 0x7FFF;
    uint32_t offset = (below(3) ? below(2) * most : below(most + 1)) / width * width;
    uint32_t rt = written_by(kind, 1, 0) == 1 ? random_register(0) : source();
    put_guard(m, at, r, reach - width, DATA_REGISTER);
    m->words[at + 2] = word_of(kind, r, rt, 0, offset);
}

/* JALR does not link to its own register. */
void put_register_jump(struct module *m, uint32_t at, uint32_t kind)
{
    uint32_t r = random_register(1), link = random_register(0), bundles = (m->code_size < 65536 ? m->code_size : 65536) / 16;
    put_guard(m, at, r, (below(2) ? bundles - 1 : below(bundles)) * 16, CODE_REGISTER);
    m->words[at + 2] = word_of(kind, r, 0, link == r ? 0 : link, 0);
}

uint32_t to_word(const struct module *m, uint32_t word, uint32_t at, uint32_t target)
{
    if (word >> 27 == 1) /* J or JAL */
        return (word & ~INDEX) | ((m->code_base / 4 + target) & INDEX);
    return (word & ~CONSTANT) | ((target - at - 1) & CONSTANT);
}

/* A target from one word up to before another; where none is found, the one that is always allowed. */
static uint32_t allowed_target(const struct module *m, uint32_t from, uint32_t to, uint32_t always)
{
    for (int i = 0; i < TRIES && from < to; i++) {
        uint32_t target = from + below(to - from);
        if (!guarded(m, target) && !guarded(m, target + 1))
            return target;
    }
    return always;
}

/* Most are forwards, so that a loop goes through much of the module. The last jump goes back. The first word is always allowed: what is guarded
   is the third of a bundle or the fourth. */
static uint32_t any_target(const struct module *m, uint32_t at, uint32_t count)
{
    uint32_t forwards = at + 2 < count && below(4);
    return allowed_target(m, forwards ? at + 1 : 0, count - 1, 0);
}

uint32_t last_bundle(uint32_t count) { return count < 4 ? 0 : count - 4; }

/* Ahead, often just two words, where a branch leaves no word out; and in the last bundle to its start. */
static uint32_t target_ahead(const struct module *m, uint32_t at, uint32_t count)
{
    uint32_t last = last_bundle(count), near = at + 2 < last && below(2);
    return allowed_target(m, at + 2, near ? at + 3 : last + 1, last);
}

void choose_targets(struct module *m, uint32_t count)
{
    for (uint32_t at = 0; at < count; at++)
        if (direct(kind_at(m, at)))
            m->words[at] = to_word(m, m->words[at], at, m->straight ? target_ahead(m, at, count) : any_target(m, at, count));
}

/* A call at the third word of a bundle links to the first of the next bundle, to which a guarded jump can return. */
static uint32_t branch_word(uint32_t at) { return at % 4 == 2 && below(2) ? word_of(JAL, 0, 0, 0, 0) : direct_word(); }

/* Puts one or three words. Gives how many. A register jump does not end at the last word or straight before the last jump. */
static uint32_t put_some(struct module *m, uint32_t at, uint32_t count)
{
    uint32_t left = count - at, choice = below(8);
    if (choice < 3 && at % 4 < 2 && left > 4 && m->data_size > 0) {
        put_access(m, at, random_access(m->data_size));
        return 3;
    }
    if (choice == 3 && at % 4 < 2 && left > 3 && left != 5 && m->code_size >= 16) {
        put_register_jump(m, at, below(2) ? JR : JALR);
        return 3;
    }
    if (left == 2)
        m->words[at] = word_of(below(2) ? J : JAL, 0, 0, 0, 0);
    else if (choice >= 6 && left > 3 && (at == 0 || !branches(kind_at(m, at - 1))))
        m->words[at] = branch_word(at);
    else
        m->words[at] = ordinary_word();
    return 1;
}

/* Puts one or three words before the last bundle. Gives how many. A branch has its slot there too. */
static uint32_t put_some_straight(struct module *m, uint32_t at, uint32_t count)
{
    uint32_t left = last_bundle(count) - at, choice = below(8);
    if (choice < 3 && at % 4 < 2 && left > 2 && m->data_size > 0) {
        put_access(m, at, random_access(m->data_size));
        return 3;
    }
    m->words[at] = choice >= 6 && left > 1 && (at == 0 || !branches(kind_at(m, at - 1))) ? direct_word() : ordinary_word();
    return 1;
}

/* SYSCALL 0, a zero word, J to it, a zero word; what J leads to is chosen with the other targets. */
static void put_last_bundle(struct module *m, uint32_t at)
{
    m->words[at] = word_of(SYSCALL, 0, 0, 0, 0);
    m->words[at + 1] = 0;
    m->words[at + 2] = word_of(J, 0, 0, 0, 0);
    m->words[at + 3] = 0;
}

void make_words(struct module *m, uint32_t count)
{
    static const uint32_t rates[] = {2, 4, 8, 20}, straight_rates[] = {2, 8, 20, 1000}, used[] = {4, 8, 30};
    uint32_t end = m->straight ? last_bundle(count) : count;
    exit_in = m->straight ? PICK(straight_rates) : PICK(rates);
    registers = PICK(used);
    for (uint32_t at = 0; at < end;)
        at += m->straight ? put_some_straight(m, at, count) : put_some(m, at, count);
    if (m->straight)
        put_last_bundle(m, end);
    choose_targets(m, count);
}

static void make(struct module *m, uint32_t most_memory, int straight)
{
    random_layout(m, most_memory);
    m->straight = straight;
    make_words(m, m->code_size / 4);
}

void make_accepted(struct module *m, uint32_t most_memory) { make(m, most_memory, 0); }
void make_straight(struct module *m, uint32_t most_memory) { make(m, most_memory, 1); }

void start_module(struct machine *x, const struct module *m)
{
    set_length(&x->memory, (size_t)m->memory_length);
    fill_random(&x->memory);
    write_image(m, x->memory.bytes + m->code_base);
    random_state(x);
    set_state(x, CC100_PC, m->code_base);
    set_state(x, CC100_NEXT_PC, m->code_base + 4);
    set_state(x, CC100_REGISTER(DATA_REGISTER), m->data_base);
    set_state(x, CC100_REGISTER(CODE_REGISTER), m->code_base);
    set_state(x, CC100_STATUS, state_word(x, CC100_STATUS) | CC100_STATUS_USER);
}

uint32_t fresh_bundles(struct module *m, uint32_t count)
{
    uint32_t bundles = m->code_size / 16, at = bundles > count ? 4 * below(bundles - count) : NOWHERE;
    for (uint32_t i = 0; at != NOWHERE && i < 4 * count; i++)
        m->words[at + i] = ordinary_word();
    return at;
}

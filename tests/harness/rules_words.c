/* Ways to break one of rules 8 to 11 and 14 to 16 and no other. */
#include "harness.h"

/* Puts a word anywhere in a fresh bundle. */
static int put_word(struct module *m, uint32_t word)
{
    uint32_t at = fresh_bundles(m, 1);
    if (at == NOWHERE)
        return 0;
    m->words[at + below(4)] = word;
    choose_targets(m, word_count(m));
    return 1;
}

enum { OPCODE, FUNCTION, CONDITION, ZERO_FIELD, CONTROL_REGISTER, CONTROL_CODE, ANY_WORD };

/* Words that aim at being no instruction; some are one after all. */
static uint32_t aimed_word(uint32_t detail)
{
    const struct drawing *d = &drawings[below(KINDS)];
    uint32_t word = next_random(), fields = word & (d->rs | d->rt | d->rd | d->shift | d->value);
    switch (detail) {
    case OPCODE: return word | 0x40000000;
    case FUNCTION: return word & 0x0000003F;
    case CONDITION: return (word & INDEX) | 0x04000000;
    case ZERO_FIELD: return d->fixed | fields | 1u << (6 + below(20));
    case CONTROL_REGISTER: return word_of(below(2) ? MFC0 : MTC0, 0, random_register(0), below(32), 0);
    case CONTROL_CODE: return 0x42000010 ^ 1u << below(26);
    default: return word;
    }
}

static int put_no_instruction(struct module *m, uint32_t detail)
{
    uint32_t word;
    do
        word = aimed_word(detail);
    while (em_read(word).kind != 0);
    return put_word(m, word);
}

static int put_privileged(struct module *m, uint32_t kind)
{
    return put_word(m, kind == BREAK ? word_of(BREAK, 0, 0, 0, 15) : random_word_of(kind));
}

/* A word of the kind that writes 26 or 27, with its guard where it needs one. */
static int write_base(struct module *m, uint32_t kind)
{
    uint32_t base = DATA_REGISTER + below(2), at, word = word_with_registers(kind);
    if (kind != JALR && !access_width(kind))
        return put_word(m, drawings[kind - 1].rd ? (word & ~RD) | base << 11 : (word & ~RT) | base << 16);
    at = fresh_bundles(m, 1);
    if (at == NOWHERE)
        return 0;
    at += below(2);
    if (kind == JALR) {
        put_register_jump(m, at, JALR);
        m->words[at + 2] = (m->words[at + 2] & ~RD) | base << 11;
    } else {
        put_access(m, at, kind);
        m->words[at + 2] = (m->words[at + 2] & ~RT) | base << 16;
    }
    choose_targets(m, word_count(m));
    return 1;
}

static int link_to_own(struct module *m, uint32_t kind)
{
    uint32_t at = fresh_bundles(m, 1);
    if (at == NOWHERE)
        return 0;
    at += below(2);
    if (kind == JALR) {
        put_register_jump(m, at, JALR);
        m->words[at + 2] = (m->words[at + 2] & ~RD) | (m->words[at + 2] & RS) >> 10;
    } else {
        m->words[at + 1] = word_of(kind, 31, 0, 0, 0);
    }
    choose_targets(m, word_count(m));
    return 1;
}

enum { CONDITIONAL, JUMP, REGISTER_JUMP };

static uint32_t word_of_class(uint32_t class)
{
    uint32_t word;
    do
        word = direct_word();
    while ((word >> 27 == 1) != (class == JUMP));
    return word;
}

#define PAIR(first, second) ((first) << 4 | (second))
#define IN_LAST_WORD 0x100

/* A branch or jump straight after another, often in the next bundle. */
static int put_pair(struct module *m, uint32_t detail)
{
    uint32_t at = fresh_bundles(m, 2), first = detail >> 4, place = below(4), second = word_of_class(detail & 15);
    if (at == NOWHERE)
        return 0;
    if (detail == IN_LAST_WORD) {
        m->words[word_count(m) - 1] = direct_word();
    } else if (first == REGISTER_JUMP) {
        put_register_jump(m, at + place / 2, below(2) ? JR : JALR);
        m->words[at + place / 2 + 3] = second;
    } else {
        m->words[at + place] = word_of_class(first);
        m->words[at + place + 1] = second;
    }
    choose_targets(m, word_count(m));
    return 1;
}

enum { BELOW, ABOVE, FAR, LAST, ON_ACCESS, BEFORE_ACCESS, ON_JR, BEFORE_JR, ON_JALR, BEFORE_JALR };
#define FROM(class, where) ((class) << 8 | (where))

/* The word that is aimed at. What is guarded is the third of three words. */
static uint32_t target_of(uint32_t where, uint32_t words, uint32_t third)
{
    switch (where) {
    case BELOW: return 0u - 1 - below(4);
    case ABOVE: return words + below(4);
    case FAR: return next_random();
    case LAST: return words - 1;
    default: return (where - ON_ACCESS) % 2 ? third - 1 : third;
    }
}

/* A branch or jump in a fresh bundle, and in the next one, what it must not go to. */
static int aim(struct module *m, uint32_t detail)
{
    uint32_t at = fresh_bundles(m, 2), where = detail & 0xFF, guard = at + 4 + below(2), from = at + 1 + below(2);
    if (at == NOWHERE)
        return 0;
    if (where >= ON_JR)
        put_register_jump(m, guard, where >= ON_JALR ? JALR : JR);
    else
        put_access(m, guard, random_access(m->data_size));
    choose_targets(m, word_count(m));
    m->words[from] = to_word(m, word_of_class(detail >> 8), from, target_of(where, word_count(m), guard + 2));
    return 1;
}

enum { ORDINARY, BRANCH, LINKING_BRANCH, EXIT, ACCESS, JUMP_IN_LAST_WORD };

static int change_end(struct module *m, uint32_t detail)
{
    uint32_t words = word_count(m), *w = &m->words[words - 2];
    if (words < 4)
        return 0;
    switch (detail) {
    case BRANCH: *w = word_of_class(CONDITIONAL); break;
    case LINKING_BRANCH: *w = word_of(below(2) ? BLTZAL : BGEZAL, random_register(0) % 31, 0, 0, 0); break;
    case EXIT: *w = word_of(below(2) ? SYSCALL : BREAK, 0, 0, 0, below(15)); break;
    case ACCESS: put_access(m, words - 4, random_access(m->data_size)); break;
    case JUMP_IN_LAST_WORD:
        w[0] = ordinary_word();
        w[1] = word_of_class(JUMP);
        break;
    default: *w = ordinary_word(); break;
    }
    choose_targets(m, words);
    return 1;
}

#define WRITES(kind) {10, #kind " writes 26 or 27", write_base, kind, 0}
#define AIMS(where, name) {15, "branch " name, aim, FROM(CONDITIONAL, where), 0}, {15, "jump " name, aim, FROM(JUMP, where), 0}

const struct way word_ways[] = {
    {8, "no such opcode", put_no_instruction, OPCODE, 0},
    {8, "no such function", put_no_instruction, FUNCTION, 0},
    {8, "no such condition", put_no_instruction, CONDITION, 0},
    {8, "a field drawn as zero is not", put_no_instruction, ZERO_FIELD, 0},
    {8, "no such control register", put_no_instruction, CONTROL_REGISTER, 0},
    {8, "no such control code", put_no_instruction, CONTROL_CODE, 0},
    {8, "any word that is no instruction", put_no_instruction, ANY_WORD, 0},
    {9, "MFC0", put_privileged, MFC0, 0},
    {9, "MTC0", put_privileged, MTC0, 0},
    {9, "RFE", put_privileged, RFE, 0},
    {9, "BREAK 15", put_privileged, BREAK, 0},
    WRITES(ADD), WRITES(ADDI), WRITES(ADDIU), WRITES(ADDU), WRITES(AND), WRITES(ANDI), WRITES(JALR), WRITES(LB), WRITES(LBU), WRITES(LH),
    WRITES(LHU), WRITES(LL), WRITES(LUI), WRITES(LW), WRITES(MFHI), WRITES(MFLO), WRITES(NOR), WRITES(OR), WRITES(ORI), WRITES(SC),
    WRITES(SLL), WRITES(SLLV), WRITES(SLT), WRITES(SLTI), WRITES(SLTIU), WRITES(SLTU), WRITES(SRA), WRITES(SRAV), WRITES(SRL), WRITES(SRLV),
    WRITES(SUB), WRITES(SUBU), WRITES(XOR), WRITES(XORI),
    {11, "JALR with rd = rs", link_to_own, JALR, 0},
    {11, "BLTZAL with rs = 31", link_to_own, BLTZAL, 0},
    {11, "BGEZAL with rs = 31", link_to_own, BGEZAL, 0},
    {14, "branch after a branch", put_pair, PAIR(CONDITIONAL, CONDITIONAL), 0},
    {14, "jump after a branch", put_pair, PAIR(CONDITIONAL, JUMP), 0},
    {14, "branch after a jump", put_pair, PAIR(JUMP, CONDITIONAL), 0},
    {14, "jump after a jump", put_pair, PAIR(JUMP, JUMP), 0},
    {14, "branch after JR or JALR", put_pair, PAIR(REGISTER_JUMP, CONDITIONAL), 0},
    {14, "jump after JR or JALR", put_pair, PAIR(REGISTER_JUMP, JUMP), 0},
    {14, "branch or jump in the last word", put_pair, IN_LAST_WORD, 0},
    AIMS(BELOW, "below the code"), AIMS(ABOVE, "above the code"), AIMS(FAR, "far away"), AIMS(LAST, "to the last word"),
    AIMS(ON_ACCESS, "to an access"), AIMS(BEFORE_ACCESS, "to just before an access"), AIMS(ON_JR, "to JR"),
    AIMS(BEFORE_JR, "to just before JR"), AIMS(ON_JALR, "to JALR"), AIMS(BEFORE_JALR, "to just before JALR"),
    {16, "ends in an ordinary word", change_end, ORDINARY, 0},
    {16, "ends in a branch", change_end, BRANCH, 0},
    {16, "ends in a linking branch", change_end, LINKING_BRANCH, 0},
    {16, "ends in an exit", change_end, EXIT, 0},
    {16, "ends in an access", change_end, ACCESS, 0},
    {16, "its jump is in the last word", change_end, JUMP_IN_LAST_WORD, 0},
    {0, NULL, NULL, 0, 0},
};

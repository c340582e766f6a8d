/* Ways to break rule 20 or 21 of a straight-through module and no other; and ways that break more than one rule, of which one is named. */
#include "harness.h"

enum { NEXT_WORD, ITSELF, BEHIND, AFTER_START, LAST_BUT_ONE, LAST_WORD, BELOW, ABOVE };

/* The word that a branch or jump is aimed at. */
static uint32_t target_of(uint32_t where, uint32_t from, uint32_t words)
{
    switch (where) {
    case NEXT_WORD: return from + 1;
    case ITSELF: return from;
    case BEHIND: return below(from);
    case AFTER_START: return words - 3;
    case LAST_BUT_ONE: return words - 2;
    case LAST_WORD: return words - 1;
    case BELOW: return 0u - 1 - below(4);
    default: return words + below(4);
    }
}

/* A branch or jump in a fresh bundle. */
static int aim(struct module *m, uint32_t where)
{
    uint32_t at = fresh_bundles(m, 1), from = at + below(4);
    if (at == NOWHERE || from == 0)
        return 0;
    m->words[from] = to_word(m, direct_word(), from, target_of(where, from, word_count(m)));
    return 1;
}

/* A word so many places before the end: a branch, J or JAL to the last bundle's start. */
#define FROM_END(place, kind) ((place) << 8 | (kind))

static int aim_at_start(struct module *m, uint32_t detail)
{
    uint32_t words = word_count(m), from = words - (detail >> 8);
    if (words < (detail >> 8))
        return 0;
    m->words[from] = to_word(m, word_of(detail & 0xFF, random_register(0) % 31, 0, 0, 0), from, words - 4);
    return 1;
}

static int aim_last_jump(struct module *m, uint32_t where)
{
    uint32_t from = word_count(m) - 2;
    m->words[from] = to_word(m, word_of(J, 0, 0, 0, 0), from, target_of(where, from, word_count(m)));
    return 1;
}

#define IN_LAST_BUNDLE 0x100

/* JR or JALR with its guard. */
static int jump_by_register(struct module *m, uint32_t detail)
{
    uint32_t last = detail & IN_LAST_BUNDLE, at = last ? last_bundle(word_count(m)) : fresh_bundles(m, 1);
    if (at == NOWHERE)
        return 0;
    put_register_jump(m, at + (last ? 0 : below(2)), detail & 0xFF);
    return 1;
}

enum { OTHER_CODE, BREAK_THERE, OTHER_WORD, NO_CALL, AFTER_CALL, NO_ZERO, IN_SLOT, NO_ZERO_IN_SLOT, ALL_BUT_JUMP, NO_JUMP };

/* The last bundle, other than it must be. Some words do nothing, but are not the zero word: SLL 0,0 by 1 to 31 bits. */
static int change_last(struct module *m, uint32_t detail)
{
    uint32_t *w = &m->words[last_bundle(word_count(m))], idle = (1 + below(31)) << 6;
    switch (detail) {
    case OTHER_CODE: w[0] = word_of(SYSCALL, 0, 0, 0, below(2) ? 1u << below(20) : 1 + below(0xFFFFF)); break;
    case BREAK_THERE: w[0] = word_of(BREAK, 0, 0, 0, below(15)); break;
    case OTHER_WORD: w[0] = ordinary_word(); break;
    case NO_CALL: w[0] = 0; break;
    case AFTER_CALL: w[1] = ordinary_word(); break;
    case NO_ZERO: w[1] = idle; break;
    case IN_SLOT: w[3] = ordinary_word(); break;
    case NO_ZERO_IN_SLOT: w[3] = idle; break;
    case ALL_BUT_JUMP:
        w[0] = ordinary_word();
        w[1] = ordinary_word();
        w[3] = ordinary_word();
        break;
    default: w[2] = ordinary_word(); break;
    }
    return 1;
}

const struct way straight_ways[] = {
    {20, "to the word after it", aim, NEXT_WORD, 0},
    {20, "to itself", aim, ITSELF, 0},
    {20, "to a word behind it", aim, BEHIND, 0},
    {20, "into the last bundle, to its second word", aim, AFTER_START, 0},
    {20, "into the last bundle, to its jump", aim, LAST_BUT_ONE, 0},
    {20, "J to the last bundle's start, one word ahead", aim_at_start, FROM_END(5, J), 0},
    {20, "JAL to the last bundle's start, one word ahead", aim_at_start, FROM_END(5, JAL), 0},
    {20, "JR", jump_by_register, JR, 0},
    {20, "JALR", jump_by_register, JALR, 0},
    {21, "SYSCALL with another code", change_last, OTHER_CODE, 0},
    {21, "BREAK for SYSCALL", change_last, BREAK_THERE, 0},
    {21, "another word for SYSCALL", change_last, OTHER_WORD, 0},
    {21, "a zero word for SYSCALL", change_last, NO_CALL, 0},
    {21, "a word after SYSCALL", change_last, AFTER_CALL, 0},
    {21, "a word that does nothing after SYSCALL", change_last, NO_ZERO, 0},
    {21, "a word in the slot", change_last, IN_SLOT, 0},
    {21, "a word that does nothing in the slot", change_last, NO_ZERO_IN_SLOT, 0},
    {21, "all but the jump differs", change_last, ALL_BUT_JUMP, 0},
    {0, NULL, NULL, 0, 0},
};

const struct combined straight_combined[] = {
    {{15, "to the last word", aim, LAST_WORD, 0}, RULE(20)},
    {{15, "below the code", aim, BELOW, 0}, RULE(20)},
    {{15, "above the code", aim, ABOVE, 0}, RULE(20)},
    {{20, "J to the last bundle's start in its first word", aim_at_start, FROM_END(4, J), 0}, RULE(21)},
    {{20, "J to the last bundle's start in its second word", aim_at_start, FROM_END(3, J), 0}, RULE(14) | RULE(21)},
    {{14, "J to the last bundle's start in the last word", aim_at_start, FROM_END(1, J), 0}, RULE(20) | RULE(21)},
    {{20, "JAL to the last bundle's start in the last word but one", aim_at_start, FROM_END(2, JAL), 0}, RULE(21)},
    {{20, "BGEZ to the last bundle's start in the last word but one", aim_at_start, FROM_END(2, BGEZ), 0}, RULE(16) | RULE(21)},
    {{20, "J in the last word but one to a word behind it", aim_last_jump, BEHIND, 0}, RULE(21)},
    {{20, "J in the last word but one to itself", aim_last_jump, ITSELF, 0}, RULE(21)},
    {{20, "J in the last word but one to the word before it", aim_last_jump, AFTER_START, 0}, RULE(21)},
    {{15, "J in the last word but one to the last word", aim_last_jump, LAST_WORD, 0}, RULE(20) | RULE(21)},
    {{20, "JR in the last bundle", jump_by_register, IN_LAST_BUNDLE | JR, 0}, RULE(21)},
    {{20, "JALR in the last bundle", jump_by_register, IN_LAST_BUNDLE | JALR, 0}, RULE(21)},
    {{16, "no jump in the last word but one", change_last, NO_JUMP, 0}, RULE(21)},
    {{0, NULL, NULL, 0, 0}, 0},
};

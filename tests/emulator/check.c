/* The checker: document 01's sections on a module, its guards and the refusal table, and tickets 2, 5 and 7 of document 02. */
#include <inttypes.h>
#include <stdio.h>

#include "machine.h"

#define DATA_BASE 26 /* the register that holds the data area's base */
#define CODE_BASE 27

typedef bool layout_rule(const struct em_module *m);
typedef bool word_rule(const struct em_module *m, size_t index);

static size_t word_count(const struct em_module *m)
{
    return m->image_length / 4;
}

/* The instruction at a word; no instruction where there is no such word. */
static struct em_instruction at(const struct em_module *m, size_t index)
{
    if (index >= word_count(m))
        return (struct em_instruction){0, 0, 0, 0, 0, 0};
    return em_read(em_word_at(m->image, index));
}

static bool power_of_two(uint32_t size)
{
    return size != 0 && (size & (size - 1)) == 0;
}

/* Of size 0 only 0 is a multiple. */
static bool multiple(uint32_t base, uint32_t size)
{
    return size == 0 ? base == 0 : base % size == 0;
}

static bool inside(const struct em_module *m, uint32_t base, uint32_t size)
{
    return (uint64_t)base + size <= m->memory_length;
}

static bool rule_1(const struct em_module *m)
{
    return m->memory_length > LONGEST_MEMORY;
}

static bool rule_2(const struct em_module *m)
{
    return !power_of_two(m->code_size) || m->code_size < 16 || m->code_size > 65536;
}

static bool rule_3(const struct em_module *m)
{
    return !power_of_two(m->data_size) || m->data_size < 4 || m->data_size > 65536;
}

static bool rule_4(const struct em_module *m)
{
    return !multiple(m->code_base, m->code_size) || !inside(m, m->code_base, m->code_size);
}

static bool rule_5(const struct em_module *m)
{
    return !multiple(m->data_base, m->data_size) || !inside(m, m->data_base, m->data_size);
}

/* The areas share a byte: the later base comes before the earlier end. */
static bool rule_6(const struct em_module *m)
{
    uint64_t code_end = (uint64_t)m->code_base + m->code_size, data_end = (uint64_t)m->data_base + m->data_size;
    uint64_t later_base = m->code_base > m->data_base ? m->code_base : m->data_base;
    return later_base < (code_end < data_end ? code_end : data_end);
}

static bool rule_7(const struct em_module *m)
{
    return m->image_length != m->code_size;
}

static bool is_register_jump(uint32_t kind)
{
    return kind == JR || kind == JALR;
}

static bool has_direct_target(uint32_t kind)
{
    switch (kind) {
    case BEQ: case BNE: case BLEZ: case BGTZ: case BLTZ: case BGEZ: case BLTZAL: case BGEZAL: case J: case JAL:
        return true;
    default:
        return false;
    }
}

static bool needs_guard(uint32_t kind)
{
    return em_access_width(kind) != 0 || is_register_jump(kind);
}

/* The general register that an instruction's operation writes; 0, to which writes vanish, where there is none. */
static uint32_t written(struct em_instruction i)
{
    switch (i.kind) {
    case ADD: case ADDU: case SUB: case SUBU: case SLT: case SLTU: case AND: case OR: case XOR: case NOR:
    case SLL: case SRL: case SRA: case SLLV: case SRLV: case SRAV: case MFHI: case MFLO: case JALR:
        return i.rd;
    case ADDI: case ADDIU: case SLTI: case SLTIU: case ANDI: case ORI: case XORI: case LUI:
    case LB: case LBU: case LH: case LHU: case LW: case LL: case SC: case MFC0:
        return i.rt;
    case JAL: case BLTZAL: case BGEZAL:
        return 31;
    default:
        return 0;
    }
}

static bool rule_8(const struct em_module *m, size_t index)
{
    return at(m, index).kind == 0;
}

static bool rule_9(const struct em_module *m, size_t index)
{
    struct em_instruction i = at(m, index);
    return i.kind == MFC0 || i.kind == MTC0 || i.kind == RFE || (i.kind == BREAK && i.value == 15);
}

static bool rule_10(const struct em_module *m, size_t index)
{
    uint32_t number = written(at(m, index));
    return number == DATA_BASE || number == CODE_BASE;
}

static bool rule_11(const struct em_module *m, size_t index)
{
    struct em_instruction i = at(m, index);
    return (i.kind == JALR && i.rd == i.rs) || ((i.kind == BLTZAL || i.kind == BGEZAL) && i.rs == 31);
}

/* The two words before, in the same bundle, are ANDI R,S,m and OR R,R,area, where R is not 0, 26 or 27. Gives the mask m. */
static bool guarded(const struct em_module *m, size_t index, uint32_t base, uint32_t area, uint32_t *mask)
{
    if (index % 4 < 2 || base == 0 || base == DATA_BASE || base == CODE_BASE)
        return false;
    struct em_instruction masking = at(m, index - 2), placing = at(m, index - 1);
    *mask = masking.value;
    if (masking.kind != ANDI || masking.rt != base)
        return false;
    return placing.kind == OR && placing.rd == base && placing.rs == base && placing.rt == area;
}

/* "Keep 12 for missing or different guard words, with a wrong R counted there." */
static bool rule_12(const struct em_module *m, size_t index)
{
    struct em_instruction i = at(m, index);
    uint32_t mask;
    return em_access_width(i.kind) != 0 && !guarded(m, index, i.rs, DATA_BASE, &mask);
}

/* "22 when the guard words are right but mask or offset breaks a multiple, sign or size rule" */
static bool rule_22(const struct em_module *m, size_t index)
{
    struct em_instruction i = at(m, index);
    uint32_t width = em_access_width(i.kind), mask;
    int64_t offset = em_signed_number(i.value, 16);
    if (width == 0 || !guarded(m, index, i.rs, DATA_BASE, &mask))
        return false;
    return mask % width != 0 || offset % width != 0 || offset < 0 || mask + offset + width > m->data_size;
}

static uint32_t ones(uint32_t number)
{
    uint32_t count = 0;
    for (; number != 0; number >>= 1)
        count += number & 1;
    return count;
}

/* "A data guard's mask plus the access width must now be a power of two, told from the count of ones in that sum." A mask has 16 bits, and the sum
   may have 17. */
static bool rule_25(const struct em_module *m, size_t index)
{
    struct em_instruction i = at(m, index);
    uint32_t width = em_access_width(i.kind), mask;
    return width != 0 && guarded(m, index, i.rs, DATA_BASE, &mask) && ones(mask + width) != 1;
}

static bool rule_13(const struct em_module *m, size_t index)
{
    struct em_instruction i = at(m, index);
    uint32_t mask;
    if (!is_register_jump(i.kind))
        return false;
    if (!guarded(m, index, i.rs, CODE_BASE, &mask))
        return true;
    return mask % 16 != 0 || mask > (int64_t)m->code_size - 16;
}

static bool rule_14(const struct em_module *m, size_t index)
{
    uint32_t here = at(m, index).kind, before = index == 0 ? 0 : at(m, index - 1).kind;
    return (has_direct_target(here) || is_register_jump(here)) && (has_direct_target(before) || is_register_jump(before));
}

/* The word that a branch, J or JAL leads to, counted from the first one of the code; a target before it is far behind the code. */
static size_t target_of(const struct em_module *m, size_t index)
{
    uint32_t offset = em_direct_target(m->code_base + 4 * (uint32_t)index, at(m, index)) - m->code_base;
    return offset / 4;
}

static bool rule_15(const struct em_module *m, size_t index)
{
    if (!has_direct_target(at(m, index).kind))
        return false;
    size_t target = target_of(m, index);
    bool outside = target >= word_count(m), last = target == word_count(m) - 1;
    return outside || last || needs_guard(at(m, target).kind) || needs_guard(at(m, target + 1).kind);
}

static bool rule_16(const struct em_module *m)
{
    uint32_t kind = word_count(m) < 2 ? 0 : at(m, word_count(m) - 2).kind;
    return kind != J && kind != JAL && kind != JR && kind != JALR;
}

/* The word at which the last bundle starts. */
static size_t last_bundle(const struct em_module *m)
{
    return word_count(m) < 4 ? 0 : word_count(m) - 4;
}

/* "a J to that start in the last word but one is excused from the target rule, even where the rest of the bundle differs" */
static bool excused(const struct em_module *m, size_t index)
{
    return at(m, index).kind == J && index + 2 == word_count(m) && target_of(m, index) == last_bundle(m);
}

/* "20 when a word is JR or JALR, or its target isn't at least two words after it or is past the last bundle's start" */
static bool rule_20(const struct em_module *m, size_t index)
{
    uint32_t kind = at(m, index).kind;
    if (is_register_jump(kind))
        return true;
    if (!has_direct_target(kind) || excused(m, index))
        return false;
    return target_of(m, index) < index + 2 || target_of(m, index) > last_bundle(m);
}

static bool is_zero_word(const struct em_module *m, size_t index)
{
    return index < word_count(m) && em_word_at(m->image, index) == 0;
}

/* "The last bundle is SYSCALL with code 0, a zero word, J to that bundle's own start, a zero word" */
static bool rule_21(const struct em_module *m)
{
    size_t start = last_bundle(m);
    struct em_instruction call = at(m, start), jump = at(m, start + 2);
    bool calls = call.kind == SYSCALL && call.value == 0, jumps = jump.kind == J && target_of(m, start + 2) == start;
    return !calls || !is_zero_word(m, start + 1) || !jumps || !is_zero_word(m, start + 3);
}

static layout_rule *const layout_rules[] = {rule_1, rule_2, rule_3, rule_4, rule_5, rule_6, rule_7};

/* What is tried at each word, in this order: a rule, its number, and how many words before the tried one it has its place. 22 is tried "directly
   after 12 with the ANDI word's index as its place", and 25 "directly after 22, with the ANDI word's index"; that is two words before the access. */
static const struct trial {
    uint32_t number;
    word_rule *broken;
    uint32_t back;
} trials[] = {
    {8, rule_8, 0}, {9, rule_9, 0}, {10, rule_10, 0}, {11, rule_11, 0}, {12, rule_12, 0}, {22, rule_22, 2}, {25, rule_25, 2},
    {13, rule_13, 0}, {14, rule_14, 0}, {15, rule_15, 0}, {20, rule_20, 0},
};

/* The last of them, 20, is tried of straight-through modules alone. */
static size_t trial_count(bool straight)
{
    return sizeof trials / sizeof *trials - !straight;
}

/* The rules of 1 to 7 that are broken, bit n for rule n. */
static uint32_t broken_by_layout(const struct em_module *m)
{
    uint32_t broken = 0;
    for (uint32_t n = 1; n <= 7; n++)
        broken |= (uint32_t)layout_rules[n - 1](m) << n;
    return broken;
}

/* The rules for words that are broken at one, in the same way. */
static uint32_t broken_by_word(const struct em_module *m, bool straight, size_t index)
{
    uint32_t broken = 0;
    for (size_t n = 0; n < trial_count(straight); n++)
        broken |= (uint32_t)trials[n].broken(m, index) << trials[n].number;
    return broken;
}

/* The first of 1 to 7 that is broken, or 0. */
static uint32_t try_layout(const struct em_module *m)
{
    uint32_t n = 1;
    while (n <= 7 && !layout_rules[n - 1](m))
        n++;
    return n <= 7 ? n : 0;
}

/* The first rule that is broken at a word, with its place, or 0. */
static uint32_t try_word(const struct em_module *m, bool straight, size_t index, uint32_t *place)
{
    size_t n = 0;
    while (n < trial_count(straight) && !trials[n].broken(m, index))
        n++;
    if (n == trial_count(straight))
        return 0;
    *place = (uint32_t)index - trials[n].back;
    return trials[n].number;
}

static uint32_t check(const struct em_module *m, bool straight, uint32_t *place)
{
    *place = EM_NO_PLACE;
    uint32_t number = try_layout(m);
    size_t words = word_count(m);
    if (number != 0)
        return number;
    for (size_t index = 0; index < words && number == 0; index++)
        number = try_word(m, straight, index, place);
    if (number != 0)
        return number;
    if (!rule_16(m))
        return straight && rule_21(m) ? 21 : 0;
    *place = (uint32_t)words - 2;
    return 16;
}

uint32_t em_check(const struct em_module *m, uint32_t *place)
{
    return check(m, false, place);
}

uint32_t em_check_straight(const struct em_module *m, uint32_t *place)
{
    return check(m, true, place);
}

/* Document 01, Marked cases: `accept` and the word count; or `refuse`, the number, and the word index or `-`. */
void em_print_verdict(em_checker *checker, const struct em_module *m)
{
    uint32_t place, number = checker(m, &place);
    if (number == 0)
        printf("accept %zu\n", word_count(m));
    else if (place == EM_NO_PLACE)
        printf("refuse %" PRIu32 " -\n", number);
    else
        printf("refuse %" PRIu32 " %" PRIu32 "\n", number, place);
}

static uint32_t broken_anywhere(const struct em_module *m, bool straight)
{
    uint32_t broken = broken_by_layout(m) | (uint32_t)rule_16(m) << 16 | (uint32_t)(straight && rule_21(m)) << 21;
    for (size_t index = 0; index < word_count(m); index++)
        broken |= broken_by_word(m, straight, index);
    return broken;
}

uint32_t em_broken(const struct em_module *m)
{
    return broken_anywhere(m, false);
}

uint32_t em_broken_straight(const struct em_module *m)
{
    return broken_anywhere(m, true);
}

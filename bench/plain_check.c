/* A checker of modules as one would write it in C for speed: one pass over the words. Of most words only the zero bits and the register
   that is written have to be looked at, and a table says where they are: a switch that every word went through took twice the time, as a
   processor cannot guess its next arm. The rules that the others can break are tried in their order. The check of straight-through modules is
   the same code, compiled once more with what it tries besides. */
#include "fields.h"
#include "plain.h"

#define INLINE static inline __attribute__((always_inline))

#define SMALLEST_CODE 16u
#define SMALLEST_DATA 4u
#define LARGEST 65536u
#define BUNDLE 16u

/* The registers that hold the bases of the areas. */
#define DATA 26u
#define CODE 27u

#define LINK 31u

/* What is left to try once a word's zero bits and the register that it writes are right. Those from BRANCH on are branches and jumps. */
enum form { NONE, ORDINARY, BREAK, CONTROL, BYTE, HALF, WORD, BRANCH, LINKING_BRANCH, JUMP, JUMP_REGISTER, LINKING_REGISTER };

/* The bits that must be zero, the form, and where the written register is in the word: bits to shift it down, and its bits then. */
struct entry {
    uint32_t zero;
    uint8_t form, shift, bits;
};
#define NOWHERE 0, 0
#define TO_RT 16, 31
#define TO_RD 11, 31

#define THREE {NO_SHIFT, ORDINARY, TO_RD}
#define SHIFTED {NO_RS, ORDINARY, TO_RD}
#define FROM_HI_LO {RD_ONLY, ORDINARY, TO_RD}
#define TO_HI_LO {RS_ONLY, ORDINARY, NOWHERE}
#define MULTIPLY {RS_RT_ONLY, ORDINARY, NOWHERE}
#define TRAP {0, ORDINARY, NOWHERE}
#define CONSTANT {0, ORDINARY, TO_RT}
#define LOAD(form) {0, form, TO_RT}
#define STORE(form) {0, form, NOWHERE}

/* By the function, for opcode 0. */
static const struct entry functions[64] = {
    [0] = SHIFTED, [2] = SHIFTED, [3] = SHIFTED, [4] = THREE, [6] = THREE, [7] = THREE,
    [8] = {RS_ONLY, JUMP_REGISTER, NOWHERE}, [9] = {RS_RD_ONLY, LINKING_REGISTER, TO_RD},
    [12] = {0, ORDINARY, NOWHERE}, [13] = {0, BREAK, NOWHERE}, [15] = {STYPE_ONLY, ORDINARY, NOWHERE},
    [16] = FROM_HI_LO, [17] = TO_HI_LO, [18] = FROM_HI_LO, [19] = TO_HI_LO,
    [24] = MULTIPLY, [25] = MULTIPLY, [26] = MULTIPLY, [27] = MULTIPLY,
    [32] = THREE, [33] = THREE, [34] = THREE, [35] = THREE, [36] = THREE, [37] = THREE, [38] = THREE, [39] = THREE,
    [42] = THREE, [43] = THREE,
    [48] = TRAP, [49] = TRAP, [50] = TRAP, [51] = TRAP, [52] = TRAP, [54] = TRAP,
};

/* By rt, for opcode 1. */
static const struct entry conditions[32] = {
    [0] = {0, BRANCH, NOWHERE}, [1] = {0, BRANCH, NOWHERE},
    [8] = TRAP, [9] = TRAP, [10] = TRAP, [11] = TRAP, [12] = TRAP, [14] = TRAP,
    [16] = {0, LINKING_BRANCH, NOWHERE}, [17] = {0, LINKING_BRANCH, NOWHERE},
};

/* By the opcode, for all others. */
static const struct entry opcodes[64] = {
    [2] = {0, JUMP, NOWHERE}, [3] = {0, JUMP, NOWHERE},
    [4] = {0, BRANCH, NOWHERE}, [5] = {0, BRANCH, NOWHERE}, [6] = {NO_RT, BRANCH, NOWHERE}, [7] = {NO_RT, BRANCH, NOWHERE},
    [8] = CONSTANT, [9] = CONSTANT, [10] = CONSTANT, [11] = CONSTANT, [12] = CONSTANT, [13] = CONSTANT, [14] = CONSTANT,
    [15] = {NO_RS, ORDINARY, TO_RT}, [16] = {0, CONTROL, NOWHERE},
    [32] = LOAD(BYTE), [33] = LOAD(HALF), [35] = LOAD(WORD), [36] = LOAD(BYTE), [37] = LOAD(HALF),
    [40] = STORE(BYTE), [41] = STORE(HALF), [43] = STORE(WORD),
    [48] = LOAD(WORD), [56] = LOAD(WORD), /* LL; SC, which writes rt too */
};

#define BIT(n) (1ull << (n))
/* Opcodes of accesses: LB, LH, LW, LBU, LHU, SB, SH, SW, LL and SC. */
#define ACCESSES (BIT(32) | BIT(33) | BIT(35) | BIT(36) | BIT(37) | BIT(40) | BIT(41) | BIT(43) | BIT(48) | BIT(56))

struct module {
    uint32_t code_base, code_size, data_size;
    const uint8_t *image;
    int straight;
};

INLINE uint32_t word(const struct module *m, uint32_t i)
{
    const uint8_t *p = m->image + 4 * (size_t)i;
    return p[0] | (uint32_t)p[1] << 8 | (uint32_t)p[2] << 16 | (uint32_t)p[3] << 24;
}

INLINE const struct entry *entry_of(uint32_t w)
{
    switch (w >> 26) {
    case 0: return &functions[w & 63];
    case 1: return &conditions[RT];
    default: return &opcodes[w >> 26];
    }
}

INLINE int register_jump(uint32_t w)
{
    return (w & (0xFC00003F | RS_ONLY)) == 8 || (w & (0xFC00003F | RS_RD_ONLY)) == 9;
}

INLINE int needs_guard(uint32_t w) { return (ACCESSES >> (w >> 26) & 1) || register_jump(w); }

/* Whether the two words before, in the same bundle, are ANDI R,S,mask and OR R,R,base. The mask goes to *mask. */
INLINE int guarded(const struct module *m, uint32_t i, uint32_t r, uint32_t base, uint32_t *mask)
{
    if (i % 4 < 2 || r == 0 || r == DATA || r == CODE)
        return 0;
    uint32_t andi = word(m, i - 2);
    *mask = andi & 0xFFFF;
    return (andi & 0xFC1F0000) == (0x30000000 | r << 16) && word(m, i - 1) == (0x25 | r << 21 | base << 16 | r << 11);
}

/* An access, tried with 12, 22 and 25. A sum of mask and width is never 0. */
INLINE uint32_t access(const struct module *m, uint32_t i, uint32_t w, uint32_t width)
{
    uint32_t mask, offset = VALUE;
    if (!guarded(m, i, RS, DATA, &mask))
        return CC100_REFUSED_ACCESS;
    uint32_t sum = mask + width;
    if (offset > 0x7FFF || ((mask | offset) & (width - 1)) || sum + offset > m->data_size)
        return CC100_REFUSED_MASK;
    return sum & (sum - 1) ? CC100_REFUSED_MASK_HOLE : CC100_DONE;
}

/* JR and JALR, tried with 13, 14 and 20. */
INLINE uint32_t indirect(const struct module *m, uint32_t i, uint32_t w, int after)
{
    uint32_t mask;
    if (!guarded(m, i, RS, CODE, &mask) || mask % BUNDLE || mask + BUNDLE > m->code_size)
        return CC100_REFUSED_JUMP;
    if (after)
        return CC100_REFUSED_SLOT;
    return m->straight ? CC100_REFUSED_STRAIGHT : CC100_DONE;
}

/* Where the last bundle begins, in bytes from the first word, and the J to there. */
INLINE uint32_t last_bundle(const struct module *m) { return m->code_size - BUNDLE; }
INLINE uint32_t last_jump(const struct module *m) { return 2u << 26 | (m->code_base + last_bundle(m)) >> 2; }

/* Whether a target, in bytes from the first word, is ahead as a straight-through module needs it. It is inside the code. */
INLINE int ahead(const struct module *m, uint32_t i, uint32_t w, uint32_t place)
{
    int excused = i == m->code_size / 4 - 2 && w == last_jump(m);
    return (place >= 4 * i + 8 && place <= last_bundle(m)) || excused;
}

/* A branch or jump to an address, tried with 14, 15 and 20. The last word is outside here: nothing may land on it. */
INLINE uint32_t direct(const struct module *m, uint32_t i, uint32_t w, uint32_t target, int after)
{
    uint32_t place = target - m->code_base;
    if (after)
        return CC100_REFUSED_SLOT;
    if (place >= m->code_size - 4 || needs_guard(word(m, place / 4)) || needs_guard(word(m, place / 4 + 1)))
        return CC100_REFUSED_TARGET;
    return m->straight && !ahead(m, i, w, place) ? CC100_REFUSED_STRAIGHT : CC100_DONE;
}

INLINE uint32_t slot_address(const struct module *m, uint32_t i) { return m->code_base + 4 * i + 4; }

INLINE uint32_t branch(const struct module *m, uint32_t i, uint32_t w, int after)
{
    return direct(m, i, w, slot_address(m, i) + ((uint32_t)(int16_t)VALUE << 2), after);
}

INLINE uint32_t jump(const struct module *m, uint32_t i, uint32_t w, int after)
{
    return direct(m, i, w, (slot_address(m, i) & 0xF0000000) | (w & 0x3FFFFFF) << 2, after);
}

INLINE uint32_t control(uint32_t w)
{
    int named = RD == 8 || RD == 12 || RD == 13 || RD == 14;
    if (w == 0x42000010 || ((RS == 0 || RS == 4) && named && !(w & RT_RD_ONLY)))
        return CC100_REFUSED_PRIVILEGED;
    return CC100_REFUSED_NO_INSTRUCTION;
}

/* The first of 9, 11, 12, 22, 25, 13 to 15 and 20 that a word of no ordinary form breaks, or 0; or 8, for a word of opcode 16. */
INLINE uint32_t broken(const struct module *m, uint32_t i, uint32_t w, enum form form, int after)
{
    switch (form) {
    case BREAK: return (w >> 6 & 0xFFFFF) == 15 ? CC100_REFUSED_PRIVILEGED : CC100_DONE;
    case CONTROL: return control(w);
    case BYTE: return access(m, i, w, 1);
    case HALF: return access(m, i, w, 2);
    case WORD: return access(m, i, w, 4);
    case BRANCH: return branch(m, i, w, after);
    case LINKING_BRANCH: return RS == LINK ? CC100_REFUSED_LINK : branch(m, i, w, after);
    case JUMP: return jump(m, i, w, after);
    case JUMP_REGISTER: return indirect(m, i, w, after);
    case LINKING_REGISTER: return RD == RS ? CC100_REFUSED_LINK : indirect(m, i, w, after);
    default: return CC100_DONE;
    }
}

/* 22 and 25 are placed at the guard's ANDI, two words before the access. */
INLINE int names_andi(uint32_t number) { return number == CC100_REFUSED_MASK || number == CC100_REFUSED_MASK_HOLE; }

INLINE struct cc100_verdict made(uint32_t number, uint32_t place)
{
    struct cc100_verdict v = {number, place};
    return v;
}

INLINE int ends_straight(const struct module *m, uint32_t count)
{
    return word(m, count - 4) == 0x0000000C && word(m, count - 3) == 0 && word(m, count - 2) == last_jump(m) && word(m, count - 1) == 0;
}

INLINE struct cc100_verdict words(const struct module *m)
{
    uint32_t count = m->code_size / 4, slot = count, w; /* the slot is the word behind the last branch or jump */
    for (uint32_t i = 0; i < count; i++) {
        w = word(m, i);
        const struct entry *e = entry_of(w);
        uint32_t written = w >> e->shift & e->bits, number;
        if (e->form == NONE || (w & e->zero))
            return made(CC100_REFUSED_NO_INSTRUCTION, i);
        if (written == DATA || written == CODE)
            return made(CC100_REFUSED_BASE_REGISTER, i);
        if (e->form == ORDINARY)
            continue;
        if ((number = broken(m, i, w, e->form, i == slot)))
            return made(number, names_andi(number) ? i - 2 : i);
        if (e->form >= BRANCH)
            slot = i + 1;
    }
    w = word(m, count - 2);
    if (w >> 27 != 1 && !register_jump(w))
        return made(CC100_REFUSED_END, count - 2);
    return made(m->straight && !ends_straight(m, count) ? CC100_REFUSED_LAST_BUNDLE : CC100_DONE, CC100_NO_PLACE);
}

INLINE int sized(uint32_t size, uint32_t smallest) { return size >= smallest && size <= LARGEST && !(size & (size - 1)); }

/* Sizes are powers of two. */
INLINE int placed(uint32_t base, uint32_t size, uint64_t memory_length)
{
    return !(base & (size - 1)) && (uint64_t)base + size <= memory_length;
}

INLINE struct cc100_verdict checked(const struct module *m, uint64_t memory_length, uint32_t data_base, size_t image_length)
{
    if (memory_length > CC100_LONGEST_MEMORY)
        return made(CC100_REFUSED_MEMORY, CC100_NO_PLACE);
    if (!sized(m->code_size, SMALLEST_CODE))
        return made(CC100_REFUSED_CODE_SIZE, CC100_NO_PLACE);
    if (!sized(m->data_size, SMALLEST_DATA))
        return made(CC100_REFUSED_DATA_SIZE, CC100_NO_PLACE);
    if (!placed(m->code_base, m->code_size, memory_length))
        return made(CC100_REFUSED_CODE_AREA, CC100_NO_PLACE);
    if (!placed(data_base, m->data_size, memory_length))
        return made(CC100_REFUSED_DATA_AREA, CC100_NO_PLACE);
    if (m->code_base < data_base + m->data_size && data_base < m->code_base + m->code_size)
        return made(CC100_REFUSED_OVERLAP, CC100_NO_PLACE);
    if (image_length != m->code_size)
        return made(CC100_REFUSED_IMAGE_LENGTH, CC100_NO_PLACE);
    return words(m);
}

struct cc100_verdict plain_check(uint64_t memory_length, uint32_t code_base, uint32_t code_size, uint32_t data_base, uint32_t data_size,
                                 const uint8_t *image, size_t image_length)
{
    struct module m = {code_base, code_size, data_size, image, 0};
    return checked(&m, memory_length, data_base, image_length);
}

struct cc100_verdict plain_check_straight(uint64_t memory_length, uint32_t code_base, uint32_t code_size, uint32_t data_base,
                                          uint32_t data_size, const uint8_t *image, size_t image_length)
{
    struct module m = {code_base, code_size, data_size, image, 1};
    return checked(&m, memory_length, data_base, image_length);
}

/* An interpreter as one would write it in C for speed: a switch on the opcode and the function, the work in the arm, and for each format a
   test of the bits that must be zero. An arm tests for its exit before it writes anything. */
#include <string.h>

#include "fields.h"
#include "plain.h"

/* plain_step and plain_run each get their own copy of the interpreter, so that it works on the program counters where they are. */
#define INLINE static inline __attribute__((always_inline))

enum {
    MEMORY_TOO_LONG = 1, BAD_STATE = 17,
    OVERFLOW = 40, ADDRESS, LOAD, STORE, PRIVILEGED_DATA, PRIVILEGED_INSTRUCTION, SYSTEM_CALL, BREAKPOINT, TRAP, NO_INSTRUCTION, FETCH,
    BREAK_15, SYSCALL_15
};

#define LONGEST 16777216u
#define STATUS_BITS 0x1FFFu
#define USER 8u

#define CODE (w >> 6 & 0xFFFFF)
#define EXTENDED ((uint32_t)(int16_t)(w & 0xFFFF))
#define A (s->r[RS])
#define B (s->r[RT])
/* The address of an access. Named so and not kept in a variable, as few arms need it and a register would be held for it in all. */
#define AT (A + EXTENDED)

#define ZERO(bits) \
    if (w & (bits)) \
        return NO_INSTRUCTION

INLINE int32_t number(uint32_t x) { return (int32_t)x; }

/* Words are little-endian and a lent memory may start anywhere; compilers make one load or store of these. */
INLINE uint32_t half_at(const uint8_t *p) { return p[0] | (uint32_t)p[1] << 8; }
INLINE uint32_t word_at(const uint8_t *p) { return p[0] | (uint32_t)p[1] << 8 | (uint32_t)p[2] << 16 | (uint32_t)p[3] << 24; }

INLINE void put_half(uint8_t *p, uint32_t x)
{
    p[0] = (uint8_t)x;
    p[1] = (uint8_t)(x >> 8);
}

INLINE void put_word(uint8_t *p, uint32_t x)
{
    put_half(p, x);
    put_half(p + 2, x >> 16);
}

/* Whether an access is not aligned or has a byte outside memory. Widths are powers of two. */
INLINE int outside(uint32_t address, uint32_t width, size_t length)
{
    return (address & (width - 1)) || (uint64_t)address + width > length;
}

INLINE uint32_t add(uint32_t *to, uint32_t a, uint32_t b)
{
    int64_t sum = (int64_t)number(a) + number(b);
    if (sum != number(a + b))
        return OVERFLOW;
    *to = a + b;
    return 0;
}

INLINE uint32_t subtract(uint32_t *to, uint32_t a, uint32_t b)
{
    int64_t difference = (int64_t)number(a) - number(b);
    if (difference != number(a - b))
        return OVERFLOW;
    *to = a - b;
    return 0;
}

INLINE void product(struct plain_state *s, uint64_t x)
{
    s->hi = (uint32_t)(x >> 32);
    s->lo = (uint32_t)x;
}

/* By zero LO is all ones and HI the dividend. 64 bits hold the quotient of the lowest number by -1. */
INLINE void divide(struct plain_state *s, int64_t a, int64_t b)
{
    s->lo = b ? (uint32_t)(a / b) : UINT32_MAX;
    s->hi = (uint32_t)(b ? a % b : a);
}

INLINE void divide_unsigned(struct plain_state *s, uint32_t a, uint32_t b)
{
    s->lo = b ? a / b : UINT32_MAX;
    s->hi = b ? a % b : a;
}

INLINE uint32_t special(struct plain_state *s, uint32_t w, uint32_t pc, uint32_t *target)
{
    uint32_t a = A, b = B, *rd = &s->r[RD];
    switch (w & 63) {
    case 0: /* SLL */
        ZERO(NO_RS);
        *rd = b << SHIFT;
        return 0;
    case 2: /* SRL */
        ZERO(NO_RS);
        *rd = b >> SHIFT;
        return 0;
    case 3: /* SRA */
        ZERO(NO_RS);
        *rd = (uint32_t)(number(b) >> SHIFT);
        return 0;
    case 4: /* SLLV */
        ZERO(NO_SHIFT);
        *rd = b << (a & 31);
        return 0;
    case 6: /* SRLV */
        ZERO(NO_SHIFT);
        *rd = b >> (a & 31);
        return 0;
    case 7: /* SRAV */
        ZERO(NO_SHIFT);
        *rd = (uint32_t)(number(b) >> (a & 31));
        return 0;
    case 8: /* JR */
        ZERO(RS_ONLY);
        if (a & 3)
            return ADDRESS;
        *target = a;
        return 0;
    case 9: /* JALR */
        ZERO(RS_RD_ONLY);
        if (a & 3)
            return ADDRESS;
        *rd = pc + 8;
        *target = a;
        return 0;
    case 12: /* SYSCALL */
        return CODE == 15 && !(s->status & USER) ? SYSCALL_15 : SYSTEM_CALL;
    case 13: /* BREAK */
        return CODE == 15 ? BREAK_15 : BREAKPOINT;
    case 15: /* SYNC */
        ZERO(STYPE_ONLY);
        return 0;
    case 16: /* MFHI */
        ZERO(RD_ONLY);
        *rd = s->hi;
        return 0;
    case 17: /* MTHI */
        ZERO(RS_ONLY);
        s->hi = a;
        return 0;
    case 18: /* MFLO */
        ZERO(RD_ONLY);
        *rd = s->lo;
        return 0;
    case 19: /* MTLO */
        ZERO(RS_ONLY);
        s->lo = a;
        return 0;
    case 24: /* MULT */
        ZERO(RS_RT_ONLY);
        product(s, (uint64_t)((int64_t)number(a) * number(b)));
        return 0;
    case 25: /* MULTU */
        ZERO(RS_RT_ONLY);
        product(s, (uint64_t)a * b);
        return 0;
    case 26: /* DIV */
        ZERO(RS_RT_ONLY);
        divide(s, number(a), number(b));
        return 0;
    case 27: /* DIVU */
        ZERO(RS_RT_ONLY);
        divide_unsigned(s, a, b);
        return 0;
    case 32: /* ADD */
        ZERO(NO_SHIFT);
        return add(rd, a, b);
    case 33: /* ADDU */
        ZERO(NO_SHIFT);
        *rd = a + b;
        return 0;
    case 34: /* SUB */
        ZERO(NO_SHIFT);
        return subtract(rd, a, b);
    case 35: /* SUBU */
        ZERO(NO_SHIFT);
        *rd = a - b;
        return 0;
    case 36: /* AND */
        ZERO(NO_SHIFT);
        *rd = a & b;
        return 0;
    case 37: /* OR */
        ZERO(NO_SHIFT);
        *rd = a | b;
        return 0;
    case 38: /* XOR */
        ZERO(NO_SHIFT);
        *rd = a ^ b;
        return 0;
    case 39: /* NOR */
        ZERO(NO_SHIFT);
        *rd = ~(a | b);
        return 0;
    case 42: /* SLT */
        ZERO(NO_SHIFT);
        *rd = number(a) < number(b);
        return 0;
    case 43: /* SLTU */
        ZERO(NO_SHIFT);
        *rd = a < b;
        return 0;
    case 48: /* TGE */
        return number(a) >= number(b) ? TRAP : 0;
    case 49: /* TGEU */
        return a >= b ? TRAP : 0;
    case 50: /* TLT */
        return number(a) < number(b) ? TRAP : 0;
    case 51: /* TLTU */
        return a < b ? TRAP : 0;
    case 52: /* TEQ */
        return a == b ? TRAP : 0;
    case 54: /* TNE */
        return a != b ? TRAP : 0;
    default:
        return NO_INSTRUCTION;
    }
}

INLINE void branch(int taken, uint32_t w, uint32_t pc, uint32_t *target)
{
    if (taken)
        *target = pc + 4 + (EXTENDED << 2);
}

INLINE uint32_t regimm(struct plain_state *s, uint32_t w, uint32_t pc, uint32_t *target)
{
    uint32_t a = A, b = EXTENDED;
    switch (RT) {
    case 0: /* BLTZ */
        branch(number(a) < 0, w, pc, target);
        return 0;
    case 1: /* BGEZ */
        branch(number(a) >= 0, w, pc, target);
        return 0;
    case 8: /* TGEI */
        return number(a) >= number(b) ? TRAP : 0;
    case 9: /* TGEIU */
        return a >= b ? TRAP : 0;
    case 10: /* TLTI */
        return number(a) < number(b) ? TRAP : 0;
    case 11: /* TLTIU */
        return a < b ? TRAP : 0;
    case 12: /* TEQI */
        return a == b ? TRAP : 0;
    case 14: /* TNEI */
        return a != b ? TRAP : 0;
    case 16: /* BLTZAL */
        s->r[31] = pc + 8;
        branch(number(a) < 0, w, pc, target);
        return 0;
    case 17: /* BGEZAL */
        s->r[31] = pc + 8;
        branch(number(a) >= 0, w, pc, target);
        return 0;
    default:
        return NO_INSTRUCTION;
    }
}

INLINE uint32_t *control(struct plain_state *s, uint32_t rd)
{
    switch (rd) {
    case 8: return &s->bad;
    case 12: return &s->status;
    case 13: return &s->cause;
    case 14: return &s->epc;
    default: return NULL;
    }
}

/* Each of the three groups of status one down, a zero entering at its top. */
INLINE uint32_t returned(uint32_t status) { return status >> 1 & 0xFDB; }

INLINE uint32_t cop0(struct plain_state *s, uint32_t w)
{
    uint32_t *c = control(s, RD);
    switch (RS) {
    case 0: /* MFC0 */
        ZERO(RT_RD_ONLY);
        if (!c)
            return NO_INSTRUCTION;
        if (s->status & USER)
            return PRIVILEGED_DATA;
        s->r[RT] = *c;
        return 0;
    case 4: /* MTC0 */
        ZERO(RT_RD_ONLY);
        if (!c)
            return NO_INSTRUCTION;
        if (s->status & USER)
            return PRIVILEGED_DATA;
        *c = RD == 12 ? B & STATUS_BITS : B;
        return 0;
    case 16: /* RFE */
        if (w != 0x42000010)
            return NO_INSTRUCTION;
        if (s->status & USER)
            return PRIVILEGED_INSTRUCTION;
        s->status = returned(s->status);
        s->ll = 0;
        return 0;
    default:
        return NO_INSTRUCTION;
    }
}

INLINE uint32_t execute(struct plain_state *s, uint8_t *memory, size_t length, uint32_t w, uint32_t pc, uint32_t *target)
{
    uint32_t a = A, *rt = &s->r[RT];
    switch (w >> 26) {
    case 0: return special(s, w, pc, target);
    case 1: return regimm(s, w, pc, target);
    case 3: /* JAL */
        s->r[31] = pc + 8;
        /* fall through */
    case 2: /* J */
        *target = ((pc + 4) & 0xF0000000) | (w & 0x3FFFFFF) << 2;
        return 0;
    case 4: /* BEQ */
        branch(a == *rt, w, pc, target);
        return 0;
    case 5: /* BNE */
        branch(a != *rt, w, pc, target);
        return 0;
    case 6: /* BLEZ */
        ZERO(NO_RT);
        branch(number(a) <= 0, w, pc, target);
        return 0;
    case 7: /* BGTZ */
        ZERO(NO_RT);
        branch(number(a) > 0, w, pc, target);
        return 0;
    case 8: /* ADDI */
        return add(rt, a, EXTENDED);
    case 9: /* ADDIU */
        *rt = a + EXTENDED;
        return 0;
    case 10: /* SLTI */
        *rt = number(a) < number(EXTENDED);
        return 0;
    case 11: /* SLTIU */
        *rt = a < EXTENDED;
        return 0;
    case 12: /* ANDI */
        *rt = a & VALUE;
        return 0;
    case 13: /* ORI */
        *rt = a | VALUE;
        return 0;
    case 14: /* XORI */
        *rt = a ^ VALUE;
        return 0;
    case 15: /* LUI */
        ZERO(NO_RS);
        *rt = VALUE << 16;
        return 0;
    case 16: return cop0(s, w);
    case 32: /* LB */
        if (outside(AT, 1, length))
            return LOAD;
        *rt = (uint32_t)(int8_t)memory[AT];
        return 0;
    case 33: /* LH */
        if (outside(AT, 2, length))
            return LOAD;
        *rt = (uint32_t)(int16_t)half_at(memory + AT);
        return 0;
    case 48: /* LL */
        if (outside(AT, 4, length))
            return LOAD;
        *rt = word_at(memory + AT);
        s->ll = 1;
        return 0;
    case 35: /* LW */
        if (outside(AT, 4, length))
            return LOAD;
        *rt = word_at(memory + AT);
        return 0;
    case 36: /* LBU */
        if (outside(AT, 1, length))
            return LOAD;
        *rt = memory[AT];
        return 0;
    case 37: /* LHU */
        if (outside(AT, 2, length))
            return LOAD;
        *rt = half_at(memory + AT);
        return 0;
    case 40: /* SB */
        if (outside(AT, 1, length))
            return STORE;
        memory[AT] = (uint8_t)*rt;
        return 0;
    case 41: /* SH */
        if (outside(AT, 2, length))
            return STORE;
        put_half(memory + AT, *rt);
        return 0;
    case 43: /* SW */
        if (outside(AT, 4, length))
            return STORE;
        put_word(memory + AT, *rt);
        return 0;
    case 56: /* SC */
        if (outside(AT, 4, length))
            return STORE;
        if (s->ll)
            put_word(memory + AT, *rt);
        *rt = s->ll;
        s->ll = 0;
        return 0;
    default:
        return NO_INSTRUCTION;
    }
}

INLINE uint32_t advance(struct plain_state *s, uint8_t *memory, size_t length, uint32_t *pc, uint32_t *next_pc)
{
    if ((uint64_t)*pc + 4 > length)
        return FETCH;
    uint32_t target = *next_pc + 4;
    uint32_t exit = execute(s, memory, length, word_at(memory + *pc), *pc, &target);
    if (exit)
        return exit;
    s->r[0] = 0;
    *pc = *next_pc;
    *next_pc = target;
    return 0;
}

INLINE uint32_t refused(const struct plain_state *s, size_t length)
{
    if (length > LONGEST)
        return MEMORY_TOO_LONG;
    return s->r[0] || ((s->pc | s->next_pc) & 3) || (s->status & ~STATUS_BITS) || s->ll > 1 ? BAD_STATE : 0;
}

#define WORDS (CC100_STATE_LENGTH / 4)

struct plain_state plain_state_of(const uint8_t *bytes)
{
    uint32_t words[WORDS];
    struct plain_state s;
    for (size_t i = 0; i < WORDS; i++)
        words[i] = word_at(bytes + 4 * i);
    memcpy(&s, words, sizeof s);
    return s;
}

void plain_state_to(const struct plain_state *s, uint8_t *bytes)
{
    uint32_t words[WORDS];
    memcpy(words, s, sizeof words);
    for (size_t i = 0; i < WORDS; i++)
        put_word(bytes + 4 * i, words[i]);
}

uint32_t plain_step(struct plain_state *s, uint8_t *memory, size_t length)
{
    uint32_t refusal = refused(s, length);
    return refusal ? refusal : advance(s, memory, length, &s->pc, &s->next_pc);
}

uint32_t plain_run(struct plain_state *s, uint8_t *memory, size_t length, uint32_t budget, uint32_t *steps)
{
    uint32_t pc = s->pc, next_pc = s->next_pc, done = 0, end = refused(s, length);
    while (!end && done < budget) {
        end = advance(s, memory, length, &pc, &next_pc);
        done += !end;
    }
    s->pc = pc;
    s->next_pc = next_pc;
    *steps = done;
    return end;
}

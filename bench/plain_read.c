/* A reader of instruction words as one would write it in C: a switch on the opcode, the function, rt and rs, and for each format a test of
   the bits that must be zero. Kinds are numbered as in docs/INSTRUCTIONS.md. */
#include "fields.h"
#include "plain.h"

typedef struct cc100_instruction instruction;

static const instruction none = {0, 0, 0, 0, 0, 0};

static inline instruction made(uint32_t kind, uint32_t rs, uint32_t rt, uint32_t rd, uint32_t shift, uint32_t value)
{
    instruction i = {kind, rs, rt, rd, shift, value};
    return i;
}

static inline instruction three(uint32_t k, uint32_t w) { return w & 0x7C0 ? none : made(k, RS, RT, RD, 0, 0); }
static inline instruction shifted(uint32_t k, uint32_t w) { return w & 0x3E00000 ? none : made(k, 0, RT, RD, SHIFT, 0); }
static inline instruction two(uint32_t k, uint32_t w) { return w & 0xFFC0 ? none : made(k, RS, RT, 0, 0, 0); }
static inline instruction one(uint32_t k, uint32_t w) { return w & 0x1FFFC0 ? none : made(k, RS, 0, 0, 0, 0); }
static inline instruction target(uint32_t k, uint32_t w) { return w & 0x3FF07C0 ? none : made(k, 0, 0, RD, 0, 0); }
static inline instruction link(uint32_t k, uint32_t w) { return w & 0x1F07C0 ? none : made(k, RS, 0, RD, 0, 0); }
static inline instruction code(uint32_t k, uint32_t w) { return made(k, 0, 0, 0, 0, w >> 6 & 0xFFFFF); }
static inline instruction barrier(uint32_t k, uint32_t w) { return w & 0x3FFF800 ? none : made(k, 0, 0, 0, 0, SHIFT); }
static inline instruction trap(uint32_t k, uint32_t w) { return made(k, RS, RT, 0, 0, w >> 6 & 0x3FF); }
static inline instruction condition(uint32_t k, uint32_t w) { return made(k, RS, 0, 0, 0, w & 0xFFFF); }
static inline instruction jump(uint32_t k, uint32_t w) { return made(k, 0, 0, 0, 0, w & 0x3FFFFFF); }
static inline instruction constant(uint32_t k, uint32_t w) { return made(k, RS, RT, 0, 0, w & 0xFFFF); }
static inline instruction zero(uint32_t k, uint32_t w) { return w & 0x1F0000 ? none : made(k, RS, 0, 0, 0, w & 0xFFFF); }
static inline instruction upper(uint32_t k, uint32_t w) { return w & 0x3E00000 ? none : made(k, 0, RT, 0, 0, w & 0xFFFF); }

static inline instruction control(uint32_t k, uint32_t w)
{
    uint32_t d = RD;
    if (w & 0x7FF)
        return none;
    return d == 8 || d == 12 || d == 13 || d == 14 ? made(k, 0, RT, d, 0, 0) : none;
}

static inline instruction special(uint32_t w)
{
    switch (w & 63) {
    case 0: return shifted(44, w);
    case 2: return shifted(52, w);
    case 3: return shifted(50, w);
    case 4: return three(45, w);
    case 6: return three(53, w);
    case 7: return three(51, w);
    case 8: return one(21, w);
    case 9: return link(20, w);
    case 12: return code(58, w);
    case 13: return code(15, w);
    case 15: return barrier(57, w);
    case 16: return target(30, w);
    case 17: return one(33, w);
    case 18: return target(31, w);
    case 19: return one(34, w);
    case 24: return two(35, w);
    case 25: return two(36, w);
    case 26: return two(16, w);
    case 27: return two(17, w);
    case 32: return three(1, w);
    case 33: return three(4, w);
    case 34: return three(54, w);
    case 35: return three(55, w);
    case 36: return three(5, w);
    case 37: return three(38, w);
    case 38: return three(71, w);
    case 39: return three(37, w);
    case 42: return three(46, w);
    case 43: return three(49, w);
    case 48: return trap(61, w);
    case 49: return trap(64, w);
    case 50: return trap(65, w);
    case 51: return trap(68, w);
    case 52: return trap(59, w);
    case 54: return trap(69, w);
    default: return none;
    }
}

static inline instruction regimm(uint32_t w)
{
    switch (RT) {
    case 0: return condition(12, w);
    case 1: return condition(8, w);
    case 8: return condition(62, w);
    case 9: return condition(63, w);
    case 10: return condition(66, w);
    case 11: return condition(67, w);
    case 12: return condition(60, w);
    case 14: return condition(70, w);
    case 16: return condition(13, w);
    case 17: return condition(9, w);
    default: return none;
    }
}

static inline instruction cop0(uint32_t w)
{
    switch (RS) {
    case 0: return control(29, w);
    case 4: return control(32, w);
    case 16: return w == 0x42000010 ? made(40, 0, 0, 0, 0, 0) : none;
    default: return none;
    }
}

instruction plain_read(uint32_t w)
{
    switch (w >> 26) {
    case 0: return special(w);
    case 1: return regimm(w);
    case 2: return jump(18, w);
    case 3: return jump(19, w);
    case 4: return constant(7, w);
    case 5: return constant(14, w);
    case 6: return zero(11, w);
    case 7: return zero(10, w);
    case 8: return constant(2, w);
    case 9: return constant(3, w);
    case 10: return constant(47, w);
    case 11: return constant(48, w);
    case 12: return constant(6, w);
    case 13: return constant(39, w);
    case 14: return constant(72, w);
    case 15: return upper(27, w);
    case 16: return cop0(w);
    case 32: return constant(22, w);
    case 33: return constant(24, w);
    case 35: return constant(28, w);
    case 36: return constant(23, w);
    case 37: return constant(25, w);
    case 40: return constant(41, w);
    case 41: return constant(43, w);
    case 43: return constant(56, w);
    case 48: return constant(26, w);
    case 56: return constant(42, w);
    default: return none;
    }
}

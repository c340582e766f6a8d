/* The operations of document 004's groups 1.1.1 to 1.1.4: arithmetic on registers and constants, shifts, products. */
#include "machine.h"

/* ADD, ADDI and SUB: the exact sum or difference must be a signed number of 32 bits. */
static uint32_t set_unless_overflow(struct step *s, uint32_t number, int64_t exact)
{
    if (exact < INT32_MIN || exact > INT32_MAX)
        return INTEGER_OVERFLOW;
    return em_set_register(s, number, (uint32_t)exact);
}

uint32_t em_register_arithmetic(struct step *s, struct em_instruction i)
{
    uint32_t rs = s->next.registers[i.rs], rt = s->next.registers[i.rt];
    int64_t signed_rs = em_signed_number(rs, 32), signed_rt = em_signed_number(rt, 32);
    switch (i.kind) {
    case ADD:
        return set_unless_overflow(s, i.rd, signed_rs + signed_rt);
    case ADDU:
        return em_set_register(s, i.rd, rs + rt);
    case SUB:
        return set_unless_overflow(s, i.rd, signed_rs - signed_rt);
    case SUBU:
        return em_set_register(s, i.rd, rs - rt);
    case SLT:
        return em_set_register(s, i.rd, signed_rs < signed_rt);
    case SLTU:
        return em_set_register(s, i.rd, rs < rt);
    case AND:
        return em_set_register(s, i.rd, rs & rt);
    case OR:
        return em_set_register(s, i.rd, rs | rt);
    case XOR:
        return em_set_register(s, i.rd, rs ^ rt);
    default: /* NOR */
        return em_set_register(s, i.rd, ~(rs | rt));
    }
}

/* SLTI and SLTIU write rt, and SLTIU compares with the sign-extended constant as an unsigned number. */
uint32_t em_constant_arithmetic(struct step *s, struct em_instruction i)
{
    uint32_t rs = s->next.registers[i.rs];
    int64_t signed_rs = em_signed_number(rs, 32), constant = em_signed_number(i.value, 16);
    switch (i.kind) {
    case ADDI:
        return set_unless_overflow(s, i.rt, signed_rs + constant);
    case ADDIU:
        return em_set_register(s, i.rt, rs + (uint32_t)constant);
    case SLTI:
        return em_set_register(s, i.rt, signed_rs < constant);
    case SLTIU:
        return em_set_register(s, i.rt, rs < (uint32_t)constant);
    case ANDI:
        return em_set_register(s, i.rt, rs & i.value);
    case ORI:
        return em_set_register(s, i.rt, rs | i.value);
    case XORI:
        return em_set_register(s, i.rt, rs ^ i.value);
    default: /* LUI */
        return em_set_register(s, i.rt, i.value << 16);
    }
}

/* Copies of the sign come in from the left: the quotient by a power of two, rounded down. */
static uint32_t arithmetic_right(uint32_t value, uint32_t by)
{
    int64_t number = em_signed_number(value, 32), divisor = (int64_t)1 << by;
    return (uint32_t)(number / divisor - (number % divisor < 0));
}

uint32_t em_shift(struct step *s, struct em_instruction i)
{
    uint32_t rt = s->next.registers[i.rt], variable = s->next.registers[i.rs] % 32;
    switch (i.kind) {
    case SLL:
        return em_set_register(s, i.rd, rt << i.shift);
    case SRL:
        return em_set_register(s, i.rd, rt >> i.shift);
    case SRA:
        return em_set_register(s, i.rd, arithmetic_right(rt, i.shift));
    case SLLV:
        return em_set_register(s, i.rd, rt << variable);
    case SRLV:
        return em_set_register(s, i.rd, rt >> variable);
    default: /* SRAV */
        return em_set_register(s, i.rd, arithmetic_right(rt, variable));
    }
}

static uint32_t set_hi_lo(struct step *s, uint32_t hi, uint32_t lo)
{
    s->next.hi = hi;
    s->next.lo = lo;
    return DONE;
}

/* A zero divisor sets LO to 0xFFFFFFFF and HI to the dividend (document 02, Ticket 4). Division in C truncates towards zero, as document 01
   asks, and 64 bits hold -2^31 / -1. */
static uint32_t divide(struct step *s, int64_t dividend, int64_t divisor)
{
    if (divisor == 0)
        return set_hi_lo(s, (uint32_t)dividend, 0xFFFFFFFF);
    return set_hi_lo(s, (uint32_t)(dividend % divisor), (uint32_t)(dividend / divisor));
}

uint32_t em_product(struct step *s, struct em_instruction i)
{
    uint32_t rs = s->next.registers[i.rs], rt = s->next.registers[i.rt];
    int64_t signed_rs = em_signed_number(rs, 32), signed_rt = em_signed_number(rt, 32);
    uint64_t signed_product = (uint64_t)(signed_rs * signed_rt), unsigned_product = (uint64_t)rs * rt;
    switch (i.kind) {
    case MULT:
        return set_hi_lo(s, (uint32_t)(signed_product >> 32), (uint32_t)signed_product);
    case MULTU:
        return set_hi_lo(s, (uint32_t)(unsigned_product >> 32), (uint32_t)unsigned_product);
    case DIV:
        return divide(s, signed_rs, signed_rt);
    case DIVU:
        return divide(s, rs, rt);
    case MFHI:
        return em_set_register(s, i.rd, s->next.hi);
    case MFLO:
        return em_set_register(s, i.rd, s->next.lo);
    case MTHI:
        return set_hi_lo(s, rs, s->next.lo);
    default: /* MTLO */
        return set_hi_lo(s, s->next.hi, rs);
    }
}

/* The operations of document 004's groups 1.1.6 and 1.1.9: branches, jumps and traps on a condition. */
#include "machine.h"

static bool taken(const struct step *s, struct em_instruction i)
{
    uint32_t rs = s->next.registers[i.rs], rt = s->next.registers[i.rt];
    int64_t signed_rs = em_signed_number(rs, 32);
    switch (i.kind) {
    case BEQ:
        return rs == rt;
    case BNE:
        return rs != rt;
    case BLEZ:
        return signed_rs <= 0;
    case BGTZ:
        return signed_rs > 0;
    case BGEZ: case BGEZAL:
        return signed_rs >= 0;
    default: /* BLTZ, BLTZAL */
        return signed_rs < 0;
    }
}

/* The condition is read before the link is written, and the link is written whether or not the branch is taken. */
uint32_t em_branch(struct step *s, struct em_instruction i)
{
    if (taken(s, i))
        s->next.next_pc = em_direct_target(s->pc, i);
    if (i.kind == BLTZAL || i.kind == BGEZAL)
        em_set_register(s, 31, s->pc + 8);
    return DONE;
}

/* The jump address is read before the link is written. */
uint32_t em_jump(struct step *s, struct em_instruction i)
{
    bool by_register = i.kind == JR || i.kind == JALR;
    uint32_t target = by_register ? s->next.registers[i.rs] : em_direct_target(s->pc, i);
    if (target % 4 != 0)
        return ADDRESS;
    s->next.next_pc = target;
    if (i.kind == JAL)
        em_set_register(s, 31, s->pc + 8);
    if (i.kind == JALR)
        em_set_register(s, i.rd, s->pc + 8);
    return DONE;
}

static uint32_t trap_if(bool condition)
{
    return condition ? TRAP : DONE;
}

uint32_t em_register_trap(struct step *s, struct em_instruction i)
{
    uint32_t rs = s->next.registers[i.rs], rt = s->next.registers[i.rt];
    int64_t signed_rs = em_signed_number(rs, 32), signed_rt = em_signed_number(rt, 32);
    switch (i.kind) {
    case TEQ:
        return trap_if(rs == rt);
    case TNE:
        return trap_if(rs != rt);
    case TGE:
        return trap_if(signed_rs >= signed_rt);
    case TGEU:
        return trap_if(rs >= rt);
    case TLT:
        return trap_if(signed_rs < signed_rt);
    default: /* TLTU */
        return trap_if(rs < rt);
    }
}

/* TGEIU and TLTIU compare with the sign-extended constant as an unsigned number. */
uint32_t em_constant_trap(struct step *s, struct em_instruction i)
{
    uint32_t rs = s->next.registers[i.rs];
    int64_t signed_rs = em_signed_number(rs, 32), constant = em_signed_number(i.value, 16);
    switch (i.kind) {
    case TEQI:
        return trap_if(signed_rs == constant);
    case TNEI:
        return trap_if(signed_rs != constant);
    case TGEI:
        return trap_if(signed_rs >= constant);
    case TGEIU:
        return trap_if(rs >= (uint32_t)constant);
    case TLTI:
        return trap_if(signed_rs < constant);
    default: /* TLTIU */
        return trap_if(rs < (uint32_t)constant);
    }
}

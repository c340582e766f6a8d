/* One step: fetch, read, operate. */
#include "machine.h"

static operation *const operations[EM_KINDS + 1] = {
    [ADD] = em_register_arithmetic, [ADDU] = em_register_arithmetic, [SUB] = em_register_arithmetic, [SUBU] = em_register_arithmetic,
    [SLT] = em_register_arithmetic, [SLTU] = em_register_arithmetic, [AND] = em_register_arithmetic, [OR] = em_register_arithmetic,
    [XOR] = em_register_arithmetic, [NOR] = em_register_arithmetic,
    [ADDI] = em_constant_arithmetic, [ADDIU] = em_constant_arithmetic, [SLTI] = em_constant_arithmetic, [SLTIU] = em_constant_arithmetic,
    [ANDI] = em_constant_arithmetic, [ORI] = em_constant_arithmetic, [XORI] = em_constant_arithmetic, [LUI] = em_constant_arithmetic,
    [SLL] = em_shift, [SRL] = em_shift, [SRA] = em_shift, [SLLV] = em_shift, [SRLV] = em_shift, [SRAV] = em_shift,
    [MULT] = em_product, [MULTU] = em_product, [DIV] = em_product, [DIVU] = em_product,
    [MFHI] = em_product, [MTHI] = em_product, [MFLO] = em_product, [MTLO] = em_product,
    [LB] = em_load, [LBU] = em_load, [LH] = em_load, [LHU] = em_load, [LW] = em_load, [LL] = em_load,
    [SB] = em_store, [SH] = em_store, [SW] = em_store, [SC] = em_store,
    [BEQ] = em_branch, [BNE] = em_branch, [BLEZ] = em_branch, [BGTZ] = em_branch,
    [BLTZ] = em_branch, [BGEZ] = em_branch, [BLTZAL] = em_branch, [BGEZAL] = em_branch,
    [J] = em_jump, [JAL] = em_jump, [JR] = em_jump, [JALR] = em_jump,
    [TGE] = em_register_trap, [TGEU] = em_register_trap, [TLT] = em_register_trap,
    [TLTU] = em_register_trap, [TEQ] = em_register_trap, [TNE] = em_register_trap,
    [TGEI] = em_constant_trap, [TGEIU] = em_constant_trap, [TLTI] = em_constant_trap,
    [TLTIU] = em_constant_trap, [TEQI] = em_constant_trap, [TNEI] = em_constant_trap,
    [SYSCALL] = em_system, [BREAK] = em_system, [RFE] = em_system,
    [MFC0] = em_system, [MTC0] = em_system, [SYNC] = em_system,
};

/* An ordinary step sets PC to next PC and next PC to four more; a branch or jump then changes next PC. */
uint32_t em_make_step(struct step *s, const uint8_t *state, const uint8_t *memory, size_t memory_length)
{
    struct machine m = em_state_of(state);
    *s = (struct step){.pc = m.pc, .next = m, .memory = memory, .memory_length = memory_length};
    s->next.pc = m.next_pc;
    s->next.next_pc = m.next_pc + 4;
    if ((uint64_t)m.pc + 4 > memory_length)
        return FETCH_OUTSIDE;
    struct em_instruction i = em_read(em_word_at(memory + m.pc, 0));
    return i.kind == 0 ? NO_INSTRUCTION : operations[i.kind](s, i);
}

/* A refusal and an exit have no access. */
uint32_t em_step(uint8_t *state, size_t state_length, uint8_t *memory, size_t memory_length, struct em_access *access)
{
    struct step s;
    uint32_t answer = em_refused(state, state_length, memory_length);
    *access = (struct em_access){0, 0, 0};
    if (answer == 0)
        answer = em_make_step(&s, state, memory, memory_length);
    if (answer != 0)
        return answer;
    em_put_state(state, &s.next);
    if (s.access.store)
        em_put_little_endian(memory + s.access.address, s.access.width, s.value);
    *access = s.access;
    return DONE;
}

struct em_tried em_tried(const uint8_t *state, const uint8_t *memory, size_t memory_length)
{
    struct machine m = em_state_of(state);
    struct em_tried t = {.fetch = m.pc};
    if ((uint64_t)m.pc + 4 > memory_length)
        return t;
    struct em_instruction i = em_read(em_word_at(memory + m.pc, 0));
    t.width = em_access_width(i.kind);
    if (t.width != 0)
        t.address = em_effective_address(&m, i);
    return t;
}

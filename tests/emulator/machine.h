/* What the files of the emulator share: the numbers of instructions and exits, the state as numbers, and a step under way. */
#ifndef MACHINE_H
#define MACHINE_H

#include <stdbool.h>

#include "emulator.h"

#define LONGEST_MEMORY 16777216u

/* Each instruction's place in section 1.2 of document 004. */
enum {
    ADD = 1, ADDI, ADDIU, ADDU, AND, ANDI, BEQ, BGEZ, BGEZAL, BGTZ, BLEZ, BLTZ, BLTZAL, BNE, BREAK, DIV, DIVU, J, JAL, JALR, JR, LB,
    LBU, LH, LHU, LL, LUI, LW, MFC0, MFHI, MFLO, MTC0, MTHI, MTLO, MULT, MULTU, NOR, OR, ORI, RFE, SB, SC, SH, SLL, SLLV, SLT, SLTI,
    SLTIU, SLTU, SRA, SRAV, SRL, SRLV, SUB, SUBU, SW, SYNC, SYSCALL, TEQ, TEQI, TGE, TGEI, TGEIU, TGEU, TLT, TLTI, TLTIU, TLTU, TNE,
    TNEI, XOR, XORI
};

/* The answers of document 01, section Machine. */
enum {
    DONE = 0, INTEGER_OVERFLOW = 40, ADDRESS = 41, LOAD = 42, STORE = 43, PRIVILEGED_DATA = 44, PRIVILEGED_INSTRUCTION = 45,
    SYSTEM_CALL = 46, BREAKPOINT = 47, TRAP = 48, NO_INSTRUCTION = 49, FETCH_OUTSIDE = 50, BREAK_15 = 51, SYSCALL_15 = 52
};

struct machine {
    uint32_t registers[32], hi, lo, pc, next_pc, ll, bad_address, status, cause, return_address;
};

/* A step under way. An operation changes `next` and names its access and what is to be stored, and nothing else, so that an exit changes
   nothing. */
struct step {
    uint32_t pc; /* the address of the present instruction */
    struct machine next;
    const uint8_t *memory;
    size_t memory_length;
    struct em_access access;
    uint32_t value; /* what is to be stored */
};

typedef uint32_t operation(struct step *s, struct em_instruction i); /* DONE or the exit */

/* The operations by class: arithmetic.c, access.c, flow.c and system.c. */
operation em_register_arithmetic, em_constant_arithmetic, em_shift, em_product, em_load, em_store, em_branch, em_jump;
operation em_register_trap, em_constant_trap, em_system;

/* read.c */
uint32_t em_access_width(uint32_t kind);                         /* 1, 2 or 4; 0 where it is no access */
uint32_t em_direct_target(uint32_t pc, struct em_instruction i); /* of a branch, J or JAL at this address */

/* access.c */
uint32_t em_effective_address(const struct machine *m, struct em_instruction i);

/* state.c */
int64_t em_signed_number(uint32_t value, uint32_t bits);
uint32_t em_little_endian(const uint8_t *bytes, uint32_t width);
uint32_t em_word_at(const uint8_t *bytes, size_t index);
void em_put_little_endian(uint8_t *bytes, uint32_t width, uint32_t value);
struct machine em_state_of(const uint8_t *bytes);
void em_put_state(uint8_t *bytes, const struct machine *m);
uint32_t em_refused(const uint8_t *state, size_t state_length, size_t memory_length); /* 0, 1 or 17 */
uint32_t em_set_register(struct step *s, uint32_t number, uint32_t value);            /* DONE always */

/* step.c */
uint32_t em_make_step(struct step *s, const uint8_t *state, const uint8_t *memory, size_t memory_length); /* DONE or the exit */

#endif

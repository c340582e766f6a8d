/* The drawings of the 72 instructions and what kinds there are, for all tests in C. */
#ifndef DRAWINGS_H
#define DRAWINGS_H

#include <stdint.h>

/* A drawing: the bits that are fixed, and the fields that are not. */
#define RS 0x03E00000u
#define RT 0x001F0000u
#define RD 0x0000F800u
#define SHIFT 0x000007C0u
#define CONSTANT 0x0000FFFFu
#define INDEX 0x03FFFFFFu
#define CODE 0x03FFFFC0u
#define TRAP_CODE 0x0000FFC0u
struct drawing {
    const char *name;
    uint32_t fixed, rs, rt, rd, shift, value;
};
#define KINDS 72
extern const struct drawing drawings[KINDS]; /* kind 1 first */

/* The numbers of the kinds. */
enum {
    ADD = 1, ADDI, ADDIU, ADDU, AND, ANDI, BEQ, BGEZ, BGEZAL, BGTZ, BLEZ, BLTZ, BLTZAL, BNE, BREAK, DIV, DIVU, J, JAL, JALR, JR,
    LB, LBU, LH, LHU, LL, LUI, LW, MFC0, MFHI, MFLO, MTC0, MTHI, MTLO, MULT, MULTU, NOR, OR, ORI, RFE, SB, SC, SH, SLL, SLLV, SLT,
    SLTI, SLTIU, SLTU, SRA, SRAV, SRL, SRLV, SUB, SUBU, SW, SYNC, SYSCALL, TEQ, TEQI, TGE, TGEI, TGEIU, TGEU, TLT, TLTI, TLTIU,
    TLTU, TNE, TNEI, XOR, XORI
};

/* The same numbers in every run of a program; each has its own. */
uint32_t next_random(void);

uint32_t random_word_of(uint32_t kind);
uint32_t word_of(uint32_t kind, uint32_t rs, uint32_t rt, uint32_t rd, uint32_t value); /* fields that the kind does not have are 0 */

int control_register(uint32_t kind); /* whether rd names a control register */
int access_width(uint32_t kind);     /* 0: no access */
int is_store(uint32_t kind);         /* or SC */
int branches(uint32_t kind);         /* a branch or jump */
int direct(uint32_t kind);           /* one with its target in the word */
/* The register that is written, links to 31 aside: rd where the kind has it, else rt, but for stores, branches, traps and products. */
uint32_t written_by(uint32_t kind, uint32_t rt, uint32_t rd);

/* The registers that hold the bases of the two areas. */
#define DATA_REGISTER 26u
#define CODE_REGISTER 27u

#endif

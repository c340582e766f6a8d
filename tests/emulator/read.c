/* Words and instructions: the drawings of document 004, section 1.2; those missing there are of the public MIPS II instruction set. */
#include "machine.h"

/* The fields of a word, as the bits that they take up. */
#define RS 0x03E00000u
#define RT 0x001F0000u
#define RD 0x0000F800u
#define SA 0x000007C0u
#define CONSTANT 0x0000FFFFu
#define INDEX 0x03FFFFFFu
#define CODE 0x03FFFFC0u      /* of BREAK and SYSCALL */
#define TRAP_CODE 0x0000FFC0u /* of the two-register traps */
#define STYPE 0x000007C0u

/* A drawing: the bits that are in no field must be those of `fixed`. Bits of a field are 0 in it. */
struct drawing {
    const char *name;
    uint32_t fixed, registers, value;
};

static const struct drawing drawings[EM_KINDS + 1] = {
    [ADD] = {"ADD", 0x00000020, RS | RT | RD, 0},
    [ADDI] = {"ADDI", 0x20000000, RS | RT, CONSTANT},
    [ADDIU] = {"ADDIU", 0x24000000, RS | RT, CONSTANT},
    [ADDU] = {"ADDU", 0x00000021, RS | RT | RD, 0},
    [AND] = {"AND", 0x00000024, RS | RT | RD, 0},
    [ANDI] = {"ANDI", 0x30000000, RS | RT, CONSTANT},
    [BEQ] = {"BEQ", 0x10000000, RS | RT, CONSTANT},
    [BGEZ] = {"BGEZ", 0x04010000, RS, CONSTANT},
    [BGEZAL] = {"BGEZAL", 0x04110000, RS, CONSTANT},
    [BGTZ] = {"BGTZ", 0x1C000000, RS, CONSTANT},
    [BLEZ] = {"BLEZ", 0x18000000, RS, CONSTANT},
    [BLTZ] = {"BLTZ", 0x04000000, RS, CONSTANT},
    [BLTZAL] = {"BLTZAL", 0x04100000, RS, CONSTANT},
    [BNE] = {"BNE", 0x14000000, RS | RT, CONSTANT},
    [BREAK] = {"BREAK", 0x0000000D, 0, CODE},
    [DIV] = {"DIV", 0x0000001A, RS | RT, 0},
    [DIVU] = {"DIVU", 0x0000001B, RS | RT, 0},
    [J] = {"J", 0x08000000, 0, INDEX},
    [JAL] = {"JAL", 0x0C000000, 0, INDEX},
    [JALR] = {"JALR", 0x00000009, RS | RD, 0},
    [JR] = {"JR", 0x00000008, RS, 0},
    [LB] = {"LB", 0x80000000, RS | RT, CONSTANT},
    [LBU] = {"LBU", 0x90000000, RS | RT, CONSTANT},
    [LH] = {"LH", 0x84000000, RS | RT, CONSTANT},
    [LHU] = {"LHU", 0x94000000, RS | RT, CONSTANT},
    [LL] = {"LL", 0xC0000000, RS | RT, CONSTANT},
    [LUI] = {"LUI", 0x3C000000, RT, CONSTANT},
    [LW] = {"LW", 0x8C000000, RS | RT, CONSTANT},
    [MFC0] = {"MFC0", 0x40000000, RT | RD, 0},
    [MFHI] = {"MFHI", 0x00000010, RD, 0},
    [MFLO] = {"MFLO", 0x00000012, RD, 0},
    [MTC0] = {"MTC0", 0x40800000, RT | RD, 0},
    [MTHI] = {"MTHI", 0x00000011, RS, 0},
    [MTLO] = {"MTLO", 0x00000013, RS, 0},
    [MULT] = {"MULT", 0x00000018, RS | RT, 0},
    [MULTU] = {"MULTU", 0x00000019, RS | RT, 0},
    [NOR] = {"NOR", 0x00000027, RS | RT | RD, 0},
    [OR] = {"OR", 0x00000025, RS | RT | RD, 0},
    [ORI] = {"ORI", 0x34000000, RS | RT, CONSTANT},
    [RFE] = {"RFE", 0x42000010, 0, 0},
    [SB] = {"SB", 0xA0000000, RS | RT, CONSTANT},
    [SC] = {"SC", 0xE0000000, RS | RT, CONSTANT},
    [SH] = {"SH", 0xA4000000, RS | RT, CONSTANT},
    [SLL] = {"SLL", 0x00000000, RT | RD | SA, 0},
    [SLLV] = {"SLLV", 0x00000004, RS | RT | RD, 0},
    [SLT] = {"SLT", 0x0000002A, RS | RT | RD, 0},
    [SLTI] = {"SLTI", 0x28000000, RS | RT, CONSTANT},
    [SLTIU] = {"SLTIU", 0x2C000000, RS | RT, CONSTANT},
    [SLTU] = {"SLTU", 0x0000002B, RS | RT | RD, 0},
    [SRA] = {"SRA", 0x00000003, RT | RD | SA, 0},
    [SRAV] = {"SRAV", 0x00000007, RS | RT | RD, 0},
    [SRL] = {"SRL", 0x00000002, RT | RD | SA, 0},
    [SRLV] = {"SRLV", 0x00000006, RS | RT | RD, 0},
    [SUB] = {"SUB", 0x00000022, RS | RT | RD, 0},
    [SUBU] = {"SUBU", 0x00000023, RS | RT | RD, 0},
    [SW] = {"SW", 0xAC000000, RS | RT, CONSTANT},
    [SYNC] = {"SYNC", 0x0000000F, 0, STYPE},
    [SYSCALL] = {"SYSCALL", 0x0000000C, 0, CODE},
    [TEQ] = {"TEQ", 0x00000034, RS | RT, TRAP_CODE},
    [TEQI] = {"TEQI", 0x040C0000, RS, CONSTANT},
    [TGE] = {"TGE", 0x00000030, RS | RT, TRAP_CODE},
    [TGEI] = {"TGEI", 0x04080000, RS, CONSTANT},
    [TGEIU] = {"TGEIU", 0x04090000, RS, CONSTANT},
    [TGEU] = {"TGEU", 0x00000031, RS | RT, TRAP_CODE},
    [TLT] = {"TLT", 0x00000032, RS | RT, TRAP_CODE},
    [TLTI] = {"TLTI", 0x040A0000, RS, CONSTANT},
    [TLTIU] = {"TLTIU", 0x040B0000, RS, CONSTANT},
    [TLTU] = {"TLTU", 0x00000033, RS | RT, TRAP_CODE},
    [TNE] = {"TNE", 0x00000036, RS | RT, TRAP_CODE},
    [TNEI] = {"TNEI", 0x040E0000, RS, CONSTANT},
    [XOR] = {"XOR", 0x00000026, RS | RT | RD, 0},
    [XORI] = {"XORI", 0x38000000, RS | RT, CONSTANT},
};
_Static_assert(XORI == EM_KINDS, "section 1.2 has 72 instructions");

const char *em_name(uint32_t kind)
{
    return kind >= 1 && kind <= EM_KINDS ? drawings[kind].name : "";
}

/* What the lowest bit of a field counts in the word. An instruction that does not have the field has only the value 0 for it. */
static uint32_t unit(uint32_t field)
{
    return field == 0 ? 1 : field & (0 - field);
}

static uint32_t cut(uint32_t word, uint32_t field)
{
    return (word & field) / unit(field);
}

/* MFC0 and MTC0 take only these registers (document 01, section Machine). */
static bool control_register_fits(struct em_instruction i)
{
    return (i.kind != MFC0 && i.kind != MTC0) || i.rd == 8 || i.rd == 12 || i.rd == 13 || i.rd == 14;
}

struct em_instruction em_read(uint32_t word)
{
    const struct em_instruction none = {0, 0, 0, 0, 0, 0};
    uint32_t kind = 1;
    while (kind <= EM_KINDS && (word & ~(drawings[kind].registers | drawings[kind].value)) != drawings[kind].fixed)
        kind++;
    if (kind > EM_KINDS)
        return none;
    uint32_t registers = drawings[kind].registers;
    struct em_instruction i = {kind, cut(word, registers & RS), cut(word, registers & RT), cut(word, registers & RD),
                               cut(word, registers & SA), cut(word, drawings[kind].value)};
    return control_register_fits(i) ? i : none;
}

/* Puts a value into its field of the word. Gives whether it fits. */
static bool put(uint32_t *word, uint32_t field, uint32_t value)
{
    *word |= value * unit(field) & field;
    return value <= field / unit(field);
}

uint32_t em_write(struct em_instruction i, uint32_t *word)
{
    *word = 0;
    if (i.kind < 1 || i.kind > EM_KINDS || !control_register_fits(i))
        return 18;
    uint32_t made = drawings[i.kind].fixed, registers = drawings[i.kind].registers;
    if (!put(&made, registers & RS, i.rs) || !put(&made, registers & RT, i.rt) || !put(&made, registers & RD, i.rd))
        return 18;
    if (!put(&made, registers & SA, i.shift) || !put(&made, drawings[i.kind].value, i.value))
        return 18;
    *word = made;
    return 0;
}

uint32_t em_access_width(uint32_t kind)
{
    switch (kind) {
    case LB: case LBU: case SB:
        return 1;
    case LH: case LHU: case SH:
        return 2;
    case LW: case SW: case LL: case SC:
        return 4;
    default:
        return 0;
    }
}

uint32_t em_direct_target(uint32_t pc, struct em_instruction i)
{
    uint32_t slot = pc + 4;
    if (i.kind == J || i.kind == JAL)
        return (slot & 0xF0000000) | i.value * 4;
    return slot + (uint32_t)(em_signed_number(i.value, 16) * 4);
}

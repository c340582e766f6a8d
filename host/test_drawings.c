/* The drawings of docs/INSTRUCTIONS.md, words that fit them, and what the kinds do. */
#include "drawings.h"

const struct drawing drawings[KINDS] = {
    {"ADD", 0x00000020, RS, RT, RD, 0, 0},
    {"ADDI", 0x20000000, RS, RT, 0, 0, CONSTANT},
    {"ADDIU", 0x24000000, RS, RT, 0, 0, CONSTANT},
    {"ADDU", 0x00000021, RS, RT, RD, 0, 0},
    {"AND", 0x00000024, RS, RT, RD, 0, 0},
    {"ANDI", 0x30000000, RS, RT, 0, 0, CONSTANT},
    {"BEQ", 0x10000000, RS, RT, 0, 0, CONSTANT},
    {"BGEZ", 0x04010000, RS, 0, 0, 0, CONSTANT},
    {"BGEZAL", 0x04110000, RS, 0, 0, 0, CONSTANT},
    {"BGTZ", 0x1C000000, RS, 0, 0, 0, CONSTANT},
    {"BLEZ", 0x18000000, RS, 0, 0, 0, CONSTANT},
    {"BLTZ", 0x04000000, RS, 0, 0, 0, CONSTANT},
    {"BLTZAL", 0x04100000, RS, 0, 0, 0, CONSTANT},
    {"BNE", 0x14000000, RS, RT, 0, 0, CONSTANT},
    {"BREAK", 0x0000000D, 0, 0, 0, 0, CODE},
    {"DIV", 0x0000001A, RS, RT, 0, 0, 0},
    {"DIVU", 0x0000001B, RS, RT, 0, 0, 0},
    {"J", 0x08000000, 0, 0, 0, 0, INDEX},
    {"JAL", 0x0C000000, 0, 0, 0, 0, INDEX},
    {"JALR", 0x00000009, RS, 0, RD, 0, 0},
    {"JR", 0x00000008, RS, 0, 0, 0, 0},
    {"LB", 0x80000000, RS, RT, 0, 0, CONSTANT},
    {"LBU", 0x90000000, RS, RT, 0, 0, CONSTANT},
    {"LH", 0x84000000, RS, RT, 0, 0, CONSTANT},
    {"LHU", 0x94000000, RS, RT, 0, 0, CONSTANT},
    {"LL", 0xC0000000, RS, RT, 0, 0, CONSTANT},
    {"LUI", 0x3C000000, 0, RT, 0, 0, CONSTANT},
    {"LW", 0x8C000000, RS, RT, 0, 0, CONSTANT},
    {"MFC0", 0x40000000, 0, RT, RD, 0, 0},
    {"MFHI", 0x00000010, 0, 0, RD, 0, 0},
    {"MFLO", 0x00000012, 0, 0, RD, 0, 0},
    {"MTC0", 0x40800000, 0, RT, RD, 0, 0},
    {"MTHI", 0x00000011, RS, 0, 0, 0, 0},
    {"MTLO", 0x00000013, RS, 0, 0, 0, 0},
    {"MULT", 0x00000018, RS, RT, 0, 0, 0},
    {"MULTU", 0x00000019, RS, RT, 0, 0, 0},
    {"NOR", 0x00000027, RS, RT, RD, 0, 0},
    {"OR", 0x00000025, RS, RT, RD, 0, 0},
    {"ORI", 0x34000000, RS, RT, 0, 0, CONSTANT},
    {"RFE", 0x42000010, 0, 0, 0, 0, 0},
    {"SB", 0xA0000000, RS, RT, 0, 0, CONSTANT},
    {"SC", 0xE0000000, RS, RT, 0, 0, CONSTANT},
    {"SH", 0xA4000000, RS, RT, 0, 0, CONSTANT},
    {"SLL", 0x00000000, 0, RT, RD, SHIFT, 0},
    {"SLLV", 0x00000004, RS, RT, RD, 0, 0},
    {"SLT", 0x0000002A, RS, RT, RD, 0, 0},
    {"SLTI", 0x28000000, RS, RT, 0, 0, CONSTANT},
    {"SLTIU", 0x2C000000, RS, RT, 0, 0, CONSTANT},
    {"SLTU", 0x0000002B, RS, RT, RD, 0, 0},
    {"SRA", 0x00000003, 0, RT, RD, SHIFT, 0},
    {"SRAV", 0x00000007, RS, RT, RD, 0, 0},
    {"SRL", 0x00000002, 0, RT, RD, SHIFT, 0},
    {"SRLV", 0x00000006, RS, RT, RD, 0, 0},
    {"SUB", 0x00000022, RS, RT, RD, 0, 0},
    {"SUBU", 0x00000023, RS, RT, RD, 0, 0},
    {"SW", 0xAC000000, RS, RT, 0, 0, CONSTANT},
    {"SYNC", 0x0000000F, 0, 0, 0, 0, SHIFT},
    {"SYSCALL", 0x0000000C, 0, 0, 0, 0, CODE},
    {"TEQ", 0x00000034, RS, RT, 0, 0, TRAP_CODE},
    {"TEQI", 0x040C0000, RS, 0, 0, 0, CONSTANT},
    {"TGE", 0x00000030, RS, RT, 0, 0, TRAP_CODE},
    {"TGEI", 0x04080000, RS, 0, 0, 0, CONSTANT},
    {"TGEIU", 0x04090000, RS, 0, 0, 0, CONSTANT},
    {"TGEU", 0x00000031, RS, RT, 0, 0, TRAP_CODE},
    {"TLT", 0x00000032, RS, RT, 0, 0, TRAP_CODE},
    {"TLTI", 0x040A0000, RS, 0, 0, 0, CONSTANT},
    {"TLTIU", 0x040B0000, RS, 0, 0, 0, CONSTANT},
    {"TLTU", 0x00000033, RS, RT, 0, 0, TRAP_CODE},
    {"TNE", 0x00000036, RS, RT, 0, 0, TRAP_CODE},
    {"TNEI", 0x040E0000, RS, 0, 0, 0, CONSTANT},
    {"XOR", 0x00000026, RS, RT, RD, 0, 0},
    {"XORI", 0x38000000, RS, RT, 0, 0, CONSTANT},
};

int control_register(uint32_t kind) { return kind == MFC0 || kind == MTC0; }

uint32_t random_word_of(uint32_t kind)
{
    static const uint32_t control[] = {8, 12, 13, 14};
    const struct drawing *d = &drawings[kind - 1];
    uint32_t rd = control_register(kind) ? control[next_random() % 4] << 11 : next_random() & d->rd;
    return d->fixed | rd | (next_random() & (d->rs | d->rt | d->shift | d->value));
}

uint32_t word_of(uint32_t kind, uint32_t rs, uint32_t rt, uint32_t rd, uint32_t value)
{
    const struct drawing *d = &drawings[kind - 1];
    return d->fixed | (rs << 21 & d->rs) | (rt << 16 & d->rt) | (rd << 11 & d->rd) | (value * (d->value & -d->value) & d->value);
}

int access_width(uint32_t kind)
{
    switch (kind) {
    case LB: case LBU: case SB: return 1;
    case LH: case LHU: case SH: return 2;
    case LW: case SW: case LL: case SC: return 4;
    default: return 0;
    }
}

int is_store(uint32_t kind) { return kind == SB || kind == SC || kind == SH || kind == SW; }

/* BEQ to BNE are the eight conditional branches, J to JR the four jumps. */
int branches(uint32_t kind) { return (kind >= BEQ && kind <= BNE) || (kind >= J && kind <= JR); }
int direct(uint32_t kind) { return branches(kind) && kind != JR && kind != JALR; }

uint32_t written_by(uint32_t kind, uint32_t rt, uint32_t rd)
{
    const struct drawing *d = &drawings[kind - 1];
    int store = kind == SB || kind == SH || kind == SW;
    if (d->rd)
        return rd;
    return d->value == CONSTANT && d->rt && !store && !branches(kind) ? rt : 0;
}

/* Instructions as assemblers write them, from what cc100_read gives. */
#include <inttypes.h>
#include <string.h>

#include "command.h"

/* What an instruction writes besides memory and PC. */
enum written { NOTHING, RD, RT, LINK, HI, LO, HI_LO };

/* Operands by letters: d, s, t registers rd, rs, rt; l rd and a comma, unless it is 31, which assemblers leave out; z register 0; k control
   register; h shift amount; u constant, j the same as a signed number; o offset and base; c code, unless it is 0; m the same after a comma;
   b the address that a branch leads to, a that of a jump. */
struct row {
    const char *name, *operands;
    enum written written;
};

/* In the order of the numbers of the kinds, from 1. */
static const struct row rows[] = {
    {"add", "d,s,t", RD}, {"addi", "t,s,j", RT}, {"addiu", "t,s,j", RT}, {"addu", "d,s,t", RD}, {"and", "d,s,t", RD},
    {"andi", "t,s,u", RT}, {"beq", "s,t,b", NOTHING}, {"bgez", "s,b", NOTHING}, {"bgezal", "s,b", LINK}, {"bgtz", "s,b", NOTHING},
    {"blez", "s,b", NOTHING}, {"bltz", "s,b", NOTHING}, {"bltzal", "s,b", LINK}, {"bne", "s,t,b", NOTHING}, {"break", "c", NOTHING},
    {"div", "z,s,t", HI_LO}, {"divu", "z,s,t", HI_LO}, {"j", "a", NOTHING}, {"jal", "a", LINK}, {"jalr", "ls", RD},
    {"jr", "s", NOTHING}, {"lb", "t,o", RT}, {"lbu", "t,o", RT}, {"lh", "t,o", RT}, {"lhu", "t,o", RT},
    {"ll", "t,o", RT}, {"lui", "t,u", RT}, {"lw", "t,o", RT}, {"mfc0", "t,k", RT}, {"mfhi", "d", RD},
    {"mflo", "d", RD}, {"mtc0", "t,k", NOTHING}, {"mthi", "s", HI}, {"mtlo", "s", LO}, {"mult", "s,t", HI_LO},
    {"multu", "s,t", HI_LO}, {"nor", "d,s,t", RD}, {"or", "d,s,t", RD}, {"ori", "t,s,u", RT}, {"rfe", "", NOTHING},
    {"sb", "t,o", NOTHING}, {"sc", "t,o", RT}, {"sh", "t,o", NOTHING}, {"sll", "d,t,h", RD}, {"sllv", "d,t,s", RD},
    {"slt", "d,s,t", RD}, {"slti", "t,s,j", RT}, {"sltiu", "t,s,j", RT}, {"sltu", "d,s,t", RD}, {"sra", "d,t,h", RD},
    {"srav", "d,t,s", RD}, {"srl", "d,t,h", RD}, {"srlv", "d,t,s", RD}, {"sub", "d,s,t", RD}, {"subu", "d,s,t", RD},
    {"sw", "t,o", NOTHING}, {"sync", "c", NOTHING}, {"syscall", "c", NOTHING}, {"teq", "s,tm", NOTHING}, {"teqi", "s,j", NOTHING},
    {"tge", "s,tm", NOTHING}, {"tgei", "s,j", NOTHING}, {"tgeiu", "s,j", NOTHING}, {"tgeu", "s,tm", NOTHING}, {"tlt", "s,tm", NOTHING},
    {"tlti", "s,j", NOTHING}, {"tltiu", "s,j", NOTHING}, {"tltu", "s,tm", NOTHING}, {"tne", "s,tm", NOTHING}, {"tnei", "s,j", NOTHING},
    {"xor", "d,s,t", RD}, {"xori", "t,s,u", RT},
};

static int32_t signed_value(const cc100_instruction *i) { return (int32_t)(i->value ^ 0x8000u) - 0x8000; }

/* The address that a letter b or a stands for. Offsets count from the slot, and jumps keep its top four bits. */
static uint32_t target_of(const cc100_instruction *i, char letter, uint32_t address)
{
    uint32_t slot = address + 4;
    return letter == 'b' ? slot + 4 * (uint32_t)signed_value(i) : (slot & 0xF0000000u) | i->value << 2;
}

static void write_register(char *to, size_t size, uint32_t r, const char *after) { snprintf(to, size, "$%" PRIu32 "%s", r, after); }

static void write_code(char *to, size_t size, const char *before, uint32_t code)
{
    snprintf(to, size, code ? "%s0x%" PRIx32 : "", before, code);
}

/* Writes what a letter stands for. */
static void write_operand(char *to, size_t size, const cc100_instruction *i, char letter, uint32_t address)
{
    switch (letter) {
    case 'd': case 'k': write_register(to, size, i->rd, ""); break;
    case 's': write_register(to, size, i->rs, ""); break;
    case 't': write_register(to, size, i->rt, ""); break;
    case 'z': write_register(to, size, 0, ""); break;
    case 'l':
        if (i->rd != 31)
            write_register(to, size, i->rd, ",");
        break;
    case 'h': snprintf(to, size, "0x%" PRIx32, i->shift); break;
    case 'u': snprintf(to, size, "0x%" PRIx32, i->value); break;
    case 'j': snprintf(to, size, "%" PRId32, signed_value(i)); break;
    case 'o': snprintf(to, size, "%" PRId32 "($%" PRIu32 ")", signed_value(i), i->rs); break;
    case 'c': write_code(to, size, "", i->value); break;
    case 'm': write_code(to, size, ",", i->value); break;
    case 'a': case 'b': snprintf(to, size, "0x%" PRIx32, target_of(i, letter, address)); break;
    default: snprintf(to, size, "%c", letter);
    }
}

const char *mnemonic_of(uint32_t kind) { return kind ? rows[kind - 1].name : NULL; }

/* Accesses alone have an offset and a base. Their names tell the width: b and h, and a word for w, ll and sc. */
uint32_t width_of(uint32_t kind)
{
    if (kind == 0 || strcmp(rows[kind - 1].operands, "t,o") != 0)
        return 0;
    switch (rows[kind - 1].name[1]) {
    case 'b': return 1;
    case 'h': return 2;
    default: return 4;
    }
}

struct text text_of(uint32_t word, uint32_t address)
{
    cc100_instruction i = cc100_read(word);
    struct text t = {.name = ".word"};
    if (word == 0)
        return (struct text){.name = "nop"};
    if (i.kind == 0) {
        snprintf(t.operands, sizeof t.operands, "0x%" PRIx32, word);
        return t;
    }
    t.name = mnemonic_of(i.kind);
    for (const char *c = rows[i.kind - 1].operands; *c; c++) {
        size_t used = strlen(t.operands);
        write_operand(t.operands + used, sizeof t.operands - used, &i, *c, address);
        if (*c == 'a' || *c == 'b') {
            t.has_target = true;
            t.target = target_of(&i, *c, address);
        }
    }
    return t;
}

bool writes(const cc100_instruction *i, uint32_t place)
{
    switch (i->kind ? rows[i->kind - 1].written : NOTHING) {
    case RD: return place == i->rd;
    case RT: return place == i->rt;
    case LINK: return place == 31;
    case HI: return place == WRITES_HI;
    case LO: return place == WRITES_LO;
    case HI_LO: return place == WRITES_HI || place == WRITES_LO;
    default: return false;
    }
}

/* What the numbers mean, whom to ask and what to change: the one table of these sentences. */
#include "command.h"

#define SERVER "Whoever set up the server: the numbers of its layout do not fit together."
#define SENDER \
    "First whoever sent the file: it may have been cut off or added to on its way. Where it is whole, whoever set up the server."
#define COMPILER \
    "Whoever writes the compiler. First compare the file with the one that the compiler wrote, by length and checksum: where they differ, " \
    "fetch it again. The author of the report cannot mend it."
#define SIZES \
    "Of a module, first whoever sent the file: it may have been cut off or added to on its way. Where it is whole, whoever set up the server. " \
    "Of an area, whoever asked for it or handed it back."
#define HOST "Whoever writes the host program: the number is about its call, and not about the module."
#define PLACER "Whoever places and starts modules: the number is about what is in memory or in a register, and not about the module."
#define KEEPER "Whoever places modules by the record: the number is about the areas that are out, and not about a module."

static const struct refusal refusals[LAST_REFUSAL] = {
    {"Memory is longer than 16,777,216 bytes.", "16,777,217 bytes", "Lend less.", SERVER},
    {"The code size, or an area's size, is not a power of two from 16 to 65,536.", "24",
     "See that the file is whole. The compiler fills a module up to such a size, before its last jump. Of an area: ask for the next larger of "
     "these sizes, or hand it back with the size that it was given with.", SIZES},
    {"The data size is not a power of two from 4 to 65,536.", "2", "Give the module the next larger size.", SERVER},
    {"The code base is not a multiple of the code size, or the code is not wholly inside memory.", "base 0x10010",
     "Choose another base, or lend more memory.", SERVER},
    {"The data base is not a multiple of the data size, or the data is not wholly inside memory.", "base 0x30000",
     "Choose another base, or lend more memory.", SERVER},
    {"Code and data overlap.", "data base 0x10000", "Move one of them.", SERVER},
    {"The image's length is not the code size.", "28 bytes", "See that the file is whole; hand its whole length to the call.", SENDER},
    {"A word is no instruction.", "0xFFFFFFFF",
     "A damaged file, data among the code, or code for another processor. Compiler: write only the 72 instructions, with their zero fields "
     "zero.", COMPILER},
    {"An instruction that no module may have: MFC0, MTC0, RFE, or BREAK with code 15.", "0x42000010",
     "Compiler: leave it out; BREAK takes any other code.", COMPILER},
    {"Register 26 or 27 is written. They hold the bases of data and code.", "0x3C1A0000", "Compiler: keep both out of use.", COMPILER},
    {"JALR with rd = rs, or BLTZAL or BGEZAL with rs = 31.", "0x07F10000", "Compiler: take another register.", COMPILER},
    {"An access without its two guard words: they are missing, others, or of another register than its base. The word is the access.",
     "0xAD090000 at word 0",
     "Compiler: just before the access, in the same bundle, put ANDI R,S,m and OR R,R,26, where R is its base and not 0, 26 or 27. Another mask or "
     "offset does not help.", COMPILER},
    {"JR or JALR without a fitting guard: it could lead outside the code.", "0x03E00008 at word 0",
     "Compiler: just before it, in the same bundle, put ANDI R,S,m and OR R,R,27, where R is the register that it jumps by and not 0, 26 or "
     "27, and m is a multiple of 16 and at most the code size - 16.", COMPILER},
    {"A branch or jump straight after a branch or jump, also in the next bundle. The word is the second of the two.", "0x08004000 twice",
     "Compiler: put another instruction, or a zero word, between them.", COMPILER},
    {"A branch, J or JAL leads outside the code, to its last word, or past a guard: to an access, JR or JALR, or to the word just before one. "
     "The word is the branch.", "0x08004007",
     "J and JAL hold addresses: see that the code base is the one that the compiler was told. Compiler: lead to the guard's first word.",
     COMPILER},
    {"The last word but one is not J, JAL, JR or JALR, so that the code could be run past its end.", "eight zero words",
     "See that the file is whole. Compiler: end a module with a jump and its slot; a branch that is always taken does not do.", COMPILER},
    {"The state has register 0 not zero, PC or next PC not a multiple of 4, or a status bit above 12 set; or its bytes are not 164, or its LL "
     "word is above 1.", "PC 2", "Host: set up a state as cc100.h says, and change in it only what a host may.", HOST},
    {"An instruction to be written has a field too wide or not legal.", "shift 32",
     "Host: see the fields in docs/INSTRUCTIONS.md; a kind is 1 to 72, and a field that it does not have is 0.", HOST},
    {"A resume where the step does not end in 40, 46, 47 or 48.", "PC at word 0x00000000",
     "Host: resume only after an Integer Overflow, System Call, Breakpoint or Trap.", HOST},
    {"A straight-through module was asked for, and the word is JR or JALR, or a branch, J or JAL that leads less than two words ahead or past "
     "the start of the last bundle.", "0x1000FFFF",
     "Compiler: write no JR and no JALR, and lead every branch at least two words ahead and at most to the start of the last bundle. A report "
     "that loops, or returns from a call, cannot be straight-through, and may still be accepted where that is not asked for.", COMPILER},
    {"A straight-through module was asked for, and its last bundle is not SYSCALL with code 0, a zero word, J to the bundle's own start and a "
     "zero word.", "0x0000004C at word 4",
     "Compiler: end the module with that bundle, and fill it up before it. Without such an end it may still be accepted where a "
     "straight-through module is not asked for.", COMPILER},
    {"An access with its two guard words, whose mask or offset is wrong: it could reach outside the data. The word is the guard's ANDI, two before "
     "the access.", "module M with 0x31080040 at word 0",
     "See that the data size is the one that the compiler was told. Compiler: the guard words are right; make the mask m a power of two less the "
     "access's width, the offset a multiple of the width and not negative, and m + offset + width at most the data size.", COMPILER},
    {"There is no base for an area of the size: at every multiple of the size it would overlap an area that is out.", "16, after 65,536 areas of 16",
     "Take back areas that are no longer needed, or ask for a smaller one. cc100 areas RECORD show says how much is free, and the largest area that "
     "there is a base for.", KEEPER},
    {"The keeper's record has another length than 65,536 bytes, or shows areas out that overlap, leave the memory or break the size or base rule; or "
     "the area handed back, by base and size, is not one that is out.", "an area handed back twice",
     "Hand an area back once, with the base and the size that it was given with. Where the record is wrong, cc100 areas RECORD show names the byte; "
     "docs/REFUSALS.md says how to mend it.", KEEPER},
    {"An access with its two guard words, whose mask has a hole: mask and width are no power of two together, so that two rows can go to one cell. "
     "The word is the guard's ANDI, two before the access.", "module M with 0x31080034 at word 0",
     "Compiler: the guard words are right, and no access leaves the data; make the mask m a power of two less the access's width, which is the size "
     "of a table less the width, and let the register hold the place of a cell in it, and not of a row.", COMPILER},
    {"A byte of the code area is not that of the image: the module was not placed there, or something else was written over it.",
     "module M with 0x25290001 at 0x10010 in memory",
     "Put the whole image into the code area anew, and start it before anything else writes there. Start a module that was linked for its place with the "
     "linked image. See that no other module's area reaches into this one.", PLACER},
    {"Register 26 is not the data base, or register 27 is not the code base.", "register 27 is 0",
     "Put the data base into register 26 and the code base into register 27, as they are told in the call, and start the module then.", PLACER},
};

static const struct exit_name exits[LAST_EXIT - FIRST_EXIT + 1] = {
    {"Integer Overflow", "The signed result of ADD, ADDI or SUB does not fit in 32 bits."},
    {"Address", "JR or JALR is given an address that is not a multiple of 4."},
    {"Load", "LB, LBU, LH, LHU, LW or LL has an address that is not a multiple of its width, or a byte outside memory."},
    {"Store", "SB, SH, SW or SC has an address that is not a multiple of its width, or a byte outside memory."},
    {"Privileged Data", "MFC0 or MTC0 is reached in user mode."},
    {"Privileged Instruction", "RFE is reached in user mode."},
    {"System Call", "SYSCALL is reached, except with code 15 in kernel mode."},
    {"Breakpoint", "BREAK is reached with a code other than 15."},
    {"Trap", "The condition of a trap holds."},
    {"no instruction", "The word at PC is none of the 72."},
    {"fetch outside memory", "Not all of the four bytes from PC on are inside memory; they do not wrap, so PC 0xFFFFFFFC gives 50."},
    {"BREAK with code 15", "BREAK is reached with code 15, in either mode."},
    {"SYSCALL with code 15 in kernel mode", "SYSCALL is reached with code 15 in kernel mode."},
};

const struct refusal *refusal_of(uint32_t number) { return number >= 1 && number <= LAST_REFUSAL ? &refusals[number - 1] : NULL; }

const struct exit_name *exit_of(uint32_t number)
{
    return number >= FIRST_EXIT && number <= LAST_EXIT ? &exits[number - FIRST_EXIT] : NULL;
}

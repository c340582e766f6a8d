/* Delkhvatsi: the calls of the CC100-C runner. Link with libcc100.a.

   Each call returns on every input, reads and writes only what it was lent, allocates nothing and keeps nothing between calls. It asks
   two things of its caller:

   - a pointer and the length beside it are those of bytes that the caller owns; the pointer is not NULL, also where the length is 0;
   - state and memory do not overlap, and neither do state and image. An image may be a part of the memory.

   A call that refuses leaves every byte as it was.

   A module is confined, which is proved for every list of cc100_step, cc100_run and cc100_resume in any order, after a cc100_start that answers
   CC100_DONE. What is left to the host in it:

   - it hands each call the state and memory that the last one left, the first of them those of the start;
   - it changes in them only registers 1 to 25 and 28 to 31, HI, LO and bytes of the data area, and these only where the step of the state ends in
     an exit. What the module is to find there at its first step goes in before the start. Another start begins another list.

   Then every fetch is from its code area and every load and store in its data area, and so is every access that an answer carries; no exits
   are met but CC100_EXIT_INTEGER_OVERFLOW, CC100_EXIT_SYSTEM_CALL, CC100_EXIT_BREAKPOINT and CC100_EXIT_TRAP, and all other memory keeps its
   bytes and has no influence.

   A module that cc100_check_straight accepts too, for the same layout, memory length and image, is known to finish, started in the same way: it meets its
   first exit after at most four fewer completed steps than it has words. It completes no more than that, however often it is resumed, until it is
   resumed at the exit of its last bundle; and at any time a run of as many steps as it has words ends in an exit.

   Areas for modules are given by cc100_allocate and taken back by cc100_release, by a record that the host keeps. After every list of these
   two calls on a record that began as zeros, refused calls included, no two areas out overlap. */
#ifndef CC100_H
#define CC100_H

#include <stddef.h>
#include <stdint.h>

#ifdef __cplusplus
extern "C" {
#endif

/* Numbers that calls answer: done, refusals as documents 01 and 02 number them, and exits. */
#define CC100_DONE 0u /* a module accepted or started, a step completed, a run still running, a resume given, a word written, an area given or taken back */

#define CC100_REFUSED_MEMORY 1u         /* memory is longer than CC100_LONGEST_MEMORY */
#define CC100_REFUSED_CODE_SIZE 2u      /* the code size, or an area's size, is not a power of two from 16 to 65,536 */
#define CC100_REFUSED_DATA_SIZE 3u      /* the data size is not a power of two from 4 to 65,536 */
#define CC100_REFUSED_CODE_AREA 4u      /* the code base is not a multiple of the code size, or the area is not inside memory */
#define CC100_REFUSED_DATA_AREA 5u      /* the same for data */
#define CC100_REFUSED_OVERLAP 6u        /* the areas overlap */
#define CC100_REFUSED_IMAGE_LENGTH 7u   /* the image's length is not the code size */
#define CC100_REFUSED_NO_INSTRUCTION 8u /* a word is none of the 72 */
#define CC100_REFUSED_PRIVILEGED 9u     /* MFC0, MTC0, RFE, or BREAK with code 15 */
#define CC100_REFUSED_BASE_REGISTER 10u /* register 26 or 27 is written */
#define CC100_REFUSED_LINK 11u          /* JALR with rd = rs, or BLTZAL or BGEZAL with rs = 31 */
#define CC100_REFUSED_ACCESS 12u        /* an access without its guard words, ANDI R,S,m and OR R,R,26 with R its base and not 0, 26 or 27 */
#define CC100_REFUSED_JUMP 13u          /* JR or JALR without fitting guard */
#define CC100_REFUSED_SLOT 14u          /* a branch or jump straight after a branch or jump */
#define CC100_REFUSED_TARGET 15u        /* a direct target outside the code, on its last word, or on or just before an access, JR or JALR */
#define CC100_REFUSED_END 16u           /* the last word but one is not J, JAL, JR or JALR */
#define CC100_REFUSED_STATE 17u         /* no lawful state: see below */
#define CC100_REFUSED_INSTRUCTION 18u   /* an instruction to be written has a field too wide or not legal */
#define CC100_REFUSED_RESUME 19u        /* a resume where the step does not end in 40, 46, 47 or 48 */
#define CC100_REFUSED_STRAIGHT 20u      /* JR or JALR, or a direct target less than two words ahead or past the last bundle's start */
#define CC100_REFUSED_LAST_BUNDLE 21u   /* the last bundle is not SYSCALL with code 0, a zero word, J to its own start, a zero word */
#define CC100_REFUSED_MASK 22u          /* an access with its guard words whose mask m or offset breaks a multiple, sign or size rule */
#define CC100_REFUSED_NO_SPACE 23u      /* at every multiple of its size an area would overlap one that is out */
#define CC100_REFUSED_RECORD 24u        /* the keeper's record has another length or is not sound, or an area handed back is not out: see below */
#define CC100_REFUSED_MASK_HOLE 25u     /* an access with its guard words, whose mask plus width is not a power of two */
#define CC100_REFUSED_CODE_BYTES 26u    /* a byte of the code area differs from the image */
#define CC100_REFUSED_BASES 27u         /* register 26 is not the data base, or register 27 not the code base */

#define CC100_NO_PLACE 0xFFFFFFFFu /* the place of a verdict that names no word, and the base of an area that is not given */

#define CC100_EXIT_INTEGER_OVERFLOW 40u       /* the sum or difference of ADD, ADDI or SUB does not fit */
#define CC100_EXIT_ADDRESS 41u                /* JR or JALR to an address that is not a multiple of 4 */
#define CC100_EXIT_LOAD 42u                   /* a load, or LL, that is not aligned or outside memory */
#define CC100_EXIT_STORE 43u                  /* a store, or SC, that is not aligned or outside memory */
#define CC100_EXIT_PRIVILEGED_DATA 44u        /* MFC0 or MTC0 in user mode */
#define CC100_EXIT_PRIVILEGED_INSTRUCTION 45u /* RFE in user mode */
#define CC100_EXIT_SYSTEM_CALL 46u            /* SYSCALL */
#define CC100_EXIT_BREAKPOINT 47u             /* BREAK */
#define CC100_EXIT_TRAP 48u                   /* a trap whose condition holds */
#define CC100_EXIT_NO_INSTRUCTION 49u         /* the word at PC is none of the 72 */
#define CC100_EXIT_FETCH 50u                  /* the word at PC is not inside memory */
#define CC100_EXIT_DEBUG_BREAK 51u            /* BREAK with code 15 */
#define CC100_EXIT_STOP_CORES 52u             /* SYSCALL with code 15 in kernel mode */

/* Memory is bytes from address 0 up, words little-endian. */
#define CC100_LONGEST_MEMORY 16777216u

/* A state is 41 little-endian words in 164 bytes; these are their places. */
#define CC100_STATE_LENGTH 164u
#define CC100_REGISTER(r) (4u * (r)) /* registers 0 to 31 */
#define CC100_HI 128u
#define CC100_LO 132u
#define CC100_PC 136u             /* the address of the present instruction */
#define CC100_NEXT_PC 140u        /* the address of the following one */
#define CC100_LL 144u             /* the LL bit as 0 or 1 */
#define CC100_BAD_ADDRESS 148u    /* control register 8 */
#define CC100_STATUS 152u         /* control register 12 */
#define CC100_CAUSE 156u          /* control register 13 */
#define CC100_RETURN_ADDRESS 160u /* control register 14 */

/* The keeper gives areas of CC100_KEEPER_MEMORY bytes of memory, from address 0 up, and its record has a byte for each 16 of them. A byte that is not 0 is
   an area out: its base is 16 times the byte's index, its size 2 to the power of the byte. So a record of zeros has no area out. A record is
   sound where it has CC100_RECORD_LENGTH bytes and of every area out the size is a power of two from 16 to 65,536, the base is a multiple of the
   size, and the area lies inside the CC100_KEEPER_MEMORY bytes and overlaps no other.

   Proved of every list of cc100_allocate and cc100_release on a record of zeros, each call with the record that the last one left: the areas out are
   those that calls gave and none took back, and no two of them overlap. Two of them, one for code and one for data, are a layout that breaks none of
   the checker's rules 1 to 6 where memory has CC100_KEEPER_MEMORY bytes or more.

   Sizes and bases are 32 bits: a caller that has more tests them before they are cut. A record is lent to one call at a time. */
#define CC100_KEEPER_MEMORY 1048576u
#define CC100_RECORD_LENGTH 65536u

/* The bit of the status that is the current mode: 1 user, 0 kernel. */
#define CC100_STATUS_USER 8u

/* CC100_REFUSED_STATE is the answer for state bytes that are not 164, for an LL word above 1, for register 0 not zero, for PC or next PC
   not a multiple of 4, and for a status bit above 12 set. */

/* The word in four bytes of a state or of memory. */
static inline uint32_t cc100_get_word(const uint8_t *bytes)
{
    return bytes[0] | (uint32_t)bytes[1] << 8 | (uint32_t)bytes[2] << 16 | (uint32_t)bytes[3] << 24;
}

/* Puts a word into four bytes of a state or of memory. */
static inline void cc100_set_word(uint8_t *bytes, uint32_t word)
{
    bytes[0] = (uint8_t)word;
    bytes[1] = (uint8_t)(word >> 8);
    bytes[2] = (uint8_t)(word >> 16);
    bytes[3] = (uint8_t)(word >> 24);
}

/* What the checker says of a module: `number` is CC100_DONE, which accepts it, or a refusal, 1 to 16, 22 or 25, and of a straight-through module
   also 20 or 21. `place` is the index of the word that 8 to 16 and 20 refuse; of 22 and 25 that of the guard's ANDI, two words before the access;
   and else CC100_NO_PLACE. A start says what cc100_check says of the module, never 20 or 21, and can also refuse by 17, 26 or 27, which have no
   place. */
typedef struct cc100_verdict {
    uint32_t number, place;
} cc100_verdict;

/* How a step ended: `number` is CC100_DONE, an exit or a refusal. The rest is the memory access that it completed: `width` bytes, 1, 2 or 4, at
   `address`, and `store` is 1 for a store, or SC, and 0 for a load, or LL. Where there is none, as in every exit and refusal and in an SC that
   does not store, all three are 0; an access can be at address 0, so `width` tells whether there is one. */
typedef struct cc100_stepped {
    uint32_t number, address, width, store;
} cc100_stepped;

/* How a run ended: `number` is CC100_DONE, an exit or a refusal, `steps` the steps completed. The rest is the last memory access among those
   steps, as in cc100_stepped, also where later ones had none and where an exit ends the run; three zeros where none of them had one. Earlier
   calls do not count. */
typedef struct cc100_ran {
    uint32_t number, steps, address, width, store;
} cc100_ran;

/* An instruction. `kind` is its number in docs/INSTRUCTIONS.md, 1 to 72, or 0: no instruction.
   Fields that a kind does not have are 0. `value` is the raw constant, offset, jump index, code or stype. */
typedef struct cc100_instruction {
    uint32_t kind, rs, rt, rd, shift, value;
} cc100_instruction;

/* A word that was written: `number` is CC100_DONE, or CC100_REFUSED_INSTRUCTION, and then `word` is 0. */
typedef struct cc100_written {
    uint32_t number, word;
} cc100_written;

/* An area that is given: `number` is CC100_DONE, and then `base` its address, or a refusal, and then `base` is CC100_NO_PLACE. */
typedef struct cc100_allocated {
    uint32_t number, base;
} cc100_allocated;

/* Checks a module before it is placed. `image` is its code, words little-endian. The layout is where it is to run: the memory's length, and
   the base and size of the areas for code and data; docs/REFUSALS.md says what each refusal means.
   Refuses 1 to 7, in this order, by the layout and the image's length; then by the words from index 0 up, each tried with 8 to 12, 22, 25 and 13
   to 15 in this order; then 16, whose place is that of the last word but one. The image is only read. */
cc100_verdict cc100_check(uint64_t memory_length, uint32_t code_base, uint32_t code_size, uint32_t data_base, uint32_t data_size,
                          const uint8_t *image, size_t image_length);

/* Checks a module that is placed: as cc100_check, with the code area of the memory as the image. Memory is only read; its bytes outside
   that area do not matter. Never refuses by CC100_REFUSED_IMAGE_LENGTH. */
cc100_verdict cc100_check_placed(uint32_t code_base, uint32_t code_size, uint32_t data_base, uint32_t data_size, const uint8_t *memory,
                                 size_t memory_length);

/* Checks a straight-through module before it is placed: as cc100_check, with two rules more. No word is JR or JALR, and every direct target is
   at least two words after its branch and not past the last bundle's start, but for a J to that start in the last word but one; and the last
   bundle is SYSCALL with code 0, a zero word, J to its own start, a zero word. Started by cc100_start for the same layout, memory length and image, such
   a module ends its first run in an exit where the budget is more than the number of its words less four. One that is refused by these two rules may still be accepted by cc100_check.
   Refuses as cc100_check; also, at each word after 15, by CC100_REFUSED_STRAIGHT, and after 16 by CC100_REFUSED_LAST_BUNDLE, which names no
   word. */
cc100_verdict cc100_check_straight(uint64_t memory_length, uint32_t code_base, uint32_t code_size, uint32_t data_base, uint32_t data_size,
                                   const uint8_t *image, size_t image_length);

/* Starts a module that is placed: tries all that its confinement rests on, and makes the state ready for the first step. The length of the memory that
   is lent is the memory's length; the image may be lent as a part of it.
   Refuses, in this order: all by which cc100_check refuses, with their places; CC100_REFUSED_STATE, of the state as it is lent, its PC included;
   CC100_REFUSED_CODE_BYTES, where a byte of the code area is not that of the image; CC100_REFUSED_BASES, where register 26 is not the data base or
   register 27 not the code base. The last three have no place.
   Answers CC100_DONE, and leaves PC at the code base, next PC four more, CC100_STATUS_USER set in the status, and all else of the state as it was,
   also the LL word and all other bits of the status. Image and memory are only read. */
cc100_verdict cc100_start(uint32_t code_base, uint32_t code_size, uint32_t data_base, uint32_t data_size, const uint8_t *image,
                          size_t image_length, uint8_t *state, size_t state_length, const uint8_t *memory, size_t memory_length);

/* Takes one step: runs the instruction at PC.
   Refuses, in this order: CC100_REFUSED_MEMORY, CC100_REFUSED_STATE.
   Answers CC100_DONE and the access, and leaves the next state and the memory as the instruction leaves it; or the exit, 40 to 52, that the
   step ends in, and leaves state and memory as they were. */
cc100_stepped cc100_step(uint8_t *state, size_t state_length, uint8_t *memory, size_t memory_length);

/* Takes steps until `budget` of them are completed or one ends in an exit.
   Refuses, in this order: CC100_REFUSED_MEMORY, CC100_REFUSED_STATE; `steps` is then 0. It does so with budget 0 too.
   Answers CC100_DONE where the budget is spent and the module still running, also where the step after that would exit; or the exit, 40
   to 52. `steps` are the steps completed, without the one that exits, and the access is the last of theirs. Leaves the state and memory that
   those steps reached: after an exit, PC is at the instruction that exits. */
cc100_ran cc100_run(uint8_t *state, size_t state_length, uint8_t *memory, size_t memory_length, uint32_t budget);

/* Moves a state past the instruction whose step ends in CC100_EXIT_INTEGER_OVERFLOW, _SYSTEM_CALL, _BREAKPOINT or _TRAP.
   Refuses, in this order: CC100_REFUSED_MEMORY, CC100_REFUSED_STATE, CC100_REFUSED_RESUME.
   Answers CC100_DONE, and leaves PC at the former next PC, next PC four more (wrapping at 2^32), the LL word 0 and all else as it was.
   Memory is only read. It looks at the state as it is now: where a host has changed a register so that the instruction no longer exits,
   the answer is CC100_REFUSED_RESUME, and the next step or run executes it. */
uint32_t cc100_resume(uint8_t *state, size_t state_length, const uint8_t *memory, size_t memory_length);

/* Reads a word. Any word is taken; one that is no instruction gives all zeros. */
cc100_instruction cc100_read(uint32_t word);

/* Writes the word of an instruction. Refuses, by CC100_REFUSED_INSTRUCTION, a kind that is not 1 to 72, a field that does not fit its
   place in the word, a control register other than 8, 12, 13 and 14, and a field that is not 0 where the kind does not have it. */
cc100_written cc100_write(uint32_t kind, uint32_t rs, uint32_t rt, uint32_t rd, uint32_t shift, uint32_t value);

/* Gives an area of `size` bytes: at the lowest base that is a multiple of the size and where the area overlaps none that is out.
   Refuses, in this order: CC100_REFUSED_CODE_SIZE, a size that is not a power of two from 16 to 65,536; CC100_REFUSED_RECORD, a record that is
   not sound; CC100_REFUSED_NO_SPACE, exactly where a sound record has no such base.
   Answers CC100_DONE and the base, and leaves the record as it was but for the byte of that base, which becomes the power of the size. As
   an area for code or for data it breaks none of the checker's rules 2 to 5, in every memory of CC100_KEEPER_MEMORY bytes or more. To give an area and
   take it back leaves the record byte for byte as it was. */
cc100_allocated cc100_allocate(uint8_t *record, size_t record_length, uint32_t size);

/* Takes back an area, which is free again.
   Refuses, in this order: CC100_REFUSED_CODE_SIZE, as above; CC100_REFUSED_RECORD, a record that is not sound, or an area of this base and this
   size that is not out, also where the base is no multiple of 16 or past the memory.
   Answers CC100_DONE, and leaves the record as it was but for the byte of that base, which becomes 0. */
uint32_t cc100_release(uint8_t *record, size_t record_length, uint32_t base, uint32_t size);

#ifdef __cplusplus
}
#endif

#endif

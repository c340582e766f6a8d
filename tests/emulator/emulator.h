/* A second CC100-C machine, reader, writer, checker and keeper of areas, written from documents 004 and 01 and tickets 1, 2 and 4 to 8 of document
   02 alone. It shares nothing with the product: neither its Rattle sources nor its C header. It is meant to be read beside the documents, not to
   be fast.

   The numbers that it gives are those of documents 01 and 02: 0 for done, 1 to 27 for refusals, 40 to 52 for exits. */
#ifndef EMULATOR_H
#define EMULATOR_H

#include <stddef.h>
#include <stdint.h>

#define EM_KINDS 72
#define EM_STATE_LENGTH 164
#define EM_NO_PLACE 0xFFFFFFFFu

/* An instruction. `kind` is its place in section 1.2 of document 004, 1 to 72; 0 is no instruction. Fields that it does not have are 0.
   `value` is the constant, offset, jump index, code or stype as it stands in the word. */
struct em_instruction {
    uint32_t kind, rs, rt, rd, shift, value;
};

const char *em_name(uint32_t kind);
struct em_instruction em_read(uint32_t word);
uint32_t em_write(struct em_instruction i, uint32_t *word); /* 0, or 18 and the word 0 */

/* The access of a step: `width` bytes at `address`, and `store` is 1 for a store and 0 for a load. No access is three zeros. */
struct em_access {
    uint32_t address, width, store;
};

/* The calls, on a state of 164 bytes and on memory. A refusal and an exit leave both as they were. The access is the one that the step
   completed, or the last one that the run did. */
uint32_t em_step(uint8_t *state, size_t state_length, uint8_t *memory, size_t memory_length, struct em_access *access);
uint32_t em_run(uint8_t *state, size_t state_length, uint8_t *memory, size_t memory_length, uint32_t budget, uint32_t *steps,
                struct em_access *access);
uint32_t em_resume(uint8_t *state, size_t state_length, const uint8_t *memory, size_t memory_length);

/* What the step of a state tries, as document 01 says under demand 3: the address that it fetches four bytes from, and where its word is an
   access, the address and the width in bytes; width 0 is no access. */
struct em_tried {
    uint32_t fetch, address, width;
};
struct em_tried em_tried(const uint8_t *state, const uint8_t *memory, size_t memory_length);

/* A module and where it is to run. */
struct em_module {
    uint64_t memory_length;
    uint32_t code_base, code_size, data_base, data_size;
    const uint8_t *image;
    size_t image_length;
};

/* The checker, and the same with the profile for straight-through modules: 0 or the refusal, and its place or EM_NO_PLACE. */
typedef uint32_t em_checker(const struct em_module *m, uint32_t *place);
em_checker em_check, em_check_straight;
void em_print_verdict(em_checker *checker, const struct em_module *m); /* as the verdict program's line */

/* The start of a module that is placed in memory of its memory length: 0, or the refusal, and then the state is left as it was. The place is
   EM_NO_PLACE, or that of the checker. */
uint32_t em_start(const struct em_module *m, uint8_t *state, size_t state_length, const uint8_t *memory, uint32_t *place);

/* Every rule of 1 to 16, 22 and 25 that the module breaks anywhere, whatever comes before it: bit n is set where rule n is broken. Words are
   those that lie whole in the image. The second has 20 and 21 too. */
uint32_t em_broken(const struct em_module *m);
uint32_t em_broken_straight(const struct em_module *m);

/* The keeper of areas: 0, or the refusal, 2, 23 or 24, and then the record is left as it was. The base is EM_NO_PLACE where none is given. */
uint32_t em_allocate(uint8_t *record, size_t record_length, uint32_t size, uint32_t *base);
uint32_t em_release(uint8_t *record, size_t record_length, uint32_t base, uint32_t size);

#endif

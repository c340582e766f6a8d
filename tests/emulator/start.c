/* The start of a module (ticket 8 of document 02). */
#include "machine.h"

#define DATA_BASE 26 /* the register that holds the data area's base */
#define CODE_BASE 27
#define USER 8 /* "Status from bit 0 up: current, previous, old interrupt enable; current, previous, old mode (1 user, 0 kernel)" */

/* "26 when a code byte differs from the image" */
static bool rule_26(const struct em_module *m, const uint8_t *memory)
{
    for (size_t place = 0; place < m->image_length; place++)
        if (memory[m->code_base + place] != m->image[place])
            return true;
    return false;
}

/* "27 when register 26 or 27 holds another value" */
static bool rule_27(const struct em_module *m, const uint8_t *state)
{
    struct machine s = em_state_of(state);
    return s.registers[DATA_BASE] != m->data_base || s.registers[CODE_BASE] != m->code_base;
}

/* "returns the given state with PC and next PC at the first two words and the current mode user" */
static void make_ready(const struct em_module *m, uint8_t *state)
{
    struct machine s = em_state_of(state);
    s.pc = m->code_base;
    s.next_pc = m->code_base + 4;
    s.status |= USER;
    em_put_state(state, &s);
}

/* "After all checker refusals it tries 17, then 26 [...], then 27". */
uint32_t em_start(const struct em_module *m, uint8_t *state, size_t state_length, const uint8_t *memory, uint32_t *place)
{
    uint32_t refusal = em_check(m, place);
    if (refusal == 0)
        refusal = em_refused(state, state_length, m->memory_length);
    if (refusal == 0 && rule_26(m, memory))
        refusal = 26;
    if (refusal == 0 && rule_27(m, state))
        refusal = 27;
    if (refusal == 0)
        make_ready(m, state);
    return refusal;
}

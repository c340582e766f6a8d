/* Runs and resumes (document 01, section Machine). */
#include "machine.h"

/* The exiting step is not counted. A budget that is spent is still running, answer 0. A step without an access keeps the one before it. */
uint32_t em_run(uint8_t *state, size_t state_length, uint8_t *memory, size_t memory_length, uint32_t budget, uint32_t *steps,
                struct em_access *access)
{
    uint32_t answer = em_refused(state, state_length, memory_length);
    *steps = 0;
    *access = (struct em_access){0, 0, 0};
    while (answer == 0 && *steps < budget) {
        struct em_access latest;
        answer = em_step(state, state_length, memory, memory_length, &latest);
        *steps += answer == 0;
        if (latest.width != 0)
            *access = latest;
    }
    return answer;
}

uint32_t em_resume(uint8_t *state, size_t state_length, const uint8_t *memory, size_t memory_length)
{
    uint32_t refusal = em_refused(state, state_length, memory_length);
    if (refusal != 0)
        return refusal;
    struct step s;
    uint32_t end = em_make_step(&s, state, memory, memory_length);
    if (end != INTEGER_OVERFLOW && end != SYSTEM_CALL && end != BREAKPOINT && end != TRAP)
        return 19;
    struct machine m = em_state_of(state);
    m.pc = m.next_pc;
    m.next_pc += 4;
    m.ll = 0;
    em_put_state(state, &m);
    return DONE;
}

/* The operations of document 004's groups 1.1.8, 1.1.10 and 1.1.11: exceptions, privileged instructions, SYNC. */
#include "machine.h"

/* Status from bit 0 up: three bits of interrupt enable, three of mode, seven of interrupt history; each from the newest to the oldest. */
#define CURRENT_MODE 0x0008u
#define STATUS_BITS 0x1FFFu

static bool kernel_mode(const struct step *s)
{
    return (s->next.status & CURRENT_MODE) == 0;
}

static uint32_t *control_register(struct machine *m, uint32_t number)
{
    switch (number) {
    case 8:
        return &m->bad_address;
    case 12:
        return &m->status;
    case 13:
        return &m->cause;
    default: /* 14 */
        return &m->return_address;
    }
}

static uint32_t move_control(struct step *s, struct em_instruction i)
{
    uint32_t *control = control_register(&s->next, i.rd), rt = s->next.registers[i.rt];
    if (!kernel_mode(s))
        return PRIVILEGED_DATA;
    if (i.kind == MFC0)
        return em_set_register(s, i.rt, *control);
    *control = i.rd == 12 ? rt & STATUS_BITS : rt;
    return DONE;
}

/* Section 1.2.40: in each of the three groups of bits, every bit takes the value of the next older one, and the oldest becomes 0. */
static uint32_t return_from_exception(struct step *s)
{
    uint32_t enable = s->next.status & 7, mode = s->next.status >> 3 & 7, history = s->next.status >> 6;
    if (!kernel_mode(s))
        return PRIVILEGED_INSTRUCTION;
    s->next.status = enable >> 1 | mode >> 1 << 3 | history >> 1 << 6;
    s->next.ll = 0;
    return DONE;
}

/* SYNC has nothing to do where no other core is. */
uint32_t em_system(struct step *s, struct em_instruction i)
{
    switch (i.kind) {
    case BREAK:
        return i.value == 15 ? BREAK_15 : BREAKPOINT;
    case SYSCALL:
        return i.value == 15 && kernel_mode(s) ? SYSCALL_15 : SYSTEM_CALL;
    case MFC0: case MTC0:
        return move_control(s, i);
    case RFE:
        return return_from_exception(s);
    default: /* SYNC */
        return DONE;
    }
}

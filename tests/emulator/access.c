/* The operations of document 004's groups 1.1.5 and 1.1.7: loads and stores. */
#include "machine.h"

/* The sum wraps at 2^32. */
uint32_t em_effective_address(const struct machine *m, struct em_instruction i)
{
    return m->registers[i.rs] + (uint32_t)em_signed_number(i.value, 16);
}

/* Aligned, and every byte inside memory. */
static bool valid(const struct step *s, uint32_t address, uint32_t width)
{
    return address % width == 0 && (uint64_t)address + width <= s->memory_length;
}

uint32_t em_load(struct step *s, struct em_instruction i)
{
    uint32_t address = em_effective_address(&s->next, i), width = em_access_width(i.kind);
    if (!valid(s, address, width))
        return LOAD;
    uint32_t bytes = em_little_endian(s->memory + address, width);
    s->access = (struct em_access){address, width, 0};
    bool extends_sign = i.kind != LBU && i.kind != LHU;
    if (i.kind == LL)
        s->next.ll = 1;
    return em_set_register(s, i.rt, extends_sign ? (uint32_t)em_signed_number(bytes, 8 * width) : bytes);
}

/* SC looks at the LL bit and never at the address that LL used; its own address must be valid even where it does not store, which is then no
   access. */
uint32_t em_store(struct step *s, struct em_instruction i)
{
    uint32_t address = em_effective_address(&s->next, i), width = em_access_width(i.kind);
    if (!valid(s, address, width))
        return STORE;
    if (i.kind == SC && s->next.ll == 0)
        return em_set_register(s, i.rt, 0);
    s->access = (struct em_access){address, width, 1};
    s->value = s->next.registers[i.rt];
    if (i.kind != SC)
        return DONE;
    s->next.ll = 0;
    return em_set_register(s, i.rt, 1);
}

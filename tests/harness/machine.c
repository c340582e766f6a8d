/* Random numbers, state and memory as they are lent, and the calls on them. */
#include <stdio.h>
#include <stdlib.h>
#include <string.h>

#include "harness.h"

static uint64_t random_row;

void seed_random(uint64_t seed) { random_row = seed; }

static uint64_t random_64(void)
{
    uint64_t x = random_row += 0x9E3779B97F4A7C15u;
    x = (x ^ x >> 30) * 0xBF58476D1CE4E5B9u;
    x = (x ^ x >> 27) * 0x94D049BB133111EBu;
    return x ^ x >> 31;
}

uint32_t next_random(void) { return (uint32_t)(random_64() >> 32); }
uint32_t below(uint32_t end) { return (uint32_t)((uint64_t)next_random() * end >> 32); }

uint32_t random_value(size_t memory_length)
{
    static const uint32_t edges[] = {0, 1, 2, 3, 4, 31, 32, 0x7FFF, 0x8000, 0xFFFF, 0x7FFFFFFF, 0x80000000, 0xFFFFFFFE, 0xFFFFFFFF};
    switch (below(4)) {
    case 0: return PICK(edges);
    case 1: return next_random();
    case 2: return below((uint32_t)memory_length + 1);
    default: return below((uint32_t)memory_length / 4 + 1) * 4;
    }
}

struct lent room_for(size_t most)
{
    uint8_t *room = calloc(1, most + 2 * GUARD);
    if (!room) {
        perror("memory for the harness");
        exit(2);
    }
    struct lent l = {room + GUARD, most};
    set_length(&l, most);
    return l;
}

void set_length(struct lent *l, size_t length)
{
    l->length = length;
    memset(l->bytes - GUARD, 0xA5, GUARD);
    memset(l->bytes + length, 0x5A, GUARD);
}

void fill_random(struct lent *l)
{
    size_t i = 0;
    for (; i + 8 <= l->length; i += 8) {
        uint64_t x = random_64();
        memcpy(l->bytes + i, &x, 8);
    }
    for (; i < l->length; i++)
        l->bytes[i] = (uint8_t)next_random();
}

void copy_lent(struct lent *to, const struct lent *from)
{
    to->length = from->length;
    memcpy(to->bytes - GUARD, from->bytes - GUARD, from->length + 2 * GUARD);
}

struct machine machine_for(size_t most_memory)
{
    struct machine m = {room_for(MOST_STATE), room_for(most_memory)};
    set_length(&m.state, CC100_STATE_LENGTH);
    return m;
}

void give_back(struct machine *m)
{
    free(m->state.bytes - GUARD);
    free(m->memory.bytes - GUARD);
}

void copy_machine(struct machine *to, const struct machine *from)
{
    copy_lent(&to->state, &from->state);
    copy_lent(&to->memory, &from->memory);
}

void same_machine(const struct machine *expected, const struct machine *came)
{
    same_lent("state", &expected->state, &came->state);
    same_lent("memory", &expected->memory, &came->memory);
}

uint32_t state_word(const struct machine *m, uint32_t place) { return cc100_get_word(m->state.bytes + place); }
void set_state(struct machine *m, uint32_t place, uint32_t word) { cc100_set_word(m->state.bytes + place, word); }
void set_memory(struct machine *m, uint32_t address, uint32_t word) { cc100_set_word(m->memory.bytes + address, word); }

void random_state(struct machine *m)
{
    uint32_t pc = below((uint32_t)m->memory.length / 4 + 1) * 4;
    for (uint32_t place = CC100_REGISTER(1); place < CC100_STATE_LENGTH; place += 4)
        set_state(m, place, random_value(m->memory.length));
    set_state(m, CC100_REGISTER(0), 0);
    set_state(m, CC100_LL, below(2));
    set_state(m, CC100_STATUS, next_random() & 0x1FFF);
    set_state(m, CC100_PC, pc);
    set_state(m, CC100_NEXT_PC, below(4) ? pc + 4 : random_value(m->memory.length) & ~3u);
}

static void same_access(struct em_access expected, struct em_access came)
{
    same_number("address of the access", expected.address, came.address);
    same_number("width of the access", expected.width, came.width);
    same_number("store of the access", expected.store, came.store);
}

/* The access of what completes no step is none, whatever the emulator says. */
static struct em_access completed_by(uint32_t steps, struct em_access access)
{
    return steps ? access : (struct em_access){0, 0, 0};
}

void same_stepped(uint32_t number, struct em_access access, cc100_stepped came)
{
    same_number("number", number, came.number);
    same_access(access, (struct em_access){came.address, came.width, came.store});
}

void same_ran(uint32_t number, uint32_t steps, struct em_access access, cc100_ran came)
{
    same_number("number", number, came.number);
    same_number("steps", steps, came.steps);
    same_access(access, (struct em_access){came.address, came.width, came.store});
}

uint32_t compare_step(struct machine *emulator, struct machine *product, struct em_access *access)
{
    const struct lent *s = &product->state, *m = &product->memory;
    uint32_t number = em_step(emulator->state.bytes, s->length, emulator->memory.bytes, m->length, access);
    now.call = "em_step";
    same_access(completed_by(number == CC100_DONE, *access), *access);
    now.call = "cc100_step";
    same_stepped(number, *access, cc100_step(s->bytes, s->length, m->bytes, m->length));
    same_machine(emulator, product);
    return number;
}

uint32_t compare_run(struct machine *emulator, struct machine *product, uint32_t budget, uint32_t *steps, struct em_access *access)
{
    const struct lent *s = &product->state, *m = &product->memory;
    uint32_t number = em_run(emulator->state.bytes, s->length, emulator->memory.bytes, m->length, budget, steps, access);
    now.call = "em_run";
    same_access(completed_by(*steps, *access), *access);
    now.call = "cc100_run";
    same_ran(number, *steps, *access, cc100_run(s->bytes, s->length, m->bytes, m->length, budget));
    same_machine(emulator, product);
    return number;
}

void count_handed_on(struct handed_on *h, uint32_t number, uint32_t steps, struct em_access access, int in_last_step)
{
    h->none += steps > 0 && access.width == 0;
    h->before_exit += number != CC100_DONE && access.width != 0;
    h->earlier += access.width != 0 && !in_last_step;
}

void require_handed_on(const struct handed_on *h, uint64_t least)
{
    at_least("runs whose steps had no access", least, h->none);
    at_least("runs with an access and then an exit", least, h->before_exit);
    at_least("runs whose last access was before their last step", least, h->earlier);
}

uint32_t compare_resume(struct machine *emulator, struct machine *product)
{
    const struct lent *s = &product->state, *m = &product->memory;
    uint32_t number = em_resume(emulator->state.bytes, s->length, emulator->memory.bytes, m->length);
    now.call = "cc100_resume";
    same_number("number", number, cc100_resume(s->bytes, s->length, m->bytes, m->length));
    same_machine(emulator, product);
    return number;
}

void compare_plain_run(struct machine *plain, const struct machine *emulator, uint32_t budget, uint32_t number, uint32_t steps)
{
    struct plain_state s = plain_state_of(plain->state.bytes);
    now.call = "plain_run";
    uint32_t came_steps, came = plain_run(&s, plain->memory.bytes, plain->memory.length, budget, &came_steps);
    plain_state_to(&s, plain->state.bytes);
    same_number("number", number, came);
    same_number("steps", steps, came_steps);
    same_machine(emulator, plain);
}

uint32_t division_by_zero(const struct machine *m)
{
    uint64_t pc = state_word(m, CC100_PC);
    if (pc + 4 > m->memory.length)
        return 0;
    struct em_instruction i = em_read(cc100_get_word(m->memory.bytes + pc));
    return (i.kind == DIV || i.kind == DIVU) && state_word(m, CC100_REGISTER(i.rt)) == 0 ? i.kind : 0;
}

void require_divisions(const unsigned long *by_zero, uint64_t least)
{
    at_least("DIV by zero", least, by_zero[DIV]);
    at_least("DIVU by zero", least, by_zero[DIVU]);
}

int allowed(uint32_t exit)
{
    return exit == CC100_EXIT_INTEGER_OVERFLOW || (exit >= CC100_EXIT_SYSTEM_CALL && exit <= CC100_EXIT_TRAP);
}

/* Single steps of each kind with edge operands, and random ones. */
#include "harness.h"

#define RANDOM_STEPS 1000000
#define MOST_MEMORY 96
#define LEAST_OF_A_KIND 5000
#define LEAST_COMPLETED 500
#define LEAST_OF_AN_EXIT 500

static struct machine emulator, product, plain;
static unsigned long steps, tried[KINDS + 1], completed[KINDS + 1], ended[CC100_EXIT_STOP_CORES + 1];
static unsigned long carried[KINDS + 1], bare[KINDS + 1]; /* completed steps with an access and without, by the kind at PC */
static unsigned long edges_by_zero[KINDS + 1], random_by_zero[KINDS + 1]; /* completed divisions by zero; kind 0 is all other steps */

/* Values of the two source registers. The last ten are counted from the end of memory. */
static const uint32_t values[] = {
    0, 1, 2, 3, 4, 5, 31, 32, 0x7FFF, 0x8000, 0xFFFF, 0x10000, 0x7FFFFFFF, 0x80000000, 0x80000001, 0xFFFFFFFE, 0xFFFFFFFF,
    (uint32_t)-8, (uint32_t)-5, (uint32_t)-4, (uint32_t)-3, (uint32_t)-2, (uint32_t)-1, 0, 1, 2, 4
};
#define VALUES COUNT(values)
#define FROM_END 10

static uint32_t edge_value(uint32_t which)
{
    return which < VALUES - FROM_END ? values[which] : values[which] + (uint32_t)emulator.memory.length;
}

/* The edges of a kind's constant, code or shift, as they stand in its word. */
struct edges {
    uint32_t field, count, values[16];
};
static const struct edges edges[] = {
    {CONSTANT, 14, {0, 1, 2, 3, 4, 5, 0x7FFC, 0x7FFF, 0x8000, 0x8001, 0xFFF8, 0xFFFC, 0xFFFE, 0xFFFF}},
    {INDEX, 7, {0, 1, 4, 0x3FF, 0x2000000, 0x3FFFFFE, 0x3FFFFFF}},
    {CODE, 9, {0, 1 << 6, 14 << 6, 15 << 6, 16 << 6, 31 << 6, 0x2F << 6, 0x8000F << 6, 0xFFFFF << 6}},
    {TRAP_CODE, 4, {0, 1 << 6, 15 << 6, 0x3FF << 6}},
    {SHIFT, 9, {0, 1 << 6, 2 << 6, 4 << 6, 8 << 6, 15 << 6, 16 << 6, 30 << 6, 31 << 6}},
    {0, 1, {0}},
};

static const struct edges *edges_of(uint32_t kind)
{
    const struct drawing *d = &drawings[kind - 1];
    const struct edges *e = edges;
    while (e->field && e->field != (d->value | d->shift))
        e++;
    return e;
}

/* Registers rs, rt and rd: all others, coinciding, zero and the link. */
static const uint32_t registers[][3] = {
    {5, 6, 7}, {5, 5, 7}, {5, 6, 5}, {5, 6, 6}, {5, 5, 5}, {0, 6, 7}, {5, 0, 7}, {0, 0, 7}, {5, 6, 0}, {5, 6, 31}, {31, 6, 7}, {5, 31, 7},
    {31, 31, 31}
};

/* PC is mostly at a word of memory, often the last, and sometimes outside. Next PC is often another than PC + 4: PC is in a slot. */
static void place_word(uint32_t word)
{
    static const uint32_t outside[] = {0, 4, 0xFFFFFFFC, 0x80000000, 0x00FFFFFC};
    struct machine *m = &emulator;
    uint32_t whole = (uint32_t)m->memory.length / 4, at = 4 * (below(3) ? below(whole) : whole - 1);
    set_memory(m, at, word);
    if (below(64) == 0)
        at = below(2) ? 4 * whole : PICK(outside);
    set_state(m, CC100_PC, at);
    set_state(m, CC100_NEXT_PC, below(2) ? at + 4 : below(2) ? PICK(outside) : next_random() & ~3u);
}

/* Lengths that end inside a word are as likely as others. */
static void surroundings(void)
{
    set_length(&emulator.memory, MOST_MEMORY - below(64));
    fill_random(&emulator.memory);
    random_state(&emulator);
}

/* Takes the step by all three. Gives the emulator's answer. */
static uint32_t take_step(struct em_access *access)
{
    copy_machine(&product, &emulator);
    copy_machine(&plain, &emulator);
    uint32_t number = compare_step(&emulator, &product, access);
    struct plain_state s = plain_state_of(plain.state.bytes);
    now.call = "plain_step";
    same_number("number", number, plain_step(&s, plain.memory.bytes, plain.memory.length));
    plain_state_to(&s, plain.state.bytes);
    same_machine(&emulator, &plain);
    return number;
}

/* PC can be at another word than the one that was placed. */
static uint32_t kind_at_pc(void)
{
    uint64_t pc = state_word(&emulator, CC100_PC);
    return pc + 4 <= emulator.memory.length ? em_read(cc100_get_word(emulator.memory.bytes + pc)).kind : 0;
}

/* The access that a completed step carries is of its kind. */
static void count_access(uint32_t kind, struct em_access access)
{
    if (access.width == 0) {
        bare[kind]++;
        return;
    }
    now.call = "em_step";
    same_number("width of the kind", (uint64_t)access_width(kind), access.width);
    same_number("store of the kind", (uint64_t)is_store(kind), access.store);
    carried[kind]++;
}

/* Places the word in what surroundings have been made, and takes its step. Gives the kind of a division by zero that it completed, or 0. */
static uint32_t try_word(uint32_t word)
{
    uint32_t kind = em_read(word).kind;
    struct em_access access;
    now.turn = steps++;
    now.name = kind ? em_name(kind) : "word";
    now.word = word;
    place_word(word);
    uint32_t at_pc = kind_at_pc(), by_zero = division_by_zero(&emulator), number = take_step(&access);
    tried[kind]++;
    completed[kind] += number == 0;
    if (number == 0)
        count_access(at_pc, access);
    if (number <= CC100_EXIT_STOP_CORES)
        ended[number]++;
    return number == 0 ? by_zero : 0;
}

/* One kind with one pair of values and all its edges and registers. */
static void product_of(uint32_t kind, uint32_t first, uint32_t second)
{
    const struct edges *e = edges_of(kind);
    for (uint32_t i = 0; i < e->count * COUNT(registers); i++) {
        const uint32_t *r = registers[i / e->count];
        uint32_t control = (uint32_t[]){8, 12, 13, 14}[below(4)], rd = control_register(kind) ? control : r[2];
        surroundings();
        set_state(&emulator, CC100_REGISTER(r[0]), r[0] ? edge_value(first) : 0);
        set_state(&emulator, CC100_REGISTER(r[1]), r[1] ? edge_value(second) : 0);
        edges_by_zero[try_word(word_of(kind, r[0], r[1], rd, 0) | e->values[i % e->count])]++;
    }
}

/* Every pair of values for every kind. */
static void product_of_edges(void)
{
    for (uint32_t i = 0; i < KINDS * VALUES * VALUES; i++)
        product_of(1 + i % KINDS, i / KINDS % VALUES, i / KINDS / (uint32_t)VALUES);
}

/* Any registers and constants; some words damaged in a bit. */
static void random_steps(void)
{
    for (uint64_t i = 0; i < (uint64_t)RANDOM_STEPS * rounds; i++) {
        uint32_t word = random_word_of(1 + below(KINDS));
        surroundings();
        random_by_zero[try_word(below(8) ? word : word ^ 1u << below(32))]++;
    }
}

/* Every completed step of an access carries it, but for SC. */
static void require_accesses(uint32_t kind)
{
    at_least("steps of the kind that carry an access", access_width(kind) ? LEAST_COMPLETED : 0, carried[kind]);
    if (kind == SC)
        at_least("SC that do not store", LEAST_COMPLETED, bare[SC]);
    else if (access_width(kind))
        same_number("completed steps of the kind that carry none", 0, bare[kind]);
}

static void require_counts(void)
{
    for (uint32_t kind = 1; kind <= KINDS; kind++) {
        int never = kind == BREAK || kind == SYSCALL;
        now.name = em_name(kind);
        at_least("steps of the kind", LEAST_OF_A_KIND, tried[kind]);
        at_least("steps of the kind completed", never ? 0 : LEAST_COMPLETED, completed[kind]);
        require_accesses(kind);
    }
    now.name = "exit";
    for (now.word = CC100_EXIT_INTEGER_OVERFLOW; now.word <= CC100_EXIT_STOP_CORES; now.word++)
        at_least("steps that end in it", LEAST_OF_AN_EXIT, ended[now.word]);
    now.name = "edge operands";
    require_divisions(edges_by_zero, LEAST_COMPLETED);
    now.name = "random registers";
    require_divisions(random_by_zero, LEAST_COMPLETED);
    at_least("steps", 3000000, steps);
}

void test_steps(void)
{
    begin_part("steps");
    emulator = machine_for(MOST_MEMORY);
    product = machine_for(MOST_MEMORY);
    plain = machine_for(MOST_MEMORY);
    product_of_edges();
    random_steps();
    require_counts();
    end_part("%lu steps of 72 kinds, %lu completed; exits 40 to 52:%s; accesses carried: LB %lu, LBU %lu, LH %lu, LHU %lu, LW %lu, LL %lu, "
             "SB %lu, SH %lu, SW %lu, SC %lu, SC that do not store %lu; DIV by zero %lu, DIVU %lu, with random registers %lu and %lu",
             steps, ended[0], listed(ended, 40, 52), carried[LB], carried[LBU], carried[LH], carried[LHU], carried[LW], carried[LL],
             carried[SB], carried[SH], carried[SW], carried[SC], bare[SC], edges_by_zero[DIV], edges_by_zero[DIVU], random_by_zero[DIV],
             random_by_zero[DIVU]);
}

/* Accepted modules are confined, whatever list of calls they get after a start: the product beside the emulator, and a twin whose memory differs
   outside code and data. The emulator's module is started by hand, as demand 3 says, and the other two by the call. What each step tries is looked at
   before the emulator takes it, and the access that an answer carries after it. */
#include <string.h>

#include "harness.h"

#define MODULES 120000
#define CALLS 60           /* for one module */
#define LARGE 2000         /* one module of so many has a memory of any length */
#define CALLS_IN_LARGE 6   /* comparing such a memory takes long */
#define MOST_MEMORY 4096   /* outside code and data, for the others */
#define MOST_SPENT 8       /* runs that spend their budget, one after the other, before a module that only loops is left */
#define LEAST 2000         /* times that everything counted has to happen */
#define LEAST_STEPS 1000000

static struct module m;
static struct machine emulator, product, twin;
static struct lent began, twin_began; /* memory as it was at the start */

static struct counts {
    unsigned long modules, calls, steps, accesses[KINDS + 1], first, last, exits[CC100_EXIT_STOP_CORES + 1];
    unsigned long resumed, refused, changes, jumps[2], spent, carried[KINDS + 1], not_stored, by_zero[KINDS + 1];
    struct handed_on handed_on;
} counts;
static uint32_t spent_in_a_row; /* runs since the last exit */

/* The bytes of an area in two memories. */
static void same_area(const char *what, const struct lent *expected, const struct lent *came, uint32_t base, size_t size)
{
    same_bytes(what, expected->bytes + base, came->bytes + base, size);
}

static void same_outside_data(const struct lent *expected, const struct lent *came)
{
    uint32_t end = m.data_base + m.data_size;
    same_area("memory below the data, since the start", expected, came, 0, m.data_base);
    same_area("memory above the data, since the start", expected, came, end, (size_t)m.memory_length - end);
}

/* After every call, what the product and its twin have left. */
static void compare_left(const char *call)
{
    counts.calls++;
    now.call = call;
    same_machine(&emulator, &product);
    same_outside_data(&began, &product.memory);
    same_lent("state of the twin", &emulator.state, &twin.state);
    same_area("data of the twin", &emulator.memory, &twin.memory, m.data_base, m.data_size);
    same_outside_data(&twin_began, &twin.memory);
}

static void count_access(struct em_tried tried, uint32_t kind)
{
    counts.accesses[kind]++;
    counts.first += tried.address == m.data_base;
    counts.last += tried.address + tried.width == m.data_base + m.data_size;
}

static void require_in_data(const char *what, uint64_t address, uint32_t width)
{
    int in_data = address >= m.data_base && address + width <= (uint64_t)m.data_base + m.data_size;
    same_number(what, 1, (uint64_t)(width == 0 || in_data));
}

/* Document 01's words on what a step tries: its fetch is from the code, its access in the data. Gives the kind of its word. */
static uint32_t look_at_step(struct em_tried *tried)
{
    *tried = em_tried(emulator.state.bytes, emulator.memory.bytes, emulator.memory.length);
    uint64_t fetch = tried->fetch;
    int in_code = fetch >= m.code_base && fetch + 4 <= (uint64_t)m.code_base + m.code_size;
    now.call = "step tried";
    same_number("fetch is from the code", 1, (uint64_t)in_code);
    require_in_data("access is in the data", tried->address, tried->width);
    counts.steps++;
    if (!in_code)
        return 0;
    uint32_t kind = em_read(cc100_get_word(emulator.memory.bytes + tried->fetch)).kind;
    if (tried->width)
        count_access(*tried, kind);
    if (kind == JR || kind == JALR)
        counts.jumps[kind == JR]++;
    return kind;
}

/* A completed step carries the access that it tried; only SC may carry none. */
static void look_at_access(const struct em_tried *tried, uint32_t kind, struct em_access access)
{
    if (kind == SC && access.width == 0) {
        counts.not_stored++;
        return;
    }
    same_number("address of the access tried", tried->address, access.address);
    same_number("width of the access tried", tried->width, access.width);
    counts.carried[kind] += access.width != 0;
}

/* Gives the emulator's answer to a step. */
static uint32_t look_and_step(struct em_access *access)
{
    struct em_tried tried;
    uint32_t kind = look_at_step(&tried);
    if (kind == DIV || kind == DIVU)
        counts.by_zero[division_by_zero(&emulator)]++;
    uint32_t number = em_step(emulator.state.bytes, emulator.state.length, emulator.memory.bytes, emulator.memory.length, access);
    now.call = "em_step";
    if (number == CC100_DONE) {
        look_at_access(&tried, kind, *access);
        return number;
    }
    same_number("exit is allowed", 1, (uint64_t)allowed(number));
    if (number <= CC100_EXIT_STOP_CORES)
        counts.exits[number]++;
    return number;
}

static void compare_stepped(struct machine *x, uint32_t number, struct em_access access)
{
    now.call = x == &twin ? "cc100_step of the twin" : "cc100_step";
    cc100_stepped stepped = cc100_step(x->state.bytes, x->state.length, x->memory.bytes, x->memory.length);
    same_stepped(number, access, stepped);
    require_in_data("access carried is in the data", stepped.address, stepped.width);
}

static void call_step(void)
{
    struct em_access access;
    uint32_t number = look_and_step(&access);
    compare_stepped(&product, number, access);
    compare_stepped(&twin, number, access);
    compare_left("cc100_step");
}

static void compare_ran(struct machine *x, uint32_t budget, uint32_t number, uint32_t steps, struct em_access access)
{
    now.call = x == &twin ? "cc100_run of the twin" : "cc100_run";
    cc100_ran ran = cc100_run(x->state.bytes, x->state.length, x->memory.bytes, x->memory.length, budget);
    same_ran(number, steps, access, ran);
    require_in_data("access carried is in the data", ran.address, ran.width);
}

/* Takes the steps of a run by the emulator. Gives the number that they end with. */
static uint32_t take_steps(uint32_t budget, uint32_t *steps, struct em_access *access)
{
    uint32_t number = CC100_DONE;
    struct em_access latest = {0, 0, 0}, of_step;
    *access = latest;
    for (*steps = 0; *steps < budget && (number = look_and_step(&of_step)) == CC100_DONE; ++*steps) {
        latest = of_step;
        if (latest.width != 0)
            *access = latest;
    }
    count_handed_on(&counts.handed_on, number, *steps, *access, latest.width != 0);
    return number;
}

/* A run that exits is the same under every larger budget, so that the largest can be tried. */
static void call_run(void)
{
    uint32_t budget = below(8) ? below(40) : below(400), steps;
    struct em_access access;
    uint32_t number = take_steps(budget, &steps, &access);
    if (number != CC100_DONE && below(4) == 0)
        budget = UINT32_MAX;
    counts.spent += number == CC100_DONE;
    spent_in_a_row = number == CC100_DONE ? spent_in_a_row + 1 : 0;
    compare_ran(&product, budget, number, steps, access);
    compare_ran(&twin, budget, number, steps, access);
    compare_left("cc100_run");
}

static uint32_t resume_of(struct machine *x)
{
    return cc100_resume(x->state.bytes, x->state.length, x->memory.bytes, x->memory.length);
}

static void call_resume(void)
{
    struct em_tried tried;
    look_at_step(&tried);
    uint32_t number = em_resume(emulator.state.bytes, emulator.state.length, emulator.memory.bytes, emulator.memory.length);
    now.call = "cc100_resume";
    same_number("number", number, resume_of(&product));
    same_number("number of the twin", number, resume_of(&twin));
    compare_left("cc100_resume");
    counts.resumed += number == CC100_DONE;
    counts.refused += number == CC100_REFUSED_RESUME;
}

/* Whether the step of the state ends in an exit. A resume is given at each of the exits that are allowed, and changes a state only. */
static int at_exit(void)
{
    uint8_t state[CC100_STATE_LENGTH];
    memcpy(state, emulator.state.bytes, sizeof state);
    return em_resume(state, sizeof state, emulator.memory.bytes, emulator.memory.length) == CC100_DONE;
}

static void change_state(uint32_t place)
{
    uint32_t word = random_value(emulator.memory.length);
    set_state(&emulator, place, word);
    set_state(&product, place, word);
    set_state(&twin, place, word);
}

static void change_data(uint32_t address)
{
    uint8_t byte = (uint8_t)next_random();
    emulator.memory.bytes[address] = byte;
    product.memory.bytes[address] = byte;
    twin.memory.bytes[address] = byte;
}

/* What a host may change at an exit: registers 1 to 25 and 28 to 31, HI, LO and data bytes. */
static void change_by_host(void)
{
    for (uint32_t i = 1 + below(4); i > 0; i--) {
        uint32_t which = below(40), r = which < 25 ? 1 + which : which + 3;
        if (which < 29)
            change_state(CC100_REGISTER(r));
        else if (which < 32)
            change_state(which == 31 ? CC100_HI : CC100_LO);
        else
            change_data(m.data_base + (which == 32 ? m.data_size - 1 : below(m.data_size)));
    }
    counts.changes++;
}

/* At an exit mostly a resume or a change, else mostly a run; but any call may come anywhere. */
static void next_event(void)
{
    int exits = at_exit();
    uint32_t choice = below(16);
    if (exits && choice < 4)
        change_by_host();
    else if (exits ? choice < 13 : choice == 0)
        call_resume();
    else if (choice % 4 == 1)
        call_step();
    else
        call_run();
}

/* Memory outside code and data is other in the twin. */
static void start_twin(void)
{
    copy_machine(&twin, &emulator);
    fill_random(&twin.memory);
    memcpy(twin.memory.bytes + m.code_base, emulator.memory.bytes + m.code_base, m.code_size);
    memcpy(twin.memory.bytes + m.data_base, emulator.memory.bytes + m.data_base, m.data_size);
    copy_lent(&twin_began, &twin.memory);
}

static void start(uint32_t most_memory)
{
    make_accepted(&m, most_memory);
    same_number("number of an accepted module", CC100_DONE, compare_check(&m));
    start_module(&emulator, &m);
    copy_machine(&product, &emulator);
    copy_lent(&began, &emulator.memory);
    start_twin();
    start_by_call(&m, &product, &emulator);
    start_by_call(&m, &twin, &emulator);
}

static void try_module(int large)
{
    start(large ? CC100_LONGEST_MEMORY - 131072 : MOST_MEMORY);
    spent_in_a_row = 0;
    for (now.word = 0; now.word < (large ? CALLS_IN_LARGE : CALLS) && spent_in_a_row < MOST_SPENT; now.word++)
        next_event();
}

static void require_counts(void)
{
    now.name = "kind of access";
    for (now.word = 1; now.word <= KINDS; now.word++) {
        at_least("steps that try it", access_width(now.word) ? LEAST : 0, counts.accesses[now.word]);
        at_least("steps that carry it", access_width(now.word) ? LEAST : 0, counts.carried[now.word]);
    }
    now.name = "exit";
    for (now.word = CC100_EXIT_INTEGER_OVERFLOW; now.word <= CC100_EXIT_STOP_CORES; now.word++)
        at_least("steps that end in it", allowed(now.word) ? LEAST : 0, counts.exits[now.word]);
    now.name = "";
    at_least("steps tried", LEAST_STEPS, counts.steps);
    at_least("accesses of the first byte of data", LEAST, counts.first);
    at_least("accesses of the last byte of data", LEAST, counts.last);
    at_least("resumes given", LEAST, counts.resumed);
    at_least("resumes refused", LEAST, counts.refused);
    at_least("changes by the host", LEAST, counts.changes);
    at_least("JALR", LEAST, counts.jumps[0]);
    at_least("JR", LEAST, counts.jumps[1]);
    at_least("budgets spent", LEAST, counts.spent);
    at_least("SC that do not store", LEAST, counts.not_stored);
    require_divisions(counts.by_zero, LEAST);
    require_handed_on(&counts.handed_on, LEAST);
}

static unsigned long accesses_of(uint32_t width)
{
    unsigned long sum = 0;
    for (uint32_t kind = 1; kind <= KINDS; kind++)
        sum += (uint32_t)access_width(kind) == width ? counts.accesses[kind] : 0;
    return sum;
}

void test_confined(void)
{
    begin_part("confined modules");
    emulator = machine_for(CC100_LONGEST_MEMORY);
    product = machine_for(CC100_LONGEST_MEMORY);
    twin = machine_for(CC100_LONGEST_MEMORY);
    began = room_for(CC100_LONGEST_MEMORY);
    twin_began = room_for(CC100_LONGEST_MEMORY);
    for (; counts.modules < (uint64_t)MODULES * rounds; counts.modules++) {
        now.turn = counts.modules;
        now.name = "event";
        try_module(now.turn % LARGE == 0);
    }
    require_counts();
    end_part("%lu modules, %lu calls, %lu steps tried; accesses of width 1 %lu, 2 %lu, 4 %lu, at the first byte %lu, at the last %lu; "
             "register jumps %lu; exits 40 to 48:%s; resumes %lu given, %lu refused; changes by the host %lu; SC stored %lu, not %lu; runs "
             "without an access %lu, with one before an exit %lu, with one before the last step %lu; DIV by zero %lu, DIVU %lu",
             counts.modules, counts.calls, counts.steps, accesses_of(1), accesses_of(2), accesses_of(4), counts.first, counts.last,
             counts.jumps[0] + counts.jumps[1], listed(counts.exits, 40, 48), counts.resumed, counts.refused, counts.changes,
             counts.carried[SC], counts.not_stored, counts.handed_on.none, counts.handed_on.before_exit, counts.handed_on.earlier,
             counts.by_zero[DIV], counts.by_zero[DIVU]);
}

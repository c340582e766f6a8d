/* Straight-through modules finish: started as demand 3 says, they meet their first exit after at most four fewer completed steps than they have
   words, however the calls divide these steps. Resumed at every exit they come to their last bundle, and all their steps are not more. */
#include "harness.h"

#define MODULES 40000
#define OF_EACH_SIZE 50  /* one module of so many has a size in turn; the others are mostly small */
#define SIZES 13         /* 16 to 65,536 bytes */
#define MOST_STEPPED 256 /* words of a module that is stepped and resumed: each call is followed by a comparison of all memory */
#define MOST_MEMORY 4096 /* outside code and data */
#define LEAST 1000       /* times that everything counted has to happen */
#define LEAST_OF_A_SIZE 20

static struct module m;
static struct machine emulator, product;

static struct counts {
    unsigned long modules, sizes[SIZES], exits[CC100_EXIT_STOP_CORES + 1], runs, slices, calls, at_last, longest[SIZES], taken[KINDS + 1];
    unsigned long links, running, resumed;
} counts;

/* Of the steps that a module completes before its first exit, the most. */
static uint32_t most_steps(void) { return word_count(&m) - 4; }

static uint32_t size_index(void)
{
    uint32_t index = 0;
    while (16u << index < m.code_size)
        index++;
    return index;
}

static int at_last_bundle(void) { return state_word(&emulator, CC100_PC) == m.code_base + 4 * last_bundle(word_count(&m)); }

/* No step goes back, so that there are no more exits than words. */
static void resume_to_the_end(uint32_t steps)
{
    uint32_t more, exits = 0;
    struct em_access access;
    for (; !at_last_bundle() && exits < word_count(&m); exits++) {
        compare_resume(&emulator, &product);
        compare_run(&emulator, &product, UINT32_MAX, &more, &access);
        steps += more;
    }
    now.call = "the last exit";
    same_number("it is in the last bundle", 1, (uint64_t)at_last_bundle());
    same_number("all steps completed are not too many", 1, (uint64_t)(steps <= most_steps()));
    counts.resumed += exits;
}

static void look_at_exit(uint32_t number, uint32_t steps)
{
    now.call = "the first exit";
    same_number("it comes, and is allowed", 1, (uint64_t)allowed(number));
    same_number("steps completed are not too many", 1, (uint64_t)(steps <= most_steps()));
    if (number <= CC100_EXIT_STOP_CORES)
        counts.exits[number]++;
    counts.at_last += (unsigned long)at_last_bundle();
    counts.longest[size_index()] += steps == most_steps();
    if (word_count(&m) <= MOST_STEPPED)
        resume_to_the_end(steps);
}

/* A budget that is just enough for an exit, larger, or the largest. */
static void run_at_once(void)
{
    const uint32_t budgets[] = {most_steps() + 1, most_steps() + 1 + below(100), UINT32_MAX};
    struct em_access access;
    uint32_t steps, number = compare_run(&emulator, &product, PICK(budgets), &steps, &access);
    look_at_exit(number, steps);
    counts.runs++;
}

/* Budgets that the module may spend, one after the other; together they are soon above what it can complete. */
static void run_in_slices(void)
{
    uint32_t number = CC100_DONE, all = 0, budgets = 0, steps;
    struct em_access access;
    while (number == CC100_DONE && budgets <= most_steps()) {
        uint32_t budget = 1 + below(most_steps() + 1);
        number = compare_run(&emulator, &product, budget, &steps, &access);
        same_number("a budget is spent, or the run exits", number == CC100_DONE, steps == budget);
        all += steps;
        budgets += budget;
        counts.slices++;
        counts.running += number == CC100_DONE;
    }
    look_at_exit(number, all);
}

/* Among the first calls, one more than the steps, one ends in an exit. Branches that are taken lead ahead. */
static void step_by_step(void)
{
    uint32_t number = CC100_DONE, steps = 0;
    struct em_access access;
    for (uint32_t calls = 0; number == CC100_DONE && calls <= most_steps(); calls++) {
        uint32_t pc = state_word(&emulator, CC100_PC), kind = kind_at(&m, (pc - m.code_base) / 4);
        number = compare_step(&emulator, &product, &access);
        steps += number == CC100_DONE;
        counts.taken[kind] += branches(kind) && state_word(&emulator, CC100_NEXT_PC) > pc + 8;
        counts.links += kind == JAL || kind == BGEZAL || kind == BLTZAL;
        counts.calls++;
    }
    look_at_exit(number, steps);
}

/* No word exits before the last bundle, and every branch leads two words ahead, so that none is left out. */
static void put_longest(void)
{
    uint32_t last = last_bundle(word_count(&m));
    for (uint32_t at = 0; at < last; at++)
        if (at % 4 == 1)
            m.words[at] = to_word(&m, direct_word(), at, at + 2);
        else
            m.words[at] = word_of(ADDIU, random_register(0), random_register(1), 0, next_random());
}

static void make_of_size(uint32_t size)
{
    m = (struct module){2 * size + below(64), size, size, 0, 4, size, 1, {0}};
    make_words(&m, size / 4);
}

static void make_next(void)
{
    uint64_t turn = counts.modules / OF_EACH_SIZE;
    if (counts.modules % OF_EACH_SIZE == 0)
        make_of_size(16u << turn % SIZES);
    else
        make_straight(&m, MOST_MEMORY);
    if (counts.modules % OF_EACH_SIZE == 0 ? turn / SIZES % 2 : below(8) == 0)
        put_longest();
}

static void try_module(void)
{
    make_next();
    now.word = m.code_size;
    same_number("number of an accepted straight-through module", CC100_DONE, compare_check_straight(&m));
    same_number("number of the same module without the profile", CC100_DONE, compare_check(&m));
    start_module(&emulator, &m);
    copy_machine(&product, &emulator);
    start_by_call(&m, &product, &emulator);
    counts.sizes[size_index()]++;
    uint32_t choice = below(3);
    if (choice == 0)
        run_at_once();
    else if (choice == 1 || word_count(&m) > MOST_STEPPED)
        run_in_slices();
    else
        step_by_step();
}

static void require_counts(void)
{
    static const uint32_t exits[] = {
        CC100_EXIT_INTEGER_OVERFLOW, CC100_EXIT_SYSTEM_CALL, CC100_EXIT_BREAKPOINT, CC100_EXIT_TRAP
    };
    now.name = "size, 16 times 2 to the power of";
    for (now.word = 0; now.word < SIZES; now.word++) {
        at_least("modules", LEAST_OF_A_SIZE, counts.sizes[now.word]);
        at_least("modules that complete all steps that they can", LEAST_OF_A_SIZE, counts.longest[now.word]);
    }
    now.name = "kind";
    for (now.word = 1; now.word <= KINDS; now.word++)
        at_least("branches taken, further than two words", direct(now.word) ? LEAST / 10 : 0, counts.taken[now.word]);
    now.name = "exit";
    for (size_t i = 0; i < COUNT(exits); i++) {
        now.word = exits[i];
        at_least("modules whose first exit it is", LEAST, counts.exits[exits[i]]);
    }
    now.name = "";
    at_least("runs at once", LEAST, counts.runs);
    at_least("slices", LEAST, counts.slices);
    at_least("slices that are spent", LEAST, counts.running);
    at_least("single steps", LEAST, counts.calls);
    at_least("links", LEAST, counts.links);
    at_least("first exits in the last bundle", LEAST, counts.at_last);
    at_least("resumes on the way there", LEAST, counts.resumed);
}

void test_straight(void)
{
    begin_part("straight-through modules");
    emulator = machine_for(CC100_LONGEST_MEMORY);
    product = machine_for(CC100_LONGEST_MEMORY);
    now.name = "module, bytes of code";
    for (; counts.modules < (uint64_t)MODULES * rounds; counts.modules++) {
        now.turn = counts.modules;
        try_module();
    }
    require_counts();
    end_part("%lu modules, %lu run at once, in %lu slices or by %lu steps; first exits 40 to 48:%s, %lu of them at the last bundle's "
             "start, %lu resumes to get there",
             counts.modules, counts.runs, counts.slices, counts.calls, listed(counts.exits, 40, 48), counts.at_last, counts.resumed);
}

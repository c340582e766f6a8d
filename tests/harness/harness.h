/* What the parts of the harness share. It gives the same input to the product, the emulator and plain C, and compares what they do. */
#ifndef HARNESS_H
#define HARNESS_H

#include <stddef.h>
#include <stdint.h>

#include "cc100.h"
#include "drawings.h"
#include "emulator.h"
#include "plain.h"

/* How many times the random work is done. */
extern uint32_t rounds;

/* Random numbers, the same for the same seed. Each part starts its own row of them. */
void seed_random(uint64_t seed);
uint32_t below(uint32_t end);
#define COUNT(array) (sizeof(array) / sizeof(array)[0])
#define PICK(array) ((array)[below((uint32_t)COUNT(array))])
uint32_t random_value(size_t memory_length); /* an edge value, any value, or an address in the memory or just behind it */

/* What is compared now, printed with a difference: the turn of the part, a name and a word that tell what was tried, and the call. */
struct now {
    const char *part, *name, *call;
    uint64_t turn;
    uint32_t word;
};
extern struct now now;
void begin_part(const char *part);
void end_part(const char *format, ...) __attribute__((format(printf, 1, 2)));   /* prints the part's line */
const char *listed(const unsigned long *counts, uint32_t first, uint32_t last); /* a part of the line: counts from one index to another */

/* Each of these is one comparison. */
void same_number(const char *what, uint64_t expected, uint64_t came);
void same_bytes(const char *what, const uint8_t *expected, const uint8_t *came, size_t length);
void at_least(const char *what, uint64_t least, uint64_t came); /* so that a part cannot stop testing unseen */

/* Bytes that are lent to a call, with guard bytes before and behind them, which are compared too. */
#define GUARD 32
struct lent {
    uint8_t *bytes;
    size_t length;
};
struct lent room_for(size_t most);              /* ends the program where there is no room */
void set_length(struct lent *l, size_t length); /* at most what there is room for; the guard bytes are made anew */
void fill_random(struct lent *l);
void copy_lent(struct lent *to, const struct lent *from);
void same_lent(const char *what, const struct lent *expected, const struct lent *came);

/* The state and memory that one of the three works on. */
struct machine {
    struct lent state, memory;
};
#define MOST_STATE 170
struct machine machine_for(size_t most_memory); /* its state has 164 bytes, and room for MOST_STATE */
void give_back(struct machine *m);
void copy_machine(struct machine *to, const struct machine *from);
void same_machine(const struct machine *expected, const struct machine *came);
uint32_t state_word(const struct machine *m, uint32_t place);
void set_state(struct machine *m, uint32_t place, uint32_t word);
void set_memory(struct machine *m, uint32_t address, uint32_t word);
void random_state(struct machine *m); /* a lawful one at any PC; all registers have random values */

/* A step, run and resume of the product and of the emulator on their machines, compared in answer, access, state and memory. The answer and
   access that they give are the emulator's. */
uint32_t compare_step(struct machine *emulator, struct machine *product, struct em_access *access);
uint32_t compare_run(struct machine *emulator, struct machine *product, uint32_t budget, uint32_t *steps, struct em_access *access);
uint32_t compare_resume(struct machine *emulator, struct machine *product);

/* What a step and a run of the product carry, compared with the access that is expected. */
void same_stepped(uint32_t number, struct em_access access, cc100_stepped came);
void same_ran(uint32_t number, uint32_t steps, struct em_access access, cc100_ran came);

/* Runs by the access that they hand on: none though they completed steps, one before an exit, and one of a step before the last. */
struct handed_on {
    unsigned long none, before_exit, earlier;
};
void count_handed_on(struct handed_on *h, uint32_t number, uint32_t steps, struct em_access access, int in_last_step);
void require_handed_on(const struct handed_on *h, uint64_t least);

/* A run by plain C on its machine, compared with what the emulator has left and answered. */
void compare_plain_run(struct machine *plain, const struct machine *emulator, uint32_t budget, uint32_t number, uint32_t steps);

/* DIV or DIVU where the step of the state is such a division and its divisor is zero, else 0. */
uint32_t division_by_zero(const struct machine *m);
void require_divisions(const unsigned long *by_zero, uint64_t least); /* of both kinds, counted by these two numbers */

/* Whether an exit is one of the four that a module may end in. */
int allowed(uint32_t exit);

/* A module and where it is to run. There is room for words behind it, as images may be too long. */
#define MOST_WORDS 32768
struct module {
    uint64_t memory_length;
    uint32_t code_base, code_size, data_base, data_size;
    size_t image_length;
    int straight; /* its words are made for the profile for straight-through modules */
    uint32_t words[MOST_WORDS + 8];
};
void copy_module(struct module *to, const struct module *from);

/* An accepted module in a random layout, with at most so many bytes of memory outside code and data; and a straight-through one. And new words,
   `count` of them, for the layout that a module has: they keep rules 8 to 16, 22 and 25, also where the layout breaks one of 1 to 7. */
typedef void maker(struct module *m, uint32_t most_memory);
maker make_accepted, make_straight;
void make_words(struct module *m, uint32_t count);

/* Where the last bundle of so many words begins. */
uint32_t last_bundle(uint32_t count);

/* Words of modules. Registers that they write are never 26 or 27. */
uint32_t word_count(const struct module *m);
uint32_t kind_at(const struct module *m, uint32_t at);
int guarded(const struct module *m, uint32_t at);  /* an access, JR or JALR */
uint32_t random_register(uint32_t least);          /* any but 26 and 27 */
uint32_t random_access(uint32_t largest_width);    /* a kind */
uint32_t ordinary_word(void);                      /* an instruction that needs no guard, may stand anywhere and is no branch */
uint32_t word_with_registers(uint32_t kind);       /* a random word of the kind */
uint32_t direct_word(void);                        /* a branch or jump whose target is still to be chosen */
uint32_t to_word(const struct module *m, uint32_t word, uint32_t at, uint32_t target); /* the word with that target */
uint32_t largest_reach(uint32_t width, uint32_t size); /* the largest power of two up to the data's size that mask and width can be */
void put_access(struct module *m, uint32_t at, uint32_t kind);        /* three words: a fitting guard and the access */
void put_register_jump(struct module *m, uint32_t at, uint32_t kind); /* the same for JR or JALR */
void choose_targets(struct module *m, uint32_t count);                /* allowed ones, for all branches and jumps among the words */

/* A module is checked by the product, as an image and placed, by plain C and by the emulator, whose number is given. And the same for
   straight-through modules, as an image. */
typedef uint32_t comparison(const struct module *m);
comparison compare_check, compare_check_straight;
comparison broken_rules, broken_rules_straight; /* what em_broken and em_broken_straight say */

/* The usual rules, and the profile for straight-through modules: what makes an accepted module, and what says which rules any module breaks. */
struct profile {
    maker *make;
    em_checker *check;
    comparison *compare, *broken;
};
extern const struct profile usual, straight;

void write_image(const struct module *m, uint8_t *to);

/* The module placed in random memory of its length, and started by hand as demand 3 says: user mode at the first word, the bases in 26 and 27, and all
   else random. */
void start_module(struct machine *x, const struct module *m);

/* The emulator, plain C and the call, with the call's arguments. */
#define STARTERS 3
struct starter {
    const char *name;
    plain_starter *start;
};
extern const struct starter starters[STARTERS];

/* A machine that is as the other, in which the module is started, is started by the call, often from another PC, next PC and mode: it is then as the
   other again. */
void start_by_call(const struct module *of, struct machine *x, const struct machine *by_hand);

/* A way to break one rule: it changes an accepted module, and gives whether it could. A slow one is tried a few times only. */
struct way {
    uint32_t rule;
    const char *name;
    int (*change)(struct module *m, uint32_t detail);
    uint32_t detail;
    int slow;
};
extern const struct way layout_ways[], word_ways[], access_ways[], jump_ways[], straight_ways[]; /* each ends with rule 0 */

/* A way that breaks other rules too, bit n for rule n: its own is the one that is named. */
struct combined {
    struct way way;
    uint32_t also;
};
#define RULE(n) (1u << (n))
extern const struct combined access_combined[], straight_combined[]; /* each ends with rule 0 */

/* Puts ordinary words into bundles that are not the last. Gives the index of the first word, or NOWHERE where the module is too short. */
#define NOWHERE 0xFFFFFFFFu
uint32_t fresh_bundles(struct module *m, uint32_t count);

/* The parts, each in the file of its name. */
void test_words(void);
void test_steps(void);
void test_states(void);
void test_runs(void);
void test_confined(void);
void test_changed(void);
void test_rules(void);
void test_documents(void);
void test_straight(void);
void test_areas(void);
void test_starts(void);

/* Ticket 8's answers by hand, a piece of test_documents. Gives how many there are. */
size_t try_starts_by_hand(void);

/* And those of changed.c and rules.c for straight-through modules. */
void test_changed_straight(void);
void test_rules_straight(void);

#endif

/* What the host tests share. */
#ifndef TEST_H
#define TEST_H

#include "cc100.h"
#include "drawings.h"
#include "plain.h"

/* Says what is called next. A check that fails prints it, with what was expected and what came. */
void calling(const char *format, ...) __attribute__((format(printf, 1, 2)));

/* Each of these is one check. */
void expect_number(const char *what, uint32_t expected, uint32_t came);
void expect_text(const char *what, const char *expected, const char *came);

/* Bytes lent to a call, with guard bytes before and after them. `wanted`, which has guards too, is what must be left. */
#define GUARD 64
struct lent {
    uint8_t *bytes, *wanted;
    size_t length;
};

/* An access as a call carries it: `store` is 1 for a store and 0 for a load, and three zeros are none. */
struct access {
    uint32_t address, width, store;
};

/* `access` is what the next step or run must carry, and then none again. */
struct machine {
    struct lent state, memory;
    struct access access;
};

/* A lawful state in kernel mode with PC 0, as far as its length reaches, and memory. All else is a pattern, so that a wrong write shows. */
struct machine lend(size_t state_length, size_t memory_length);
void give_back(struct machine *m);

/* What a call is given, and must leave unless something else is wanted. */
void put_state(struct machine *m, uint32_t place, uint32_t word);
void put_memory(struct machine *m, uint32_t address, uint32_t word);
void put_pc(struct machine *m, uint32_t pc); /* next PC is four more */

/* What a call must leave. */
void want_state(struct machine *m, uint32_t place, uint32_t word);
void want_memory(struct machine *m, uint32_t address, uint32_t word);
void want_pc(struct machine *m, uint32_t pc, uint32_t next_pc);
void want_resumed(struct machine *m);
void want_access(struct machine *m, uint32_t address, uint32_t width, uint32_t store); /* by the next call; else it must carry none */
void want_left_by(struct machine *m, const struct machine *other); /* what the other has now */

/* Two checks: every byte of state and of memory, guards included, is as wanted. */
void expect_left(const struct machine *m);

/* Three checks: what a step or run carries. */
void expect_stepped_access(struct access expected, cc100_stepped came);
void expect_ran_access(struct access expected, cc100_ran came);

/* The calls. */
cc100_stepped step(struct machine *m);
cc100_ran run(struct machine *m, uint32_t budget);
uint32_t resume(struct machine *m);

/* A call with its check: what it answers and what it leaves. */
void expect_step(struct machine *m, uint32_t number);
void expect_run(struct machine *m, uint32_t budget, uint32_t number, uint32_t steps);
void expect_resume(struct machine *m, uint32_t number);

/* Whether a resume is given where a step ends in a number. */
int resumable(uint32_t number);

/* A module and where it is to run. */
#define MOST_WORDS 16384
struct layout {
    uint64_t memory_length;
    uint32_t code_base, code_size, data_base, data_size;
};
struct module {
    struct layout layout;
    size_t length;                  /* of the image, in bytes */
    uint32_t words[MOST_WORDS + 1]; /* the image, and one word more for images that are too long */
};
extern const struct layout usual; /* that of document 01's examples */

/* A module of that layout that does nothing and is accepted: zeros, and in the last word but one a jump to the first; and a straight-through one:
   zeros, and the last bundle. */
void make_quiet(struct module *m, struct layout l);
void make_straight(struct module *m, struct layout l);
void put_guard(struct module *m, uint32_t at, uint32_t r, uint32_t mask, uint32_t base); /* ANDI R,4,mask and OR R,R,base, two words */

/* The module is checked by the calls, as an image and placed, and by plain C, and is started: in pages that can only be read, with nothing to touch
   behind them. */
void expect_verdict(const struct module *m, uint32_t number, uint32_t place);
void expect_accepted(const struct module *m);
void expect_straight(const struct module *m, uint32_t number, uint32_t place); /* by the calls for straight-through modules */

/* The table that the samples work on: four rows of four words, in the data area of the usual layout. */
#define ROWS 4u
#define ROW_LENGTH 16u
struct row {
    int64_t quantity, cost, price;
};
void random_rows(struct row *rows);
void put_rows(struct machine *m, const struct row *rows); /* the fourth words are random: a module has to write them */
int fits(int64_t number);                                 /* in 32 bits, as a signed number */

/* Places the module of a file in memory of the usual length, and gives its length in bytes. */
uint32_t place_sample(struct machine *m, const char *path);
/* Starts the placed module by the call, with the usual layout but for its code size; the registers that it may use are random. */
void start_module(struct machine *m, uint32_t code_size);
/* What a module works with is its own affair: these places of the state are wanted as they came. */
void want_as_came(struct machine *m, const uint32_t *places, size_t count);

/* Room of whole pages between pages that cannot be touched. */
uint8_t *page(size_t size);

/* The same for bytes that are lent. While a room is closed they can only be read; the first opening makes it, with room for so many. */
struct room {
    uint8_t *bytes;
    size_t size;
};
void open_room(struct room *r, size_t length);
void close_room(struct room *r);
void write_image(const struct module *m, uint8_t *to);

/* The tests, each in the file of its name. */
void test_instructions(void);
void test_refusals(void);
void test_exits(void);
void test_step(void);
void test_division(void);
void test_accesses(void);
void test_run(void);
void test_resume(void);
void test_lengths(void);
void test_pages(void);
void test_cases(void);
void test_check(void);
void test_words(void);
void test_guards(void);
void test_straight(void);
void test_start(void);
void test_finish(void);
void test_margin(void);
void test_totals(void);
void test_areas(void);
void test_verdict(const char *program);

#endif

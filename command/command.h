/* What the subcommands of cc100 share. Nothing here decides what a call of cc100.h decides: what a word is comes from cc100_read, what a
   module may do from cc100_check and cc100_check_straight, whether it is started right from cc100_start, what it does from cc100_run and cc100_step, and
   which areas are given and taken back from cc100_allocate and cc100_release. */
#ifndef COMMAND_H
#define COMMAND_H

#include <limits.h>
#include <stdbool.h>
#include <stddef.h>
#include <stdint.h>
#include <stdio.h>

#include "cc100.h"

/* The exit status. */
enum status {
    STATUS_DONE = 0,     /* done or accepted */
    STATUS_REFUSED = 1,  /* refused or not complete */
    STATUS_NOT_DONE = 2, /* not to be done: usage, or a file */
};

/* Of several, the one that the command ends with. */
enum status worse(enum status one, enum status other);

/* Where a module is to run. */
struct layout {
    uint64_t memory_length;
    uint32_t code_base, code_size, data_base, data_size;
};

struct options {
    struct layout layout;
    bool code_size_given; /* else it is the module's length */
    bool json, steps;
    bool straight; /* the module is to be straight-through */
    bool list;     /* the areas are to be listed */
    const char *rows, *figures; /* files, or NULL */
    uint64_t budget;            /* steps of a whole run */
    uint64_t number;            /* that is asked for */
    bool number_given;
    char **files;
    int file_count;
};

/* The subcommands. Each has a bit, by which an option names those that take it. */
enum { CHECK = 1, EXPLAIN = 2, LIST = 4, RUN = 8, TABLES = 16, AREAS = 32 };
struct subcommand {
    unsigned bit;
    const char *name, *arguments, *summary, *description;
    int fewest_files, most_files;
    enum status (*work)(const struct options *);
};
#define ANY_NUMBER INT_MAX /* of files */
extern const struct subcommand check_command, explain_command, list_command, run_command, tables_command, areas_command;

/* options.c: reads the options and files of a subcommand. Gives whether there is work to do; else *status is what the command ends with. */
bool read_options(const struct subcommand *s, int count, char **arguments, struct options *o, enum status *status);

/* The whole text is digits, decimal or after 0x hexadecimal, of a number up to the largest. */
bool read_natural(const char *text, uint64_t largest, uint64_t *number);

/* Says that the usage is wrong, and what is right; of cc100 itself where the subcommand is NULL. */
enum status wrong_usage(const struct subcommand *s, const char *format, ...) __attribute__((format(printf, 2, 3)));

/* files.c: input, by path or - for standard input. Gives NULL where it cannot be opened, which is said. */
FILE *open_input(const char *path);
/* Ends what was opened. Gives whether all of it could be read; where not, that is said. */
bool close_input(FILE *file, const char *path);
/* What messages call it. */
const char *name_of(const char *path);
/* Writes out all that is printed so far. Gives whether that could be done; where not, that is said, the first time. */
bool flush_output(void);
/* Says that something is wrong with a file. */
void complain(const char *format, ...) __attribute__((format(printf, 1, 2)));

/* A module's file. One byte more than a module may have is read, so that the checker sees where there are more. */
#define LARGEST_CODE 65536u
struct module {
    const char *path;
    uint32_t length;
    uint8_t image[LARGEST_CODE + 1];
};
bool read_module(struct module *m, const char *path);
uint32_t module_word(const struct module *m, uint32_t index);

/* What the checker says of a module, with its length as the code size where no other is given; *l is the layout that it was asked about. */
cc100_verdict check_module(const struct module *m, const struct options *o, struct layout *l);

/* The index of the word at which a module's last bundle starts. A straight-through module completes at most so many steps before its first
   exit. */
uint32_t last_bundle(const struct layout *l);

/* sentences.c: what the numbers mean, the one place for it. docs/REFUSALS.md, README.md and the manual pages are compared with it. */
struct refusal {
    const char *meaning, *example, *change;
    const char *ask; /* whom */
};
struct exit_name {
    const char *name, *when;
};
#define LAST_REFUSAL 27u
#define FIRST_EXIT CC100_EXIT_INTEGER_OVERFLOW
#define LAST_EXIT CC100_EXIT_STOP_CORES
const struct refusal *refusal_of(uint32_t number); /* NULL where there is none */
const struct exit_name *exit_of(uint32_t number);  /* the same */

/* instructions.c: an instruction as assemblers write it. */
struct text {
    const char *name;
    char operands[40];
    bool has_target; /* a branch or jump to an address that the word itself gives */
    uint32_t target;
};
struct text text_of(uint32_t word, uint32_t address);
const char *mnemonic_of(uint32_t kind); /* NULL for no instruction, 0 */
uint32_t width_of(uint32_t kind);       /* of an access, in bytes; else 0 */

/* What an instruction writes, to be shown beside what a step changed. */
#define WRITES_HI 32u
#define WRITES_LO 33u
bool writes(const cc100_instruction *i, uint32_t place); /* registers 0 to 31, HI and LO */

/* lines.c: a line for each of a module's words, from the first word of a bundle to before another word, with the guards among them marked.
   Where there is an arrow at a word, every line has room for it. */
struct excerpt {
    const struct module *module;
    struct layout layout;
    uint32_t arrow; /* a word's index, or CC100_NO_PLACE */
    bool cut_off;   /* the code size is what was read of a file that is too long */
};
void print_lines(const struct excerpt *e, uint32_t from, uint32_t to);
/* Where a branch or jump of the module leads: a word's index, or CC100_NO_PLACE. */
uint32_t target_index(const struct excerpt *e, uint32_t index);

/* guards.c: what is wrong with the access and its guard that a verdict refuses by 12, 22 or 25, and what to mend. Gives whether there is a text. */
#define MOST_FINDING 1024
bool describe_guard(const struct excerpt *e, cc100_verdict v, char *text, size_t size);

/* rows.c: what a run hands to a module. The first two give the number of rows or figures, or -1, which is said. */
int read_rows(const char *path, uint8_t *data, uint32_t data_size);
int read_figures(const char *path, uint32_t *figures, uint32_t most);
void print_rows(const uint8_t *data, int rows, int32_t total, const int32_t *rate); /* the rate is NULL where there is none */

/* json.c: a text in quotation marks, with all that JSON does not take escaped; bytes that are no UTF-8 become U+FFFD. */
void print_json(const char *text);
/* A verdict on a file, as the members that an object begins with. */
void print_verdict_members(const char *path, cc100_verdict v, uint32_t words);

#endif

/* The options of the subcommands, one table, and what is said of wrong ones. */
#include <getopt.h>
#include <inttypes.h>
#include <stdarg.h>

#include "command.h"

#define MEMORY_LENGTH 196608u
#define CODE_BASE 0x10000u
#define DATA_BASE 0x20000u
#define DATA_SIZE 64u
#define BUDGET 1000000u

/* Every subcommand that takes a module, and every one. */
#define MODULE (CHECK | EXPLAIN | LIST | RUN)
#define EVERY (MODULE | TABLES | AREAS)

enum value { FLAG, WORD, LONG, FILE_NAME };

struct row {
    const char *name;
    enum value value;
    unsigned taken_by; /* subcommands */
    const char *placeholder, *help;
};

/* The numbers of these rows are what the parser answers. */
enum { HELP, JSON, STRAIGHT, LISTED, NUMBER, ROWS, FIGURES, BUDGETED, STEPS, LENGTH, CODE_AT, CODE_LENGTH, DATA_AT, DATA_LENGTH, OPTIONS };

static const struct row rows[OPTIONS] = {
    [HELP] = {"help", FLAG, EVERY, "", "says this"},
    [JSON] = {"json", FLAG, CHECK | EXPLAIN | RUN | TABLES | AREAS, "", "prints one JSON object a line"},
    [STRAIGHT] = {"straight", FLAG, CHECK | EXPLAIN | RUN, "", "takes only straight-through modules, known to finish"},
    [LISTED] = {"list", FLAG, AREAS, "", "for show: lists the areas that are out too"},
    [NUMBER] = {"number", WORD, EXPLAIN, "N", "explains a number alone, of a refusal or an exit"},
    [ROWS] = {"rows", FILE_NAME, RUN, "FILE", "a line of quantity, cost and price for each row"},
    [FIGURES] = {"figures", FILE_NAME, RUN, "FILE", "whole numbers that the module can ask for"},
    [BUDGETED] = {"budget", LONG, RUN, "N", "steps of the whole run (1000000)"},
    [STEPS] = {"steps", FLAG, RUN, "", "prints a line for each step"},
    [LENGTH] = {"memory-length", LONG, MODULE, "N", "bytes of memory (196608)"},
    [CODE_AT] = {"code-base", WORD, MODULE, "N", "address of the code area (0x10000)"},
    [CODE_LENGTH] = {"code-size", WORD, MODULE, "N", "bytes of the code area (the module's length)"},
    [DATA_AT] = {"data-base", WORD, MODULE, "N", "address of the data area (0x20000)"},
    [DATA_LENGTH] = {"data-size", WORD, MODULE, "N", "bytes of the data area (64)"},
};

static bool takes(const struct subcommand *s, int row) { return (rows[row].taken_by & s->bit) != 0; }

/* Two texts with a blank between them, where the second is not empty. */
static void write_joined(char *to, size_t size, const char *first, const char *second)
{
    snprintf(to, size, "%s%s%s", first, *second ? " " : "", second);
}

static void print_usage(FILE *to, const char *name, const char *arguments)
{
    char taken[64];
    write_joined(taken, sizeof taken, "[OPTION]...", arguments);
    fprintf(to, "usage: cc100 %s %s\n", name, taken);
}

static void print_help(const struct subcommand *s)
{
    char named[64];
    print_usage(stdout, s->name, s->arguments);
    printf("\n%s\noptions:\n", s->description);
    for (int i = 0; i < OPTIONS; i++)
        if (takes(s, i)) {
            write_joined(named, sizeof named, rows[i].name, rows[i].placeholder);
            printf("  --%-18s  %s\n", named, rows[i].help);
        }
    if (s->most_files)
        printf("\nNumbers are decimal or hexadecimal (4096 or 0x1000).%s\n", s->bit & MODULE ? " - stands for standard input." : "");
    printf("\nExit status: 0 done or accepted, 1 refused or not complete, 2 not to be done\n"
           "(wrong usage, a file that cannot be read or written).\n");
}

enum status wrong_usage(const struct subcommand *s, const char *format, ...)
{
    const char *space = s ? " " : "", *name = s ? s->name : "";
    va_list values;
    va_start(values, format);
    fprintf(stderr, "cc100%s%s: ", space, name);
    vfprintf(stderr, format, values);
    fprintf(stderr, "\n");
    print_usage(stderr, s ? name : "COMMAND", s ? s->arguments : "[FILE]...");
    fprintf(stderr, "'cc100%s%s --help' says more\n", space, name);
    va_end(values);
    return STATUS_NOT_DONE;
}

/* What a digit stands for, or more than any base has. */
static unsigned digit_of(char c)
{
    if (c >= '0' && c <= '9')
        return (unsigned)(c - '0');
    if (c >= 'a' && c <= 'f')
        return (unsigned)(c - 'a') + 10;
    return c >= 'A' && c <= 'F' ? (unsigned)(c - 'A') + 10 : 16;
}

bool read_natural(const char *text, uint64_t largest, uint64_t *number)
{
    bool hexadecimal = text[0] == '0' && (text[1] == 'x' || text[1] == 'X');
    const char *digits = hexadecimal ? text + 2 : text;
    unsigned base = hexadecimal ? 16 : 10;
    *number = 0;
    for (const char *c = digits; *c; c++) {
        unsigned digit = digit_of(*c);
        if (digit >= base || *number > (largest - digit) / base)
            return false;
        *number = *number * base + digit;
    }
    return *digits != 0;
}

static void put(struct options *o, int row, uint64_t number, const char *text)
{
    switch (row) {
    case JSON: o->json = true; break;
    case STRAIGHT: o->straight = true; break;
    case LISTED: o->list = true; break;
    case NUMBER: o->number = number, o->number_given = true; break;
    case ROWS: o->rows = text; break;
    case FIGURES: o->figures = text; break;
    case BUDGETED: o->budget = number; break;
    case STEPS: o->steps = true; break;
    case LENGTH: o->layout.memory_length = number; break;
    case CODE_AT: o->layout.code_base = (uint32_t)number; break;
    case CODE_LENGTH: o->layout.code_size = (uint32_t)number, o->code_size_given = true; break;
    case DATA_AT: o->layout.data_base = (uint32_t)number; break;
    case DATA_LENGTH: o->layout.data_size = (uint32_t)number; break;
    }
}

/* Takes one option. Gives whether its value is right; where not, that is said. */
static bool take(const struct subcommand *s, struct options *o, int row, const char *text)
{
    uint64_t number = 0, largest = rows[row].value == LONG ? UINT64_MAX : UINT32_MAX;
    bool numeric = rows[row].value == WORD || rows[row].value == LONG;
    if (numeric && !read_natural(text, largest, &number)) {
        wrong_usage(s, "--%s takes a number from 0 to %" PRIu64 ", decimal or hexadecimal, not '%s'", rows[row].name, largest, text);
        return false;
    }
    put(o, row, number, text);
    return true;
}

static bool right_files(const struct subcommand *s, const struct options *o)
{
    int fewest = o->number_given ? 0 : s->fewest_files, most = o->number_given ? 0 : s->most_files;
    if (o->file_count < fewest)
        wrong_usage(s, "no file is named");
    else if (o->file_count > most)
        wrong_usage(s, "'%s' is one file too many", o->files[most]);
    else
        return true;
    return false;
}

/* What getopt_long knows of the options that a subcommand takes. Its answers are numbers above every character. */
#define ANSWER 256
static void make_known(const struct subcommand *s, struct option *known)
{
    for (int i = 0; i < OPTIONS; i++)
        if (takes(s, i)) {
            *known++ = (struct option){rows[i].name, rows[i].value == FLAG ? no_argument : required_argument, NULL, ANSWER + i};
        }
    *known = (struct option){NULL, 0, NULL, 0};
}

/* Says what is wrong with an option that getopt_long does not take: it answers ':' where a value is missing, and else '?'. */
static void wrong_option(const struct subcommand *s, int answer, const char *text)
{
    if (optopt >= ANSWER)
        wrong_usage(s, answer == ':' ? "--%s needs a value" : "--%s takes no value", rows[optopt - ANSWER].name);
    else if (optopt > ' ' && optopt <= '~')
        wrong_usage(s, "there is no option '-%c'", optopt);
    else if (optopt)
        wrong_usage(s, "there is no option of one letter but -h");
    else
        wrong_usage(s, "there is no option '%s'", text);
}

bool read_options(const struct subcommand *s, int count, char **arguments, struct options *o, enum status *status)
{
    struct option known[OPTIONS + 1];
    int answer;
    make_known(s, known);
    *o = (struct options){
        .layout = {MEMORY_LENGTH, CODE_BASE, 0, DATA_BASE, DATA_SIZE}, .budget = BUDGET,
    };
    *status = STATUS_NOT_DONE;
    opterr = 0;
    while ((answer = getopt_long(count, arguments, ":h", known, NULL)) != -1) {
        if (answer == 'h' || answer == ANSWER + HELP) {
            print_help(s);
            *status = STATUS_DONE;
            return false;
        }
        if (answer < ANSWER) {
            wrong_option(s, answer, arguments[optind - 1]);
            return false;
        }
        if (!take(s, o, answer - ANSWER, optarg))
            return false;
    }
    o->files = arguments + optind;
    o->file_count = count - optind;
    return right_files(s, o);
}

/* cc100 run: checks a report module, places and starts it, runs it and hands it figures. A host program of one's own can begin from here.

   The convention between this command and its modules: SYSCALL with code 0 asks for the next figure. The command puts the figure's place in
   the data area, a multiple of 4, into register 8 and the figure into register 9, and resumes the module. When a module asks and no figures
   are left, its report is complete, and the words of the data area are printed.

   A module that works on a table finds it in the data area when it starts: rows of quantity, cost, price and margin. SYSCALL with code 1
   says that the report is complete, with the total of the margins in register 8 and their rate in register 9. The table and both are
   printed, or, where there are no rows, the words of the data area.

   The last bundle of a straight-through module (--straight) begins with SYSCALL with code 0. There it says that the report is complete, with the
   total in register 8 and no rate: such a module has one total per row, and is known to finish.

   Anything else ends the run, and the last access to the data area is printed, so that one sees which cell the module was at. An Integer
   Overflow, a Breakpoint and a Trap could be resumed, but a report is read for its figures, and one that went on past an overflow would lack
   one without saying so. */
#include <inttypes.h>
#include <stdlib.h>
#include <string.h>

#include "steps.h"

/* The codes of SYSCALL. */
#define NEXT_FIGURE 0u
#define REPORT_COMPLETE 1u

/* What is handed over for the one, and found at the other. */
#define PLACE_REGISTER 8
#define FIGURE_REGISTER 9
#define TOTAL_REGISTER 8
#define RATE_REGISTER 9

#define WORDS_A_LINE 16u

struct run {
    const struct options *options;
    struct layout layout;
    struct machine machine;
    uint32_t *figures;
    int figure_count, given, rows;
};

static uint32_t register_of(const struct run *r, uint32_t number) { return cc100_get_word(r->machine.state + CC100_REGISTER(number)); }
static void set_register(struct run *r, uint32_t number, uint32_t word) { cc100_set_word(r->machine.state + CC100_REGISTER(number), word); }

/* Refused by the check, or by the start. */
static void say_refused(const struct options *o, const struct module *m, const char *how, cc100_verdict v)
{
    char place[32] = "";
    if (v.place != CC100_NO_PLACE)
        snprintf(place, sizeof place, " at word %" PRIu32, v.place);
    if (o->json) {
        printf("{\"event\":\"refused\",");
        print_verdict_members(m->path, v, 0);
        printf("}\n");
    }
    complain("%s %s, number %" PRIu32 "%s: %s", name_of(m->path), how, v.number, place, refusal_of(v.number)->meaning);
}

/* The placed module is started with the bases of its areas in registers 26 and 27, as its guards need them. All else of the state is 0, until the
   call sets the program counters and the mode. */
static cc100_verdict start(struct run *r, const struct module *m)
{
    const struct layout *l = &r->layout;
    struct machine *x = &r->machine;
    set_register(r, 26, l->data_base);
    set_register(r, 27, l->code_base);
    return cc100_start(l->code_base, l->code_size, l->data_base, l->data_size, m->image, m->length, x->state, sizeof x->state, x->memory,
                       x->memory_length);
}

static const uint8_t *data_of(const struct run *r) { return r->machine.memory + r->layout.data_base; }

static void print_data(const struct run *r, const char *first, const char *between, const char *line)
{
    for (uint32_t i = 0; i < r->layout.data_size / 4; i++)
        printf("%s%" PRIu32, i == 0 ? first : i % WORDS_A_LINE ? between : line, cc100_get_word(data_of(r) + 4 * i));
}

/* The code of the SYSCALL that the run is at. */
static uint32_t present_code(const struct run *r) { return cc100_read(present_word(&r->machine)).value; }

/* The words of a row. */
static const char *const cells[] = {"quantity", "cost", "price", "margin"};

static void print_rows_object(const struct run *r)
{
    printf(",\"rows\":[");
    for (uint32_t i = 0; i < 4u * (uint32_t)r->rows; i++)
        printf("%s\"%s\":%" PRId32 "%s", i == 0 ? "{" : i % 4 ? "," : ",{", cells[i % 4], (int32_t)cc100_get_word(data_of(r) + 4 * i),
               i % 4 == 3 ? "}" : "");
    printf("],\"total\":%" PRId32, (int32_t)register_of(r, TOTAL_REGISTER));
    if (present_code(r) == REPORT_COMPLETE)
        printf(",\"rate\":%" PRId32, (int32_t)register_of(r, RATE_REGISTER));
}

/* The last line of a run, for a script. */
static void print_end_object(const struct run *r, uint32_t number, bool complete, bool table)
{
    const struct exit_name *x = exit_of(number);
    printf("{\"event\":\"end\",\"complete\":%s,\"steps\":%" PRIu64 ",\"address\":%" PRIu32 ",\"number\":%" PRIu32 ",\"exit\":",
           complete ? "true" : "false", r->machine.steps, present_address(&r->machine), number);
    printf(x ? "\"%s\"" : "null", x ? x->name : "");
    if (number == CC100_EXIT_SYSTEM_CALL)
        printf(",\"code\":%" PRIu32, present_code(r));
    print_access_member(&r->machine, r->machine.last);
    if (complete && table) {
        print_rows_object(r);
    } else if (complete) {
        print_data(r, ",\"data\":[", ",", ",");
        printf("]");
    }
    printf("}\n");
}

/* Where the run stands, before what is said of it. The bound of a straight-through module is that of all steps until it is resumed in its last
   bundle, where a run ends, and so also past figures that it is given. */
static void print_place(const struct run *r)
{
    printf("after %" PRIu64 " steps", r->machine.steps);
    if (r->options->straight)
        printf(" of at most %" PRIu32, last_bundle(&r->layout));
    printf(", at 0x%" PRIx32 ": ", present_address(&r->machine));
}

static void print_table(const struct run *r)
{
    int32_t rate = (int32_t)register_of(r, RATE_REGISTER);
    print_rows(data_of(r), r->rows, (int32_t)register_of(r, TOTAL_REGISTER), present_code(r) == REPORT_COMPLETE ? &rate : NULL);
}

/* The report is complete. Where the module itself says so there may be a table. */
static enum status say_complete(const struct run *r, const char *how, bool table)
{
    if (r->options->json) {
        print_end_object(r, CC100_EXIT_SYSTEM_CALL, true, table);
        return STATUS_DONE;
    }
    print_place(r);
    printf("%sthe report is complete\n", how);
    if (table) {
        print_table(r);
    } else {
        print_data(r, "data: ", " ", "\n      ");
        printf("\n");
    }
    return STATUS_DONE;
}

/* Rows count from 1, as the lines of their file do. */
static void print_last_access(const struct run *r)
{
    const struct machine *m = &r->machine;
    uint32_t word = place_of(m, m->last) / 4;
    printf("last access: ");
    if (m->last.width == 0) {
        printf("none\n");
        return;
    }
    print_access(m, m->last);
    printf(" of the data area");
    if (word / 4 < (uint32_t)r->rows)
        printf(", the %s of row %" PRIu32, cells[word % 4], word / 4 + 1);
    printf("\n");
}

static enum status say_stopped(const struct run *r, uint32_t number)
{
    const struct exit_name *x = exit_of(number);
    if (r->options->json) {
        print_end_object(r, number, false, false);
        return STATUS_REFUSED;
    }
    print_place(r);
    if (number == CC100_DONE)
        printf("still running, and its budget is spent");
    else if (number == CC100_EXIT_SYSTEM_CALL)
        printf("System Call %" PRIu32 ", which is not served here", present_code(r));
    else
        printf("%s", x ? x->name : "a number that is not known here");
    printf("; the report is not complete\n");
    print_last_access(r);
    return STATUS_REFUSED;
}

/* Gives resume's number. */
static uint32_t give_figure(struct run *r)
{
    uint32_t place = 4 * (uint32_t)r->given, figure = r->figures[r->given];
    r->given++;
    if (r->options->json) {
        printf("{\"event\":\"figure\",\"steps\":%" PRIu64 ",\"address\":%" PRIu32 ",\"place\":%" PRIu32 ",\"figure\":%" PRId32 "}\n",
               r->machine.steps, present_address(&r->machine), place, (int32_t)figure);
    } else {
        print_place(r);
        printf("asks for a figure, gets %" PRId32 " for place %" PRIu32 "\n", (int32_t)figure, place);
    }
    set_register(r, PLACE_REGISTER, place);
    set_register(r, FIGURE_REGISTER, figure);
    return cc100_resume(r->machine.state, sizeof r->machine.state, r->machine.memory, r->machine.memory_length);
}

/* Whether the run is at the SYSCALL that ends a straight-through module. */
static bool at_last_bundle(const struct run *r)
{
    return r->options->straight && present_address(&r->machine) == r->layout.code_base + 4 * last_bundle(&r->layout);
}

/* Runs the module to its end. */
static enum status serve(struct run *r)
{
    for (;;) {
        uint32_t number = advance(&r->machine, r->options);
        bool call = number == CC100_EXIT_SYSTEM_CALL;
        uint32_t code = call ? present_code(r) : 0;
        if (call && (code == REPORT_COMPLETE || at_last_bundle(r)))
            return say_complete(r, "", r->rows > 0);
        if (!call || code != NEXT_FIGURE)
            return say_stopped(r, number);
        if (r->given == r->figure_count)
            return say_complete(r, "asks for a figure, none are left; ", false);
        number = give_figure(r);
        if (number != CC100_DONE)
            return say_stopped(r, number);
    }
}

/* Reads what is handed to the module. Gives whether it is right; where not, that is said. */
static bool read_inputs(struct run *r)
{
    const struct options *o = r->options;
    if (o->rows)
        r->rows = read_rows(o->rows, r->machine.memory + r->layout.data_base, r->layout.data_size);
    if (o->figures && r->rows >= 0)
        r->figure_count = read_figures(o->figures, r->figures, r->layout.data_size / 4);
    return r->rows >= 0 && r->figure_count >= 0;
}

static void say_started(const struct run *r, const struct module *m)
{
    uint32_t words = m->length / 4;
    const struct layout *l = &r->layout;
    if (r->options->json) {
        printf("{\"event\":\"start\",\"file\":");
        print_json(m->path);
        printf(",\"words\":%" PRIu32 ",\"code_base\":%" PRIu32, words, l->code_base);
        printf(",\"data_base\":%" PRIu32 ",\"data_size\":%" PRIu32, l->data_base, l->data_size);
        if (r->options->straight)
            printf(",\"most_steps\":%" PRIu32, last_bundle(l));
        printf("}\n");
    } else {
        printf("%" PRIu32 " words of code at 0x%" PRIx32 ", ", words, l->code_base);
        printf("%" PRIu32 " bytes of data at 0x%" PRIx32 "\n", l->data_size, l->data_base);
    }
}

static enum status start_and_serve(struct run *r, const struct module *m)
{
    cc100_verdict v = start(r, m);
    if (v.number != CC100_DONE) {
        say_refused(r->options, m, "cannot be started", v);
        return STATUS_REFUSED;
    }
    say_started(r, m);
    return serve(r);
}

/* The module is accepted, so that its areas lie inside memory, which is not too long. */
static enum status run_accepted(struct run *r, const struct module *m)
{
    enum status status = STATUS_NOT_DONE;
    r->machine.memory_length = (size_t)r->layout.memory_length;
    r->machine.data_base = r->layout.data_base;
    r->machine.memory = calloc(r->machine.memory_length, 1);
    r->figures = calloc(r->layout.data_size, 1);
    if (!r->machine.memory || !r->figures) {
        complain("there is no room for %zu bytes of memory", r->machine.memory_length);
    } else if (read_inputs(r)) {
        memcpy(r->machine.memory + r->layout.code_base, m->image, m->length);
        status = start_and_serve(r, m);
    }
    free(r->machine.memory);
    free(r->figures);
    return status;
}

static enum status run(const struct options *o)
{
    static struct module m;
    struct run r = {.options = o};
    if (!read_module(&m, o->files[0]))
        return STATUS_NOT_DONE;
    cc100_verdict v = check_module(&m, o, &r.layout);
    if (v.number == CC100_DONE)
        return run_accepted(&r, &m);
    say_refused(o, &m, "is refused", v);
    return STATUS_REFUSED;
}

const struct subcommand run_command = {
    RUN, "run", "FILE", "checks a module and runs it to the end of its report",
    "Checks a module and, where it is accepted, starts it, with the rows in its data\n"
    "area, and runs it. SYSCALL 0 asks for the next figure: its place goes into\n"
    "register 8 and the figure into register 9. SYSCALL 1 says that the report is\n"
    "complete, with the total in register 8 and the rate in register 9. With --straight\n"
    "the SYSCALL 0 of the last bundle says so too, with the total in register 8 and no\n"
    "rate. Anything else ends the run, and the report is not complete; the last access\n"
    "to the data area is then printed.\n",
    1, 1, run,
};

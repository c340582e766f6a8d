/* cc100 explain: why a module is refused, for whoever has to say it on the telephone. */
#include <inttypes.h>
#include <string.h>

#include "command.h"

#define WIDTH 80
#define BUNDLE 4u

/* Prints a heading and a text, broken between words. */
static void print_wrapped(const char *heading, const char *text)
{
    int column = printf("%s", heading);
    while (*text) {
        int length = (int)strcspn(text, " ");
        if (column > 0 && column + 1 + length > WIDTH)
            column = printf("\n") - 1;
        column += printf("%s%.*s", column > 0 ? " " : "", length, text);
        text += length + (text[length] == ' ');
    }
    printf("\n");
}

static void print_sentences(const struct refusal *r)
{
    printf("\n");
    print_wrapped("Whom to ask:", r->ask);
    printf("\n");
    print_wrapped("What to do:", r->change);
}

/* What is wrong with these words, where that can be said. */
static void print_finding(const struct excerpt *e, cc100_verdict v)
{
    char text[MOST_FINDING];
    if (!describe_guard(e, v, text, sizeof text))
        return;
    printf("\n");
    print_wrapped("What is wrong here:", text);
}

static void print_layout(const struct excerpt *e)
{
    const struct layout *l = &e->layout;
    printf("\nChecked for memory of %" PRIu64 " bytes, ", l->memory_length);
    printf("%s%" PRIu32 " bytes of code at 0x%" PRIx32 ",\n", e->cut_off ? "at least " : "", l->code_size, l->code_base);
    printf("%" PRIu32 " bytes of data at 0x%" PRIx32 ".\n", l->data_size, l->data_base);
}

/* The bundle before and the word's own: a guard, or a branch, may stand in the one and what it is for in the other. */
static uint32_t excerpt_from(uint32_t place) { return place < BUNDLE ? 0 : place - place % BUNDLE - BUNDLE; }
static uint32_t excerpt_to(uint32_t place) { return place - place % BUNDLE + BUNDLE; }

/* Where a branch leads matters to its refusal, with the word after that: both are shown, unless the excerpt has them already. */
static void print_target(const struct excerpt *e)
{
    uint32_t target = target_index(e, e->arrow), words = e->module->length / 4;
    if (target == CC100_NO_PLACE)
        return;
    uint32_t last = target + 1 < words ? target + 1 : target;
    if (target >= excerpt_from(e->arrow) && last < excerpt_to(e->arrow))
        return;
    printf("\nIt leads to word %" PRIu32 ":\n\n", target);
    print_lines(e, target - target % BUNDLE, excerpt_to(last));
}

/* The words that are shown, from one to before another; none where both are 0. The last bundle has no place, and is shown where it is refused. */
struct span {
    uint32_t from, to;
};

static struct span shown(const struct excerpt *e, uint32_t number)
{
    if (number == CC100_REFUSED_LAST_BUNDLE)
        return (struct span){last_bundle(&e->layout), last_bundle(&e->layout) + BUNDLE};
    if (e->arrow == CC100_NO_PLACE)
        return (struct span){0, 0};
    return (struct span){excerpt_from(e->arrow), excerpt_to(e->arrow)};
}

static void print_words(const struct excerpt *e, uint32_t number)
{
    struct span s = shown(e, number);
    if (s.to == 0)
        return;
    printf("\n");
    print_lines(e, s.from, s.to);
    if (number == CC100_REFUSED_TARGET || number == CC100_REFUSED_STRAIGHT)
        print_target(e);
}

static void explain_refused(const struct excerpt *e, cc100_verdict v)
{
    const struct refusal *r = refusal_of(v.number);
    printf("%s is refused, number %" PRIu32, name_of(e->module->path), v.number);
    if (v.place != CC100_NO_PLACE)
        printf(" at word %" PRIu32, v.place);
    printf("\n\n");
    print_wrapped("", r->meaning);
    print_words(e, v.number);
    print_finding(e, v);
    print_sentences(r);
    print_layout(e);
}

static void explain_straight(const struct excerpt *e)
{
    char text[256];
    snprintf(text, sizeof text, "It is straight-through: its first exit comes after at most %" PRIu32 " completed steps, four fewer than it has "
             "words. That is proved of every module that is accepted as such.", last_bundle(&e->layout));
    printf("\n");
    print_wrapped("", text);
}

static void explain_accepted(const struct excerpt *e, bool straight)
{
    printf("%s is accepted, %" PRIu32 " words\n\n", name_of(e->module->path), e->module->length / 4);
    print_wrapped("", "Placed and started by cc100_start, it stays in its own code and data, and its run ends only in Integer Overflow, System "
                      "Call, Breakpoint or Trap. That is proved of every module that is accepted.");
    if (straight)
        explain_straight(e);
    print_layout(e);
}

static void print_named(const char *name, const char *text)
{
    printf(",\"%s\":", name);
    print_json(text);
}

static void print_sentences_object(const struct refusal *r)
{
    print_named("meaning", r->meaning);
    print_named("ask", r->ask);
    print_named("change", r->change);
}

static void print_finding_member(const struct excerpt *e, cc100_verdict v)
{
    char text[MOST_FINDING];
    if (describe_guard(e, v, text, sizeof text))
        print_named("finding", text);
}

/* One word of the excerpt, for a script. */
static void print_word_object(const struct excerpt *e, uint32_t index)
{
    char line[64];
    uint32_t address = e->layout.code_base + 4 * index, word = module_word(e->module, index);
    struct text t = text_of(word, address);
    printf("{\"index\":%" PRIu32, index);
    printf(",\"address\":%" PRIu32 ",\"word\":%" PRIu32, address, word);
    snprintf(line, sizeof line, "%s%s%s", t.name, *t.operands ? " " : "", t.operands);
    print_named("instruction", line);
    printf("}");
}

static void print_around(const struct excerpt *e, struct span s)
{
    printf(",\"around\":[");
    for (uint32_t i = s.from; i < s.to; i++) {
        printf("%s", i == s.from ? "" : ",");
        print_word_object(e, i);
    }
    printf("]");
}

static void print_object(const struct excerpt *e, cc100_verdict v, bool straight)
{
    const struct layout *l = &e->layout;
    struct span s = shown(e, v.number);
    printf("{");
    print_verdict_members(e->module->path, v, e->module->length / 4);
    if (v.number != CC100_DONE)
        print_sentences_object(refusal_of(v.number));
    else if (straight)
        printf(",\"most_steps\":%" PRIu32, last_bundle(l));
    print_finding_member(e, v);
    if (s.to != 0)
        print_around(e, s);
    printf(",\"memory_length\":%" PRIu64 ",\"code_base\":%" PRIu32 ",\"code_size\":%" PRIu32, l->memory_length, l->code_base, l->code_size);
    printf(",\"data_base\":%" PRIu32 ",\"data_size\":%" PRIu32 "}\n", l->data_base, l->data_size);
}

static enum status explain_file(const struct options *o)
{
    static struct module m;
    struct excerpt e = {.module = &m};
    if (!read_module(&m, o->files[0]))
        return STATUS_NOT_DONE;
    cc100_verdict v = check_module(&m, o, &e.layout);
    e.arrow = v.place;
    e.cut_off = m.length > LARGEST_CODE && !o->code_size_given;
    if (o->json)
        print_object(&e, v, o->straight);
    else if (v.number == CC100_DONE)
        explain_accepted(&e, o->straight);
    else
        explain_refused(&e, v);
    return v.number == CC100_DONE ? STATUS_DONE : STATUS_REFUSED;
}

static void explain_refusal(uint32_t number, const struct refusal *r)
{
    printf("%" PRIu32 " is a refusal\n\n", number);
    print_wrapped("", r->meaning);
    printf("\nFor example: %s\n", r->example);
    print_sentences(r);
}

static void explain_exit(uint32_t number, const struct exit_name *x)
{
    printf("%" PRIu32 " is an exit, %s\n\n", number, x->name);
    print_wrapped("", x->when);
}

static void print_number_object(uint32_t number, const struct refusal *r, const struct exit_name *x)
{
    printf("{\"number\":%" PRIu32 ",\"is\":\"%s\"", number, r ? "refusal" : "exit");
    if (r) {
        print_sentences_object(r);
        print_named("example", r->example);
    } else {
        print_named("name", x->name);
        print_named("meaning", x->when);
    }
    printf("}\n");
}

static enum status explain_number(const struct options *o)
{
    uint32_t number = (uint32_t)o->number;
    const struct refusal *r = refusal_of(number);
    const struct exit_name *x = exit_of(number);
    if (!r && !x)
        return wrong_usage(&explain_command, "%" PRIu32 " is no number of a refusal, 1 to %u, or of an exit, %u to %u", number, LAST_REFUSAL,
                           FIRST_EXIT, LAST_EXIT);
    if (o->json)
        print_number_object(number, r, x);
    else if (r)
        explain_refusal(number, r);
    else
        explain_exit(number, x);
    return STATUS_DONE;
}

static enum status explain(const struct options *o) { return o->number_given ? explain_number(o) : explain_file(o); }

const struct subcommand explain_command = {
    EXPLAIN, "explain", "FILE | --number N", "says why a module is refused, and what to do about it",
    "Says whether a module is accepted. Where it is refused: the number, what it means,\n"
    "the words around the place with an arrow, of a guard which word is wrong and what\n"
    "it must be, whom to ask and what to do.\n"
    "'cc100 explain --number N' says what a number means, without a module.\n",
    1, 1, explain,
};

/* The steps of a run. */
#define _POSIX_C_SOURCE 200809L
#include "steps.h"

#include <inttypes.h>
#include <string.h>
#include <time.h>
#include <unistd.h>

#define SLICE 10000000u /* steps between two looks at the clock: some hundredths of a second */
#define MILLION 1000000u
#define PAUSE 0.2       /* seconds between two lines of progress */
#define PLACES 34u      /* registers 0 to 31, HI and LO, which follow each other in a state */

uint32_t present_address(const struct machine *m) { return cc100_get_word(m->state + CC100_PC); }

uint32_t present_word(const struct machine *m)
{
    uint64_t address = present_address(m);
    return address + 4 <= m->memory_length ? cc100_get_word(m->memory + address) : 0;
}

uint32_t place_of(const struct machine *m, struct access a) { return a.address - m->data_base; }

void print_access(const struct machine *m, struct access a)
{
    printf("%s of %" PRIu32 " byte%s at 0x%" PRIx32 ", place %" PRIu32, a.store ? "store" : "load", a.width, a.width == 1 ? "" : "s", a.address,
           place_of(m, a));
}

void print_access_member(const struct machine *m, struct access a)
{
    printf(",\"access\":");
    if (a.width == 0)
        printf("null");
    else
        printf("{\"address\":%" PRIu32 ",\"place\":%" PRIu32 ",\"width\":%" PRIu32 ",\"store\":%s}", a.address, place_of(m, a), a.width,
               a.store ? "true" : "false");
}

/* A call that completes no access leaves the last one. */
static void keep(struct machine *m, struct access a)
{
    if (a.width != 0)
        m->last = a;
}

static double seconds(void)
{
    struct timespec now;
    clock_gettime(CLOCK_MONOTONIC, &now);
    return (double)now.tv_sec + (double)now.tv_nsec / 1e9;
}

/* Only a terminal gets the line, and only while a run is long; it is taken away before anything else is printed. */
static void show_progress(uint64_t steps, uint64_t budget, double *shown)
{
    if (seconds() - *shown < PAUSE)
        return;
    fprintf(stderr, "\rcc100: %" PRIu64 " of %" PRIu64 " million steps\033[K", steps / MILLION, budget / MILLION);
    *shown = seconds();
}

static uint32_t advance_quietly(struct machine *m, uint64_t budget)
{
    uint32_t number = CC100_DONE;
    bool terminal = isatty(STDERR_FILENO);
    double began = seconds(), shown = began;
    while (number == CC100_DONE && m->steps < budget) {
        uint64_t left = budget - m->steps;
        cc100_ran ran = cc100_run(m->state, sizeof m->state, m->memory, m->memory_length, left < SLICE ? (uint32_t)left : SLICE);
        m->steps += ran.steps;
        keep(m, (struct access){ran.address, ran.width, ran.store});
        number = ran.number;
        if (terminal)
            show_progress(m->steps, budget, &shown);
    }
    if (shown != began)
        fprintf(stderr, "\r\033[K");
    return number;
}

static const char *place_name(uint32_t place, char *name, size_t size)
{
    if (place >= WRITES_HI)
        return place == WRITES_HI ? "hi" : "lo";
    snprintf(name, size, "$%" PRIu32, place);
    return name;
}

/* What the step wrote: what its instruction writes, and all that it changed. Gives how many places that is. */
static int print_written(const struct machine *m, const uint8_t *before, uint32_t word, const char *format, const char *between)
{
    cc100_instruction i = cc100_read(word);
    char name[8];
    int count = 0;
    for (uint32_t place = 1; place < PLACES; place++) {
        const uint8_t *now = m->state + 4 * place;
        if (!writes(&i, place) && memcmp(now, before + 4 * place, 4) == 0)
            continue;
        printf("%s", count++ ? between : "");
        printf(format, place_name(place, name, sizeof name), cc100_get_word(now));
    }
    return count;
}

/* A step that is taken: the state before it, its word and its answer. */
struct taken {
    uint8_t before[CC100_STATE_LENGTH];
    uint32_t word, number;
    struct access access;
};

static void print_step(const struct machine *m, const struct taken *t)
{
    uint32_t address = cc100_get_word(t->before + CC100_PC);
    struct text text = text_of(t->word, address);
    printf("%7" PRIu64 "  0x%08" PRIx32 "  %-8s%-20s|", m->steps, address, text.name, text.operands);
    if (t->number != CC100_DONE) {
        printf(" exit %" PRIu32 ", %s\n", t->number, exit_of(t->number)->name);
        return;
    }
    int written = print_written(m, t->before, t->word, " %s = 0x%08" PRIx32, ",");
    if (t->access.width != 0) {
        printf(written ? "; " : " ");
        print_access(m, t->access);
    }
    printf("\n");
}

static void print_step_object(const struct machine *m, const struct taken *t)
{
    uint32_t address = cc100_get_word(t->before + CC100_PC);
    struct text text = text_of(t->word, address);
    printf("{\"event\":\"step\",\"steps\":%" PRIu64 ",\"address\":%" PRIu32 ",\"word\":%" PRIu32, m->steps, address, t->word);
    printf(",\"instruction\":\"%s%s%s\"", text.name, *text.operands ? " " : "", text.operands);
    if (t->number == CC100_DONE) {
        printf(",\"written\":{");
        print_written(m, t->before, t->word, "\"%s\":%" PRIu32, ",");
        printf("}");
    } else {
        printf(",\"exit\":%" PRIu32, t->number);
    }
    print_access_member(m, t->access);
    printf("}\n");
}

static struct taken take_step(struct machine *m)
{
    struct taken t = {.word = present_word(m)};
    memcpy(t.before, m->state, sizeof t.before);
    cc100_stepped stepped = cc100_step(m->state, sizeof m->state, m->memory, m->memory_length);
    t.number = stepped.number;
    t.access = (struct access){stepped.address, stepped.width, stepped.store};
    m->steps += t.number == CC100_DONE;
    keep(m, t.access);
    return t;
}

static uint32_t advance_shown(struct machine *m, uint64_t budget, bool json)
{
    struct taken t = {.number = CC100_DONE};
    while (t.number == CC100_DONE && m->steps < budget && !ferror(stdout)) {
        t = take_step(m);
        if (json)
            print_step_object(m, &t);
        else
            print_step(m, &t);
    }
    return t.number;
}

uint32_t advance(struct machine *m, const struct options *o)
{
    return o->steps ? advance_shown(m, o->budget, o->json) : advance_quietly(m, o->budget);
}

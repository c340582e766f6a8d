/* cc100 areas: the keeper's record for operators. What is given and taken back is what cc100_allocate and cc100_release answer; while they are asked
   and the record is written, no other process has it. */
#include <inttypes.h>
#include <string.h>

#include "records.h"

#define LINES 16u  /* of the picture, one for each 65,536 bytes */
#define PLACES 64u /* in a line, one for each 1,024 bytes */
#define PLACE (CC100_RECORD_LENGTH / LINES / PLACES) /* bytes of the record */
#define MOST_TEXT 256

/* An action: its arguments after its name, and the name of what it did in an object. */
struct action {
    const char *name, *takes;
    int arguments;
    enum status (*work)(const struct options *o, const uint32_t *numbers);
};

static void print_event(const char *event, const char *path)
{
    printf("{\"event\":\"%s\",\"file\":", event);
    print_json(path);
}

static enum status say_refused(const struct options *o, const struct record *r, uint32_t number, struct asked a)
{
    char text[MOST_TEXT];
    bool described = describe_record(r, number, a, text, sizeof text);
    if (o->json) {
        print_event("refused", r->path);
        printf(",\"number\":%" PRIu32, number);
        if (described)
            printf(",\"finding\":\"%s\"", text);
        printf("}\n");
    }
    complain("%s: %s is refused, number %" PRIu32 ": %s", r->path, o->files[1], number, refusal_of(number)->meaning);
    if (described)
        complain("%s: %s", r->path, text);
    return STATUS_REFUSED;
}

/* A line that a script can take apart, and hand to `back` as it is. */
static void print_area(const struct options *o, const char *event, uint32_t base, uint32_t size)
{
    if (o->json) {
        print_event(event, o->files[0]);
        printf(",\"base\":%" PRIu32 ",\"size\":%" PRIu32 "}\n", base, size);
    } else {
        printf("0x%08" PRIx32 " %" PRIu32 "\n", base, size);
    }
}

static enum status make(const struct options *o, const uint32_t *numbers)
{
    (void)numbers;
    if (!make_record(o->files[0]))
        return STATUS_NOT_DONE;
    if (o->json) {
        print_event("new", o->files[0]);
        printf("}\n");
    }
    return STATUS_DONE;
}

/* A base that cannot be printed is said with the failure, since the area is out. */
static enum status say_given(const struct options *o, uint32_t base, uint32_t size)
{
    print_area(o, "given", base, size);
    if (flush_output())
        return STATUS_DONE;
    complain("%s: the area of %" PRIu32 " bytes at 0x%08" PRIx32 " is out", o->files[0], size, base);
    return STATUS_NOT_DONE;
}

static enum status give(const struct options *o, const uint32_t *numbers)
{
    static struct record r;
    enum status status = STATUS_NOT_DONE;
    uint32_t size = numbers[0];
    if (!open_record(&r, o->files[0], true))
        return STATUS_NOT_DONE;
    cc100_allocated a = cc100_allocate(r.bytes, r.length, size);
    if (a.number != CC100_DONE)
        status = say_refused(o, &r, a.number, (struct asked){CC100_NO_PLACE, size});
    else if (write_record(&r, a.base))
        status = say_given(o, a.base, size);
    close_record(&r);
    return status;
}

static enum status take_back(const struct options *o, const uint32_t *numbers)
{
    static struct record r;
    enum status status = STATUS_NOT_DONE;
    struct asked a = {numbers[0], numbers[1]};
    if (!open_record(&r, o->files[0], true))
        return STATUS_NOT_DONE;
    uint32_t number = cc100_release(r.bytes, r.length, a.base, a.size);
    if (number != CC100_DONE) {
        status = say_refused(o, &r, number, a);
    } else if (write_record(&r, a.base)) {
        print_area(o, "taken_back", a.base, a.size);
        status = STATUS_DONE;
    }
    close_record(&r);
    return status;
}

/* The sixteens that are out in each place of the picture. */
static void count_places(const struct record *r, uint32_t counts[LINES * PLACES])
{
    uint32_t end = 0; /* of the last area that begins so far */
    for (uint32_t i = 0; i < CC100_RECORD_LENGTH; i++) {
        if (r->bytes[i] != 0)
            end = i + size_at(r, i) / SIXTEEN;
        counts[i / PLACE] += i < end;
    }
}

static void print_picture(const struct record *r)
{
    uint32_t counts[LINES * PLACES] = {0};
    count_places(r, counts);
    for (uint32_t i = 0; i < LINES * PLACES; i++) {
        if (i % PLACES == 0)
            printf("0x%08" PRIx32 "  ", SIXTEEN * PLACE * i);
        putchar(counts[i] == 0 ? '.' : counts[i] == PLACE ? '#' : '+');
        if (i % PLACES == PLACES - 1)
            printf("\n");
    }
}

static void print_totals(const struct options *o, const struct record *r)
{
    struct totals t = totals_of(r);
    uint32_t left = CC100_KEEPER_MEMORY - t.out;
    if (o->json) {
        print_event("record", r->path);
        printf(",\"areas\":%" PRIu32 ",\"out\":%" PRIu32 ",\"free\":%" PRIu32 ",\"largest\":%" PRIu32 "}\n", t.areas, t.out, left, t.largest);
        return;
    }
    print_picture(r);
    printf("\nareas out     %" PRIu32 "\nbytes out     %" PRIu32 "\nbytes free    %" PRIu32 "\nlargest free  %" PRIu32 "\n", t.areas, t.out, left,
           t.largest);
}

static void print_list(const struct options *o, const struct record *r)
{
    const char *line = o->json ? "{\"event\":\"area\",\"base\":%" PRIu32 ",\"end\":%" PRIu32 ",\"size\":%" PRIu32 "}\n"
                               : "0x%08" PRIx32 "  0x%08" PRIx32 "  %" PRIu32 "\n";
    if (!o->json)
        printf("\nbase        end         size\n");
    for (uint32_t i = 0; i < CC100_RECORD_LENGTH; i++)
        if (r->bytes[i] != 0)
            printf(line, SIXTEEN * i, SIXTEEN * i + size_at(r, i), size_at(r, i));
}

/* Whether the record is sound is asked of a call on a copy: of a sound one it refuses 23 at most. */
static uint32_t look(const struct record *r)
{
    static uint8_t copy[sizeof r->bytes];
    memcpy(copy, r->bytes, sizeof copy);
    uint32_t number = cc100_allocate(copy, r->length, SIXTEEN).number;
    return number == CC100_REFUSED_NO_SPACE ? CC100_DONE : number;
}

static enum status show(const struct options *o, const uint32_t *numbers)
{
    static struct record r;
    (void)numbers;
    if (!open_record(&r, o->files[0], false))
        return STATUS_NOT_DONE;
    close_record(&r);
    uint32_t number = look(&r);
    if (number != CC100_DONE)
        return say_refused(o, &r, number, (struct asked){CC100_NO_PLACE, 0});
    print_totals(o, &r);
    if (o->list)
        print_list(o, &r);
    return STATUS_DONE;
}

static const struct action actions[] = {
    {"new", "nothing more", 0, make},
    {"give", "a size", 1, give},
    {"back", "a base and a size", 2, take_back},
    {"show", "nothing more", 0, show},
};
#define ACTIONS (sizeof actions / sizeof actions[0])
#define MOST_ARGUMENTS 2

static const struct action *action_of(const char *name)
{
    for (size_t i = 0; i < ACTIONS; i++)
        if (strcmp(name, actions[i].name) == 0)
            return &actions[i];
    return NULL;
}

static enum status work(const struct options *o, const struct action *a)
{
    uint32_t numbers[MOST_ARGUMENTS] = {0};
    for (int i = 0; i < a->arguments; i++) {
        uint64_t number;
        if (!read_natural(o->files[2 + i], UINT32_MAX, &number))
            return wrong_usage(&areas_command, "'%s' takes numbers from 0 to %" PRIu32 ", decimal or hexadecimal, not '%s'", a->name, UINT32_MAX,
                               o->files[2 + i]);
        numbers[i] = (uint32_t)number;
    }
    return a->work(o, numbers);
}

static enum status areas(const struct options *o)
{
    const struct action *a = o->file_count > 1 ? action_of(o->files[1]) : NULL;
    if (strcmp(o->files[0], "-") == 0)
        return wrong_usage(&areas_command, "a record is a file, and not standard input");
    if (o->file_count == 1)
        return wrong_usage(&areas_command, "no action is named");
    if (!a)
        return wrong_usage(&areas_command, "there is no action '%s'", o->files[1]);
    if (o->file_count != 2 + a->arguments)
        return wrong_usage(&areas_command, "'%s' takes %s", a->name, a->takes);
    if (o->list && a->work != show)
        return wrong_usage(&areas_command, "--list is for 'show'");
    return work(o, a);
}

const struct subcommand areas_command = {
    AREAS, "areas", "RECORD new|give SIZE|back BASE SIZE|show", "gives areas of memory to modules, and takes them back",
    "Keeps areas of 1,048,576 bytes of memory by a record, a file of 65,536 bytes.\n\n"
    "  new             writes an empty record where no file is\n"
    "  give SIZE       gives an area: a power of two from 16 to 65,536 bytes, at the\n"
    "                  lowest base that is free; prints its base and its size\n"
    "  back BASE SIZE  takes an area back, and prints the same\n"
    "  show            prints a picture, a line for each 65,536 bytes and a place for\n"
    "                  each 1,024: . free, # out, + partly out; and the totals\n\n"
    "What is given is on the disk before it is printed, and no two processes are\n"
    "given the same. 'cc100 explain --number N' says what the number of a refusal means.\n",
    1, ANY_NUMBER, areas,
};

/* What a run hands to a module: rows of a table, read into the data area and printed from it, and figures. */
#include <inttypes.h>
#include <stdlib.h>
#include <string.h>

#include "command.h"

/* A row is four words: quantity, cost, price and, for the module to write, margin. They are signed. */
#define ROW_LENGTH 16u
#define NUMBERS 3 /* of a line: quantity, cost and price */
#define LONGEST_LINE 256
#define BLANKS " \t\r"
#define NOT_32_BITS "a number is not from -2147483648 to 2147483647"

/* Reads a number and moves *text past it. Gives what is wrong with it, or NULL. What is left then begins with a blank: 12.5 and 1,250 are
   no whole numbers. */
static const char *read_number(char **text, uint32_t *word, const char *not_whole)
{
    char *begin = *text;
    long long number = strtoll(begin, text, 10);
    if (*text == begin || (**text && !strchr(BLANKS, **text)))
        return not_whole;
    *word = (uint32_t)number;
    return number < INT32_MIN || number > INT32_MAX ? NOT_32_BITS : NULL;
}

/* Where the numbers of a file go, and how many there are so far. */
struct reader {
    uint8_t *data;
    uint32_t *figures, most, count;
};

/* Each of these takes a line. They give what is wrong with it, or NULL. */
static const char *take_row(struct reader *r, char *line)
{
    static char too_many[80];
    uint32_t words[NUMBERS];
    for (uint32_t i = 0; i < NUMBERS; i++) {
        const char *wrong = read_number(&line, &words[i], "not three whole numbers");
        if (wrong)
            return wrong;
    }
    if (line[strspn(line, BLANKS)])
        return "not three whole numbers";
    if (r->count == r->most) {
        snprintf(too_many, sizeof too_many, "more rows than the %" PRIu32 " that the data area has room for", r->most);
        return too_many;
    }
    for (uint32_t i = 0; i < NUMBERS; i++)
        cc100_set_word(r->data + ROW_LENGTH * r->count + 4 * i, words[i]);
    r->count++;
    return NULL;
}

static const char *take_figures(struct reader *r, char *line)
{
    static char too_many[80];
    for (line += strspn(line, BLANKS); *line; line += strspn(line, BLANKS)) {
        if (r->count == r->most) {
            snprintf(too_many, sizeof too_many, "more figures than the %" PRIu32 " words of the data area", r->most);
            return too_many;
        }
        const char *wrong = read_number(&line, &r->figures[r->count], "not a whole number");
        if (wrong)
            return wrong;
        r->count++;
    }
    return NULL;
}

/* Reads a line without its end. Gives whether there is one; *wrong is set where it is too long. A zero byte would end the text before it is
   looked at: it is no digit and no blank, and neither is what takes its place. */
static bool read_line(FILE *file, char line[LONGEST_LINE], const char **wrong)
{
    size_t length = 0;
    int c;
    while ((c = getc(file)) != EOF && c != '\n' && length < LONGEST_LINE - 1)
        line[length++] = c == 0 ? '?' : (char)c;
    line[length] = 0;
    if (c != EOF && c != '\n')
        *wrong = "the line is too long";
    return c != EOF || length > 0;
}

/* Goes through a file's lines. Gives the count, or -1 where something is wrong, which is said. */
static int read_lines(const char *path, struct reader *r, const char *(*take)(struct reader *, char *))
{
    char line[LONGEST_LINE];
    const char *wrong = NULL;
    unsigned long number = 0;
    FILE *file = open_input(path);
    if (!file)
        return -1;
    for (; !wrong && read_line(file, line, &wrong); number++)
        wrong = wrong ? wrong : take(r, line);
    if (!close_input(file, path))
        return -1;
    if (wrong)
        complain("%s, line %lu: %s", name_of(path), number, wrong);
    else if (r->count == 0)
        complain("%s is empty", name_of(path));
    return wrong || r->count == 0 ? -1 : (int)r->count;
}

int read_rows(const char *path, uint8_t *data, uint32_t data_size)
{
    struct reader r = {.data = data, .most = data_size / ROW_LENGTH};
    return read_lines(path, &r, take_row);
}

int read_figures(const char *path, uint32_t *figures, uint32_t most)
{
    struct reader r = {.figures = figures, .most = most};
    return read_lines(path, &r, take_figures);
}

/* The sign stands by itself: the whole percents of -0.50 have none. */
static void print_rate(int32_t rate)
{
    const char *sign = rate < 0 ? "-" : "";
    int64_t hundredths = rate < 0 ? -(int64_t)rate : rate;
    printf(", rate %s%" PRId64 ".%02" PRId64 " %%", sign, hundredths / 100, hundredths % 100);
}

void print_rows(const uint8_t *data, int rows, int32_t total, const int32_t *rate)
{
    printf("%12s%12s%12s%12s\n", "quantity", "cost", "price", "margin");
    for (uint32_t i = 0; i < ROW_LENGTH * (uint32_t)rows; i += 4)
        printf("%12" PRId32 "%s", (int32_t)cc100_get_word(data + i), i % ROW_LENGTH == ROW_LENGTH - 4 ? "\n" : "");
    printf("total margin %" PRId32, total);
    if (rate)
        print_rate(*rate);
    printf("\n");
}

/* The native figures, and each figure that a machine left compared with them. */
#include <inttypes.h>
#include <stdio.h>
#include <string.h>

#include "test.h"

#define SHOWN 20 /* differences printed; the others are only counted */
#define FIGURE(field, count) {#field, offsetof(struct output, field), sizeof(((struct output *)0)->field) / (count), (count)}

static const struct {
    const char *name;
    size_t place, width, count;
} FIGURES[] = {
    FIGURE(checksum, 1), FIGURE(net_checksum, 1), FIGURE(total, 1), FIGURE(rebates, 1), FIGURE(tax, 1), FIGURE(greatest, 1),
    FIGURE(greatest_row, 1), FIGURE(returns, 1), FIGURE(sums, GROUPS), FIGURE(net, ROWS), FIGURE(rebate, ROWS),
    FIGURE(of_bookings, ROWS), FIGURE(of_pieces, ROWS), FIGURE(no_average, ROWS), FIGURE(left_out, 1), FIGURE(total_text, TOTAL_TEXT),
};

static unsigned long compared, shown;

void native_figures(const struct input *in, struct output *out)
{
    memset(out, 0, sizeof *out);
    figures(in, out);
}

static uint32_t figure(const uint8_t *bytes, size_t width)
{
    uint32_t value = 0;
    memcpy(&value, bytes, width);
    return value;
}

/* One field: gives how many of its figures differ. */
static unsigned compare_field(const char *machine, uint32_t number, size_t field, const uint8_t *native, const uint8_t *came)
{
    unsigned different = 0;
    size_t width = FIGURES[field].width;
    for (size_t i = 0, at = FIGURES[field].place; i < FIGURES[field].count; i++, at += width) {
        compared++;
        if (memcmp(native + at, came + at, width) == 0)
            continue;
        different++;
        if (shown++ < SHOWN)
            printf("DIFFERS %s, table %" PRIu32 ": %s[%zu] is 0x%" PRIx32 ", came 0x%" PRIx32 "\n", machine, number, FIGURES[field].name, i,
                   figure(native + at, width), figure(came + at, width));
    }
    return different;
}

unsigned compare_figures(const char *machine, uint32_t number, const struct output *native, const uint8_t *memory)
{
    unsigned different = 0;
    for (size_t i = 0; i < sizeof FIGURES / sizeof *FIGURES; i++)
        different += compare_field(machine, number, i, (const uint8_t *)native, memory + OUTPUT);
    return different;
}

unsigned long figures_compared(void)
{
    return compared;
}

void print_figures(const struct input *in, const struct output *out)
{
    const char *text = (const char *)out->total_text;
    int blanks = (int)strspn(text, " ");
    printf("program: %" PRIu32 " rows, total %.*s, rebates %" PRId32 " cents, tax %" PRId32 ", sums", in->rows, TOTAL_TEXT - blanks,
           text + blanks, out->rebates, out->tax);
    for (int i = 0; i < GROUPS; i++)
        printf(" %" PRId32, out->sums[i]);
    printf(", returns %" PRIu32 ", greatest %" PRId32 " in row %" PRIu32 ", averages left out %" PRIu32, out->returns, out->greatest,
           out->greatest_row, out->left_out);
    printf(", CRC-32 %08" PRIx32 " and %08" PRIx32 "\n", out->checksum, out->net_checksum);
}

/* The figures of a report: checksums, amounts with rebates by tiers, sums, tax, averages, and the total as text. Compiled from this source and
   averages.c for the host and for CC100-C; they use no library. */
#include "figures.h"

#define WHOLE 10000u /* a hundred percent, in hundredths of a percent */

static const uint16_t TAX[GROUPS] = {0, 700, 1900, 550};
static uint32_t table[256];

/* Polynomial 0xEDB88320, lowest bit first. */
static uint32_t table_entry(uint32_t value)
{
    for (int bit = 0; bit < 8; bit++)
        value = value & 1 ? value >> 1 ^ 0xEDB88320u : value >> 1;
    return value;
}

static uint32_t checksum(const uint8_t *bytes, uint32_t length)
{
    uint32_t value = 0xFFFFFFFFu;
    for (uint32_t i = 0; i < length; i++)
        value = value >> 8 ^ table[(value ^ bytes[i]) & 255];
    return ~value;
}

static uint32_t size_of(int32_t amount)
{
    return amount < 0 ? 0u - (uint32_t)amount : (uint32_t)amount;
}

static int32_t with_sign(int32_t sign, uint32_t size)
{
    return sign < 0 ? -(int32_t)size : (int32_t)size;
}

/* A part of an amount, rounded half up to the cent, and below zero as above it. The product of both would not fit in a word. */
static int32_t part(int32_t amount, uint32_t rate)
{
    uint32_t size = size_of(amount);
    return with_sign(amount, size / WHOLE * rate + (size % WHOLE * rate + WHOLE / 2) / WHOLE);
}

/* Rounded half up, and below zero as above it. */
static int32_t divide(int32_t amount, int32_t by)
{
    int32_t quotient = amount / by, rest = amount % by;
    if (2 * size_of(rest) < (uint32_t)by)
        return quotient;
    return amount < 0 ? quotient - 1 : quotient + 1;
}

static int32_t gross_of(const struct row *r)
{
    int32_t price = (int32_t)r->price;
    price += with_sign(r->change, (uint32_t)part(price, size_of(r->change) * 100));
    return divide(r->quantity * price, r->unit);
}

static uint32_t rebate_on(const struct tier *tiers, int32_t gross)
{
    uint32_t rebate = 0;
    for (int i = 0; i < TIERS && tiers[i].from <= size_of(gross); i++)
        rebate = tiers[i].rebate;
    return rebate;
}

static void add_row(const struct input *in, uint32_t i, struct output *out)
{
    const struct row *r = &in->row[i];
    int32_t gross = gross_of(r);
    uint32_t rebate = r->kind == CREDIT ? 0 : rebate_on(in->tiers[r->group], gross);
    int32_t reduction = part(gross, rebate);
    int32_t net = r->kind == CREDIT ? -gross : gross - reduction;
    out->net[i] = net;
    out->rebate[i] = (uint16_t)rebate;
    out->rebates += reduction;
    out->sums[r->group] += net;
    out->returns += r->quantity < 0;
    if (i == 0 || net > out->greatest) {
        out->greatest = net;
        out->greatest_row = i;
    }
}

static void add_sums(struct output *out)
{
    for (int i = 0; i < GROUPS; i++) {
        out->total += out->sums[i];
        out->tax += part(out->sums[i], TAX[i]);
    }
}

/* Writes an amount from the end of the text back: -1234.05; what is before it are blanks. */
static void write_amount(uint8_t *text, int32_t amount)
{
    uint32_t rest = size_of(amount), digits = 0, place = TOTAL_TEXT;
    while (rest != 0 || digits < 3) {
        if (digits == 2)
            text[--place] = '.';
        text[--place] = (uint8_t)('0' + rest % 10);
        rest /= 10;
        digits++;
    }
    if (amount < 0)
        text[--place] = '-';
    while (place > 0)
        text[--place] = ' ';
}

/* The results must be zero before. */
void figures(const struct input *in, struct output *out)
{
    for (uint32_t i = 0; i < 256; i++)
        table[i] = table_entry(i);
    for (uint32_t i = 0; i < in->rows; i++)
        add_row(in, i, out);
    add_sums(out);
    averages(in, out);
    write_amount(out->total_text, out->total);
    out->checksum = checksum(in->text, in->text_length);
    out->net_checksum = checksum((const uint8_t *)out->net, in->rows * 4);
}

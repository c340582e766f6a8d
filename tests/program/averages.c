/* Averages of the rows of a report, total / count, of signed numbers and of unsigned ones. A row whose count is 0 has no average, and is marked.

   For CC100-C the count is never tested: after the division LO is 0xFFFFFFFF and HI the dividend where it was 0 (document 02, Ticket 4), and for
   no other divisor. Natively it is tested. */
#include <stdbool.h>

#include "figures.h"

/* Gives whether there was a divisor; only then the quotient is written. */
static bool divide(bool with_sign, uint32_t dividend, uint32_t divisor, uint32_t *quotient)
{
#ifdef __mips__
    uint64_t hi_lo; /* HI in the upper half */
    if (with_sign)
        __asm__("div $0, %1, %2" : "=x"(hi_lo) : "r"(dividend), "r"(divisor));
    else
        __asm__("divu $0, %1, %2" : "=x"(hi_lo) : "r"(dividend), "r"(divisor));
    if ((uint32_t)hi_lo == 0xFFFFFFFFu && (uint32_t)(hi_lo >> 32) == dividend)
        return false;
    *quotient = (uint32_t)hi_lo;
#else
    if (divisor == 0)
        return false;
    /* 64 bits hold the quotient of -2^31 by -1 */
    *quotient = with_sign ? (uint32_t)((int64_t)(int32_t)dividend / (int32_t)divisor) : dividend / divisor;
#endif
    return true;
}

static void leave_out(struct output *out, uint32_t i, uint8_t which)
{
    out->no_average[i] |= which;
    out->left_out++;
}

static void average(struct output *out, uint32_t i, const struct totals *t)
{
    uint32_t of_bookings = 0, of_pieces = 0;
    if (!divide(true, (uint32_t)t->balance, (uint32_t)t->bookings, &of_bookings))
        leave_out(out, i, NO_BOOKINGS);
    if (!divide(false, t->turnover, t->pieces, &of_pieces))
        leave_out(out, i, NO_PIECES);
    out->of_bookings[i] = (int32_t)of_bookings;
    out->of_pieces[i] = of_pieces;
}

void averages(const struct input *in, struct output *out)
{
    for (uint32_t i = 0; i < in->rows; i++)
        average(out, i, &in->totals[i]);
}

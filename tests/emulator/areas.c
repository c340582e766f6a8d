/* The keeper of areas: ticket 6 of document 02. */
#include "machine.h"

#define KEPT 1048576u    /* bytes that the keeper has */
#define SIXTEENS 65536u  /* of these, and the bytes of its record */
#define SMALLEST_POWER 4 /* 16 */
#define LARGEST_POWER 16 /* 65,536 */

#define OTHER_SIZE 2u
#define NO_BASE 23u
#define WRONG_RECORD 24u

struct area {
    uint64_t base, size;
};

/* The areas out that a record shows, the lowest base first. */
struct out {
    uint32_t count;
    struct area areas[SIXTEENS];
};

/* The sixteens that areas out cover. */
struct cover {
    bool covered[SIXTEENS];
};

/* "a power of two from 16 to 65,536" */
static bool right_size(uint64_t size)
{
    int power = SMALLEST_POWER;
    while (power <= LARGEST_POWER && size != (uint64_t)1 << power)
        power++;
    return power <= LARGEST_POWER;
}

/* The power of a size that is right. */
static uint8_t power_of(uint32_t size)
{
    uint8_t power = SMALLEST_POWER;
    while (size != 1u << power)
        power++;
    return power;
}

/* "at the first of an area out the k of its size 2^k": a k of 64 and more is no size at all, and stands here as 0. */
static struct area area_at(const uint8_t *record, uint32_t sixteen)
{
    uint8_t k = record[sixteen];
    return (struct area){16 * (uint64_t)sixteen, k < 64 ? (uint64_t)1 << k : 0};
}

static void list_areas(const uint8_t *record, struct out *out)
{
    out->count = 0;
    for (uint32_t sixteen = 0; sixteen < SIXTEENS; sixteen++)
        if (record[sixteen] != 0)
            out->areas[out->count++] = area_at(record, sixteen);
}

/* Whether an area by itself is one that the keeper could have given: it keeps the size and base rule and does not leave the memory. */
static bool right_area(struct area a)
{
    return right_size(a.size) && a.base % a.size == 0 && a.base + a.size <= KEPT;
}

static bool any_covered(const struct cover *c, struct area a)
{
    uint64_t sixteen = a.base / 16, end = (a.base + a.size) / 16;
    while (sixteen < end && !c->covered[sixteen])
        sixteen++;
    return sixteen < end;
}

static void cover_area(struct cover *c, struct area a)
{
    for (uint64_t sixteen = a.base / 16; sixteen < (a.base + a.size) / 16; sixteen++)
        c->covered[sixteen] = true;
}

/* Whether every area out is right, and covers no sixteen that one before it has covered: then no two overlap. */
static bool cover_all(const struct out *out, struct cover *c)
{
    *c = (struct cover){{false}};
    for (uint32_t i = 0; i < out->count; i++) {
        if (!right_area(out->areas[i]) || any_covered(c, out->areas[i]))
            return false;
        cover_area(c, out->areas[i]);
    }
    return true;
}

/* Whether "the keeper's record has another length or shows areas out that overlap, leave the memory or break the size or base rule" does not
   hold. The areas out and what they cover are then told. */
static bool sound(const uint8_t *record, size_t record_length, struct out *out, struct cover *c)
{
    if (record_length != SIXTEENS)
        return false;
    list_areas(record, out);
    return cover_all(out, c);
}

/* "the lowest base that is a multiple of the size and overlaps no area out"; KEPT where there is none. */
static uint64_t lowest_base(const struct cover *c, uint32_t size)
{
    uint64_t base = 0;
    while (base + size <= KEPT && any_covered(c, (struct area){base, size}))
        base += size;
    return base + size <= KEPT ? base : KEPT;
}

static bool is_out(const struct out *out, uint32_t base, uint32_t size)
{
    uint32_t i = 0;
    while (i < out->count && (out->areas[i].base != base || out->areas[i].size != size))
        i++;
    return i < out->count;
}

uint32_t em_allocate(uint8_t *record, size_t record_length, uint32_t size, uint32_t *base)
{
    static struct out out;
    static struct cover cover;
    *base = EM_NO_PLACE;
    if (!right_size(size))
        return OTHER_SIZE;
    if (!sound(record, record_length, &out, &cover))
        return WRONG_RECORD;
    uint64_t lowest = lowest_base(&cover, size);
    if (lowest == KEPT)
        return NO_BASE;
    *base = (uint32_t)lowest;
    record[lowest / 16] = power_of(size);
    return DONE;
}

uint32_t em_release(uint8_t *record, size_t record_length, uint32_t base, uint32_t size)
{
    static struct out out;
    static struct cover cover;
    if (!right_size(size))
        return OTHER_SIZE;
    if (!sound(record, record_length, &out, &cover) || !is_out(&out, base, size))
        return WRONG_RECORD;
    record[base / 16] = 0;
    return DONE;
}

/* The keeper of areas as one would write it in C for speed: one pass over the record tries whether it is sound, and finds the lowest base on its
   way. The pass stands here twice: byte by byte, and over eight bytes at once where they are zeros, as most of a record are. */
#include <string.h>

#include "plain.h"

#define INLINE static inline __attribute__((always_inline))

#define SMALLEST 16u
#define LARGEST 65536u
#define SMALLEST_POWER 4u
#define LARGEST_POWER 16u

/* A pass over a record. Places and sizes are in sixteens of bytes, as the record has them. */
struct pass {
    uint32_t wanted; /* the size of the area to be given; 0 where none is */
    uint32_t end;    /* behind the last area so far */
    uint32_t base;   /* the lowest multiple of the wanted size where no area so far is in the way */
};

typedef int passer(const uint8_t *record, struct pass *p);

/* Takes the next area out. Gives whether it is right and begins behind the one before. A base that is a multiple of the size keeps the area
   inside the memory, since that is a multiple of every size. */
INLINE int take(struct pass *p, uint32_t at, uint32_t power)
{
    if (power < SMALLEST_POWER || power > LARGEST_POWER || at < p->end)
        return 0;
    uint32_t size = 1u << (power - SMALLEST_POWER);
    if (at & (size - 1))
        return 0;
    p->end = at + size;
    if (at < p->base + p->wanted)
        p->base = (p->end + p->wanted - 1) & ~(p->wanted - 1);
    return 1;
}

INLINE int take_bytes(const uint8_t *record, struct pass *p, uint32_t from, uint32_t to)
{
    for (uint32_t at = from; at < to; at++)
        if (record[at] && !take(p, at, record[at]))
            return 0;
    return 1;
}

INLINE int by_one(const uint8_t *record, struct pass *p) { return take_bytes(record, p, 0, CC100_RECORD_LENGTH); }

INLINE int by_eight(const uint8_t *record, struct pass *p)
{
    for (uint32_t at = 0; at < CC100_RECORD_LENGTH; at += 8) {
        uint64_t eight;
        memcpy(&eight, record + at, sizeof eight);
        if (eight && !take_bytes(record, p, at, at + 8))
            return 0;
    }
    return 1;
}

INLINE int sized(uint32_t size) { return size >= SMALLEST && size <= LARGEST && !(size & (size - 1)); }

INLINE uint8_t power_of(uint32_t size) { return (uint8_t)__builtin_ctz(size); }

INLINE struct cc100_allocated refused(uint32_t number)
{
    struct cc100_allocated a = {number, CC100_NO_PLACE};
    return a;
}

INLINE struct cc100_allocated allocate(passer *sound, uint8_t *record, size_t record_length, uint32_t size)
{
    struct pass p = {size / SMALLEST, 0, 0};
    if (!sized(size))
        return refused(CC100_REFUSED_CODE_SIZE);
    if (record_length != CC100_RECORD_LENGTH || !sound(record, &p))
        return refused(CC100_REFUSED_RECORD);
    if (p.base + p.wanted > CC100_RECORD_LENGTH)
        return refused(CC100_REFUSED_NO_SPACE);
    record[p.base] = power_of(size);
    struct cc100_allocated a = {CC100_DONE, p.base * SMALLEST};
    return a;
}

INLINE uint32_t release(passer *sound, uint8_t *record, size_t record_length, uint32_t base, uint32_t size)
{
    struct pass p = {0, 0, 0};
    if (!sized(size))
        return CC100_REFUSED_CODE_SIZE;
    if (record_length != CC100_RECORD_LENGTH || !sound(record, &p))
        return CC100_REFUSED_RECORD;
    if (base % SMALLEST || base >= CC100_KEEPER_MEMORY || record[base / SMALLEST] != power_of(size))
        return CC100_REFUSED_RECORD;
    record[base / SMALLEST] = 0;
    return CC100_DONE;
}

struct cc100_allocated plain_allocate(uint8_t *record, size_t record_length, uint32_t size)
{
    return allocate(by_one, record, record_length, size);
}

struct cc100_allocated plain_allocate_by_eight(uint8_t *record, size_t record_length, uint32_t size)
{
    return allocate(by_eight, record, record_length, size);
}

uint32_t plain_release(uint8_t *record, size_t record_length, uint32_t base, uint32_t size)
{
    return release(by_one, record, record_length, base, size);
}

uint32_t plain_release_by_eight(uint8_t *record, size_t record_length, uint32_t base, uint32_t size)
{
    return release(by_eight, record, record_length, base, size);
}

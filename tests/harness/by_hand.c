/* Ticket 6's answers, worked out from it by hand. The emulator is tried on them, as the other parts on areas trust it, and the product and plain C
   beside it. */
#include "areas.h"

/* What stands in a record, and a call. A base of NOWHERE asks for an area. */
static const struct by_hand {
    const char *name;
    uint32_t bytes[3][2]; /* index and byte */
    uint32_t length;
    struct area call;
    uint32_t number, base;
} cases[] = {
    {"16 of all", {{0}}, 65536, {NOWHERE, 16}, 0, 0},
    {"65,536 of all", {{0}}, 65536, {NOWHERE, 65536}, 0, 0},
    {"16 behind 16", {{0, 4}}, 65536, {NOWHERE, 16}, 0, 0x10},
    {"32 behind 16", {{0, 4}}, 65536, {NOWHERE, 32}, 0, 0x20},
    {"65,536 behind 16", {{0, 4}}, 65536, {NOWHERE, 65536}, 0, 0x10000},
    {"16 before 16", {{1, 4}}, 65536, {NOWHERE, 16}, 0, 0},
    {"32 past a gap of 16", {{0, 5}, {3, 4}}, 65536, {NOWHERE, 32}, 0, 0x40},
    {"16 in that gap", {{0, 5}, {3, 4}}, 65536, {NOWHERE, 16}, 0, 0x20},
    {"size 0", {{0}}, 65536, {NOWHERE, 0}, 2, NOWHERE},
    {"size 8", {{0}}, 65536, {NOWHERE, 8}, 2, NOWHERE},
    {"size 24", {{0}}, 65536, {NOWHERE, 24}, 2, NOWHERE},
    {"size 131,072", {{0}}, 65536, {NOWHERE, 131072}, 2, NOWHERE},
    {"2 before 24 by length", {{0}}, 65535, {NOWHERE, 17}, 2, NOWHERE},
    {"2 before 24 by k", {{9, 3}}, 65536, {NOWHERE, 17}, 2, NOWHERE},
    {"no record", {{0}}, 0, {NOWHERE, 16}, 24, NOWHERE},
    {"a byte too few", {{0}}, 65535, {NOWHERE, 16}, 24, NOWHERE},
    {"a byte too many", {{0}}, 65537, {NOWHERE, 16}, 24, NOWHERE},
    {"k 3", {{65535, 3}}, 65536, {NOWHERE, 16}, 24, NOWHERE},
    {"k 17", {{0, 17}}, 65536, {NOWHERE, 16}, 24, NOWHERE},
    {"32 at 0x10", {{1, 5}}, 65536, {NOWHERE, 16}, 24, NOWHERE},
    {"65,536 at the last sixteen", {{65535, 16}}, 65536, {NOWHERE, 16}, 24, NOWHERE},
    {"16 inside 32", {{0, 5}, {1, 4}}, 65536, {NOWHERE, 16}, 24, NOWHERE},
    {"16 at the end of 65,536", {{0, 16}, {4095, 4}}, 65536, {NOWHERE, 16}, 24, NOWHERE},
    {"16 behind 65,536", {{0, 16}, {4096, 4}}, 65536, {NOWHERE, 16}, 0, 0x10010},
    {"back", {{2, 5}}, 65536, {0x20, 32}, 0, 0},
    {"back by another size", {{2, 5}}, 65536, {0x20, 16}, 24, 0},
    {"its second half", {{2, 5}}, 65536, {0x30, 16}, 24, 0},
    {"a byte on", {{2, 5}}, 65536, {0x21, 32}, 24, 0},
    {"past the memory", {{2, 5}}, 65536, {0x100020, 32}, 24, 0},
    {"back by no size", {{2, 5}}, 65536, {0x20, 31}, 2, 0},
    {"back, of none", {{0}}, 65536, {0, 16}, 24, 0},
    {"back, of a record with k 2", {{2, 5}, {9, 2}}, 65536, {0x20, 32}, 24, 0},
};

static void try_by_hand(const struct by_hand *c)
{
    uint32_t base = NOWHERE;
    begin_record(c->length);
    for (size_t i = 0; i < COUNT(c->bytes); i++)
        if (c->bytes[i][0] < c->length)
            records[EMULATOR].bytes[c->bytes[i][0]] |= (uint8_t)c->bytes[i][1];
    share_record();
    now.name = c->name;
    uint32_t number = c->call.base == NOWHERE ? compare_allocate(c->call.size, &base) : compare_release(c->call);
    now.call = "the emulator's keeper";
    same_number("number", c->number, number);
    if (c->call.base == NOWHERE)
        same_number("base", c->base, base);
}

void try_areas_by_hand(void)
{
    for (size_t i = 0; i < COUNT(cases); i++)
        try_by_hand(&cases[i]);
}

/* Areas given and taken back: random records, damaged ones, and lists of calls on one record. */
#include <string.h>

#include "areas.h"

#define RECORDS 1300
#define CALLS 12 /* on one record, at most */
#define DAMAGED 1500
#define OTHER_LENGTHS 600
#define LISTS 16
#define LIST_CALLS 300
#define LEAST 50 /* times that everything counted has to happen */
#define WAYS 14u /* to hand back */

static struct counts {
    unsigned long styles[STYLES], ways[WAYS], again;
    unsigned long damages[DAMAGES], lengths, size_first, record_first, full, most_out;
} counts;

static uint32_t right_size(void) { return 16 * sixteens(SMALLEST_POWER + below(POWERS)); }

/* Mostly a power of two, mostly a right one. */
static uint32_t any_size(void)
{
    static const uint32_t wrong[] = {
        0, 1, 2, 4, 8, 12, 15, 17, 24, 31, 33, 48, 96, 4095, 4097, 65535, 65537, 65552, 98304, 131072, 0x10010, 0x00100000, 0x00110000,
        0x7FFFFFFF, 0x80000000, 0x80000010, 0xC0000000, 0xFFFF0000, 0xFFFFFFF0, 0xFFFFFFFF
    };
    switch (below(10)) {
    case 0: return PICK(wrong);
    case 1: return right_size() - 1 + 2 * below(2);
    case 2: return 1u << below(32);
    case 3: return random_value(CC100_KEEPER_MEMORY);
    default: return right_size();
    }
}

static const char *const ways[WAYS] = {
    "what is out", "its first half", "its second half", "twice its size", "another size", "a byte on", "a byte back", "16 on", "16 back",
    "its size on", "its size back", "past the memory", "the last of all addresses", "anything",
};

/* What is handed back, of an area out. */
static struct area handed_back(struct area out, uint32_t way)
{
    switch (way) {
    case 1: return (struct area){out.base, out.size / 2};
    case 2: return (struct area){out.base + out.size / 2, out.size / 2};
    case 3: return (struct area){out.base, 2 * out.size};
    case 4: return (struct area){out.base, any_size()};
    case 5: return (struct area){out.base + 1, out.size};
    case 6: return (struct area){out.base - 1, out.size};
    case 7: return (struct area){out.base + 16, out.size};
    case 8: return (struct area){out.base - 16, out.size};
    case 9: return (struct area){out.base + out.size, out.size};
    case 10: return (struct area){out.base - out.size, out.size};
    case 11: return (struct area){out.base + CC100_KEEPER_MEMORY * (1 + below(4095)), out.size};
    case 12: return (struct area){0xFFFFFFFFu - 15 * below(2), out.size};
    case 13: return (struct area){random_value(CC100_KEEPER_MEMORY), any_size()};
    default: return out;
    }
}

/* Some area out, or what could be one where there is none, or where its byte says no size. */
static struct area some_area(void)
{
    const uint8_t *record = records[EMULATOR].bytes;
    uint32_t at = records[EMULATOR].length < CC100_RECORD_LENGTH ? NOWHERE : any_area(record);
    if (at == NOWHERE || record[at] < SMALLEST_POWER || record[at] > LARGEST_POWER)
        return (struct area){16 * below(CC100_RECORD_LENGTH), right_size()};
    return (struct area){16 * at, 16 * sixteens(record[at])};
}

static uint32_t give_back_some(void)
{
    uint32_t way = below(2) ? below(WAYS) : 0;
    counts.ways[way]++;
    return compare_release(handed_back(some_area(), way));
}

/* An area given and taken back at once leaves the record byte for byte as it was. */
static void give_and_take_back(void)
{
    static struct lent saved;
    uint32_t base, size = right_size();
    if (!saved.bytes)
        saved = room_for(LONGEST_RECORD);
    copy_lent(&saved, &records[PRODUCT]);
    if (compare_allocate(size, &base) != CC100_DONE)
        return;
    same_number("number of the area given", CC100_DONE, compare_release((struct area){base, size}));
    same_lent("record after both", &saved, &records[PRODUCT]);
    counts.again++;
}

static void try_record(void)
{
    uint32_t style = (uint32_t)now.turn % STYLES, base;
    begin_record(CC100_RECORD_LENGTH);
    make_record(records[EMULATOR].bytes, &styles[style]);
    share_record();
    now.name = styles[style].name;
    counts.styles[style]++;
    for (uint32_t calls = 1 + below(CALLS); calls > 0; calls--)
        switch (below(5)) {
        case 0: case 1: compare_allocate(any_size(), &base); break;
        case 2: give_and_take_back(); break;
        default: give_back_some(); break;
        }
}

/* What every call must answer to a record that is not sound: 2 where the size is wrong, and else 24, also where no base exists. */
static void refuse_record(int full)
{
    struct area a = some_area();
    uint32_t base;
    same_number("number of an allocation", CC100_REFUSED_RECORD, compare_allocate(right_size(), &base));
    same_number("number of a release", CC100_REFUSED_RECORD, compare_release(a));
    a.size = any_size();
    counts.size_first += compare_allocate(a.size, &base) == CC100_REFUSED_CODE_SIZE;
    counts.size_first += compare_release(a) == CC100_REFUSED_CODE_SIZE;
    counts.record_first += (unsigned long)full;
}

static int is_full(const struct style *s) { return s->out == 100 && !s->gap; }

/* Not every damage can be done to every record. */
static void try_damaged(void)
{
    uint32_t damage = (uint32_t)now.turn % DAMAGES, style;
    begin_record(CC100_RECORD_LENGTH);
    do {
        style = below(STYLES);
        make_record(records[EMULATOR].bytes, &styles[style]);
    } while (!damages[damage].change(records[EMULATOR].bytes));
    share_record();
    now.name = damages[damage].name;
    refuse_record(is_full(&styles[style]));
    counts.damages[damage]++;
}

static void try_length(void)
{
    static const uint32_t lengths[] = {0, 1, 16, 4096, 65535, 65535, 65537, 65537, 65552, LONGEST_RECORD};
    static uint8_t made[CC100_RECORD_LENGTH];
    const struct style *s = &styles[below(STYLES)];
    uint32_t length = below(2) ? PICK(lengths) : below(LONGEST_RECORD + 1);
    length += length == CC100_RECORD_LENGTH;
    make_record(made, s);
    begin_record(length);
    memcpy(records[EMULATOR].bytes, made, length < sizeof made ? length : sizeof made);
    share_record();
    now.name = "length";
    refuse_record(is_full(s));
    counts.lengths++;
}

/* The areas that a list of calls was given and has not handed back, kept beside its record. */
static struct model {
    uint32_t count;
    struct area areas[LIST_CALLS];
} model;

static uint32_t overlapping(struct area a)
{
    uint32_t count = 0;
    for (uint32_t i = 0; i < model.count; i++)
        count += a.base < model.areas[i].base + model.areas[i].size && model.areas[i].base < a.base + a.size;
    return count;
}

static void give_in_list(uint32_t size)
{
    struct area a = {0, size};
    uint32_t number = compare_allocate(size, &a.base);
    counts.full += number == CC100_REFUSED_NO_SPACE;
    if (number != CC100_DONE)
        return;
    same_number("areas out that it overlaps", 0, overlapping(a));
    same_number("its base by its size", 0, a.base % size);
    same_number("it is inside", 1, a.base + (uint64_t)size <= CC100_KEEPER_MEMORY);
    model.areas[model.count++] = a;
    if (model.count > counts.most_out)
        counts.most_out = model.count;
}

static void take_back_in_list(void)
{
    uint32_t i = below(model.count);
    same_number("number of an area that is out", CC100_DONE, compare_release(model.areas[i]));
    model.areas[i] = model.areas[--model.count];
}

/* Some lists want large areas only, and fill the memory; refused calls stand among the others. At the end all is handed back. */
static void try_list(void)
{
    uint32_t least = SMALLEST_POWER + below(POWERS), base;
    begin_record(CC100_RECORD_LENGTH);
    share_record();
    now.name = "list";
    model.count = 0;
    for (uint32_t calls = 0; calls < LIST_CALLS; calls++) {
        uint32_t choice = below(10), size = 16 * sixteens(least + below(LARGEST_POWER - least + 1));
        if (choice < 6)
            give_in_list(size);
        else if (choice < 8 && model.count > 0)
            take_back_in_list();
        else if (choice == 8)
            compare_release((struct area){16 * below(CC100_RECORD_LENGTH) + 8, size});
        else
            compare_allocate(size + 1 + below(15), &base);
    }
    while (model.count > 0)
        take_back_in_list();
    same_number("an area out at the end", NOWHERE, any_area(records[PRODUCT].bytes));
}

static void require_counts(void)
{
    now.name = "count";
    at_least("areas given", 10 * LEAST, given[CC100_DONE]);
    at_least("areas not given by 2", 10 * LEAST, given[CC100_REFUSED_CODE_SIZE]);
    at_least("areas not given by 23", 10 * LEAST, given[CC100_REFUSED_NO_SPACE]);
    at_least("areas not given by 24", 10 * LEAST, given[CC100_REFUSED_RECORD]);
    at_least("areas taken back", 10 * LEAST, taken[CC100_DONE]);
    at_least("areas not taken back by 2", 10 * LEAST, taken[CC100_REFUSED_CODE_SIZE]);
    at_least("areas not taken back by 24", 10 * LEAST, taken[CC100_REFUSED_RECORD]);
    at_least("areas given and taken back at once", LEAST, counts.again);
    at_least("records of another length", 10 * LEAST, counts.lengths);
    at_least("2 before 24", LEAST, counts.size_first);
    at_least("24 where no base exists", LEAST, counts.record_first);
    at_least("23 in lists", LEAST, counts.full);
    at_least("areas out in a list", LEAST, counts.most_out);
    for (now.word = 0; now.word < STYLES; now.word++)
        at_least(styles[now.word].name, LEAST, counts.styles[now.word]);
    for (now.word = 0; now.word < DAMAGES; now.word++)
        at_least(damages[now.word].name, LEAST, counts.damages[now.word]);
    for (now.word = 0; now.word < WAYS; now.word++)
        at_least(ways[now.word], LEAST, counts.ways[now.word]);
}

static void repeat(uint64_t times, void (*part)(void))
{
    for (now.turn = 0; now.turn < times * rounds; now.turn++)
        part();
}

void test_areas(void)
{
    begin_part("areas");
    try_areas_by_hand();
    repeat(RECORDS, try_record);
    repeat(DAMAGED, try_damaged);
    repeat(OTHER_LENGTHS, try_length);
    repeat(LISTS, try_list);
    require_counts();
    end_part("%lu areas given, not by 2 %lu, by 23 %lu, by 24 %lu; %lu taken back, not by 2 %lu, by 24 %lu; of %d kinds of damage:%s, of another "
             "length %lu; up to %lu out in a list", given[0], given[2], given[23], given[24], taken[0],
             taken[2], taken[24], (int)DAMAGES, listed(counts.damages, 0, DAMAGES - 1), counts.lengths, counts.most_out);
}

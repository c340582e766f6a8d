/* Areas given and taken back: every number, its order, and what is left of the record, which stands between pages that cannot be touched, and where
   a call is refused, in pages that cannot be written. The same of plain C. */
#define _DEFAULT_SOURCE
#include <string.h>
#include <sys/mman.h>

#include "test.h"

#define LENGTH CC100_RECORD_LENGTH
#define ROOM (2 * LENGTH)
#define SMALLEST 16u
#define LARGEST 65536u
#define SMALLEST_POWER 4u
#define LARGEST_POWER 16u

/* The calls, and the same in plain C. */
static const struct {
    const char *name;
    plain_allocator *allocate;
    plain_releaser *release;
} keepers[] = {
    {"cc100", cc100_allocate, cc100_release},
    {"plain", plain_allocate, plain_release},
    {"plain, by eight", plain_allocate_by_eight, plain_release_by_eight},
};
#define KEEPERS (sizeof keepers / sizeof keepers[0])

/* What the next call is given, and what it must leave. */
static uint8_t given[ROOM], wanted[ROOM];

static void put(uint32_t address, uint32_t byte) { given[address / SMALLEST] = (uint8_t)byte; }

static void empty(void) { memset(given, 0, sizeof given); }

/* Areas of one size at every multiple of it. */
static void fill(uint32_t from, uint32_t to, uint32_t power)
{
    for (uint32_t base = from; base < to; base += 1u << power)
        put(base, power);
}

/* The record at the very end of its pages. It can be written only where it may be. */
static uint8_t *lent(uint8_t *pages, size_t length, int refused)
{
    mprotect(pages, ROOM, PROT_READ | PROT_WRITE);
    memcpy(pages + ROOM - length, given, length);
    if (refused)
        mprotect(pages, ROOM, PROT_READ);
    return pages + ROOM - length;
}

static uint8_t *room(void)
{
    static uint8_t *pages;
    if (!pages)
        pages = page(ROOM);
    return pages;
}

static void expect_record(const uint8_t *record, size_t length)
{
    size_t i = memcmp(record, wanted, length) == 0 ? length : 0;
    while (i < length && record[i] == wanted[i])
        i++;
    expect_number("bytes that are as wanted, before another", (uint32_t)length, (uint32_t)i);
}

/* What is given stays as it is left, for the next call. */
static void want(uint32_t number, uint32_t base, uint32_t byte)
{
    memcpy(wanted, given, sizeof wanted);
    if (number == CC100_DONE)
        wanted[base / SMALLEST] = (uint8_t)byte;
}

static uint32_t power_of(uint32_t size)
{
    uint32_t power = SMALLEST_POWER;
    while (power < LARGEST_POWER && size != 1u << power)
        power++;
    return power;
}

static void expect_allocation(const char *what, size_t length, uint32_t size, uint32_t number, uint32_t base)
{
    want(number, base, power_of(size));
    for (size_t i = 0; i < KEEPERS; i++) {
        uint8_t *record = lent(room(), length, number != CC100_DONE);
        calling("%s: %s, allocation of %u", what, keepers[i].name, (unsigned)size);
        cc100_allocated a = keepers[i].allocate(record, length, size);
        expect_number("number", number, a.number);
        expect_number("base", base, a.base);
        expect_record(record, length);
    }
    memcpy(given, wanted, sizeof given);
}

static void expect_release(const char *what, size_t length, uint32_t base, uint32_t size, uint32_t number)
{
    want(number, base, 0);
    for (size_t i = 0; i < KEEPERS; i++) {
        uint8_t *record = lent(room(), length, number != CC100_DONE);
        calling("%s: %s, release of %u at 0x%X", what, keepers[i].name, (unsigned)size, (unsigned)base);
        expect_number("number", number, keepers[i].release(record, length, base, size));
        expect_record(record, length);
    }
    memcpy(given, wanted, sizeof given);
}

static void expect_given(const char *what, uint32_t size, uint32_t base) { expect_allocation(what, LENGTH, size, CC100_DONE, base); }

static void expect_not_given(const char *what, uint32_t size, uint32_t number)
{
    expect_allocation(what, LENGTH, size, number, CC100_NO_PLACE);
}

static void expect_taken(const char *what, uint32_t base, uint32_t size) { expect_release(what, LENGTH, base, size, CC100_DONE); }

static void expect_not_taken(const char *what, uint32_t base, uint32_t size, uint32_t number)
{
    expect_release(what, LENGTH, base, size, number);
}

/* A record that is not sound, whatever is wanted or handed back. */
static void expect_unsound(const char *what, size_t length)
{
    expect_allocation(what, length, SMALLEST, CC100_REFUSED_RECORD, CC100_NO_PLACE);
    expect_allocation(what, length, LARGEST, CC100_REFUSED_RECORD, CC100_NO_PLACE);
    expect_allocation(what, length, SMALLEST - 1, CC100_REFUSED_CODE_SIZE, CC100_NO_PLACE);
    expect_release(what, length, 0, SMALLEST, CC100_REFUSED_RECORD);
    expect_release(what, length, 0, LARGEST, CC100_REFUSED_RECORD);
    expect_release(what, length, 0, 2 * LARGEST, CC100_REFUSED_CODE_SIZE);
}

/* All sizes that there are, one behind the other, each at the lowest multiple of it, and handed back from the first to the last. */
static void sizes(void)
{
    static const uint32_t bases[] = {0, 0x20, 0x40, 0x80, 0x100, 0x200, 0x400, 0x800, 0x1000, 0x2000, 0x4000, 0x8000, 0x10000};
    empty();
    for (uint32_t i = 0; i < sizeof bases / sizeof bases[0]; i++)
        expect_given("all sizes", SMALLEST << i, bases[i]);
    for (uint32_t i = 0; i < sizeof bases / sizeof bases[0]; i++)
        expect_taken("all sizes", bases[i], SMALLEST << i);
    expect_given("nothing out any more", LARGEST, 0);
}

static void wrong_sizes(void)
{
    static const uint32_t wrong[] = {
        0, 1, 2, 4, 8, 15, 17, 24, 32767, 65535, 65537, 98304, 131072, 0x100010, 0x7FFFFFFF, 0x80000000, 0x80000010, 0xFFFF0000, 0xFFFFFFFF
    };
    empty();
    put(0, 4);
    for (size_t i = 0; i < sizeof wrong / sizeof wrong[0]; i++) {
        expect_not_given("a wrong size", wrong[i], CC100_REFUSED_CODE_SIZE);
        expect_not_taken("a wrong size", 0, wrong[i], CC100_REFUSED_CODE_SIZE);
    }
}

/* A gap that is too small is passed over, and filled by what fits into it. */
static void gaps(void)
{
    empty();
    put(0x00, 5);
    put(0x30, 4);
    put(0x80, 7);
    expect_given("behind a gap of 16", 32, 0x40);
    expect_given("in the gap", 16, 0x20);
    expect_given("in the last gap before 0x80", 32, 0x60);
    expect_given("behind all", 16, 0x100);
    expect_given("past an area that is no multiple away", 256, 0x200);
    expect_taken("one of the first", 0x30, 16);
    expect_given("where it was", 16, 0x30);
}

/* The last base of every size, where all before it is out, and none after that. */
static void last_bases(void)
{
    for (uint32_t power = SMALLEST_POWER; power <= LARGEST_POWER; power++) {
        uint32_t size = 1u << power, last = CC100_KEEPER_MEMORY - size;
        empty();
        fill(0, last, power);
        expect_given("the last base", size, last);
        for (uint32_t other = SMALLEST; other <= LARGEST; other *= 2)
            expect_not_given("all given", other, CC100_REFUSED_NO_SPACE);
        expect_taken("the first of all", 0, size);
        if (size < LARGEST)
            expect_not_given("a gap too small", 2 * size, CC100_REFUSED_NO_SPACE);
        expect_given("the gap", size, 0);
    }
}

/* One area of 16 in each 65,536 bytes leaves no base for the largest, and room for all others. */
static void spread(void)
{
    empty();
    for (uint32_t base = 0; base < CC100_KEEPER_MEMORY; base += LARGEST)
        put(base + LARGEST - SMALLEST, SMALLEST_POWER);
    expect_not_given("16 out in each 65,536", LARGEST, CC100_REFUSED_NO_SPACE);
    expect_given("16 out in each 65,536", LARGEST / 2, 0);
    expect_taken("the last of them", CC100_KEEPER_MEMORY - SMALLEST, SMALLEST);
    expect_given("the last of them back", LARGEST, CC100_KEEPER_MEMORY - LARGEST);
}

/* 65,536 areas of 16 by 65,536 calls, each on what the one before it left; then every sixteenth is handed back. */
static void all_of_the_smallest(void)
{
    uint8_t *record = lent(room(), LENGTH, 0);
    uint32_t wrong = 0;
    memset(record, 0, LENGTH);
    calling("65,536 allocations of 16");
    for (uint32_t i = 0; i < LENGTH; i++) {
        cc100_allocated a = cc100_allocate(record, LENGTH, SMALLEST);
        wrong += a.number != CC100_DONE || a.base != SMALLEST * i;
    }
    expect_number("answers that are wrong", 0, wrong);
    memset(wanted, SMALLEST_POWER, LENGTH);
    expect_record(record, LENGTH);
    expect_number("number of one more", CC100_REFUSED_NO_SPACE, cc100_allocate(record, LENGTH, SMALLEST).number);
    calling("4,096 releases of 16");
    for (uint32_t i = 0; i < LENGTH; i += 16) {
        wrong += cc100_release(record, LENGTH, SMALLEST * i, SMALLEST) != CC100_DONE;
        wanted[i] = 0;
    }
    expect_number("answers that are wrong", 0, wrong);
    expect_record(record, LENGTH);
}

static void lengths(void)
{
    static const size_t wrong[] = {0, 1, 15, 16, 4096, LENGTH - 1, LENGTH + 1, ROOM};
    empty();
    put(0, SMALLEST_POWER);
    for (size_t i = 0; i < sizeof wrong / sizeof wrong[0]; i++)
        expect_unsound("another length", wrong[i]);
}

/* One area that is not right, in a record that is else empty or full. */
static void expect_wrong_area(const char *what, uint32_t address, uint32_t byte)
{
    empty();
    put(address, byte);
    expect_unsound(what, LENGTH);
    empty();
    fill(0, CC100_KEEPER_MEMORY, SMALLEST_POWER);
    put(address, byte);
    expect_unsound(what, LENGTH);
}

/* Every byte that is the power of no size; every power at the first place that is no multiple of its size, and at the last sixteen. */
static void wrong_areas(void)
{
    for (uint32_t byte = 1; byte <= 255; byte++)
        if (byte < SMALLEST_POWER || byte > LARGEST_POWER)
            expect_wrong_area("the power of no size", byte % 2 ? 0 : CC100_KEEPER_MEMORY - SMALLEST, byte);
    for (uint32_t power = SMALLEST_POWER + 1; power <= LARGEST_POWER; power++) {
        expect_wrong_area("a base that is no multiple", SMALLEST, power);
        expect_wrong_area("a base that is half a multiple", (1u << power) / 2, power);
        expect_wrong_area("past the end", CC100_KEEPER_MEMORY - SMALLEST, power);
    }
}

/* An area of every size with one of 16 in it: in its second sixteen, in its middle and in its last. */
static void overlaps(void)
{
    for (uint32_t power = SMALLEST_POWER + 1; power <= LARGEST_POWER; power++) {
        const uint32_t size = 1u << power, places[] = {SMALLEST, size / 2, size - SMALLEST};
        for (size_t i = 0; i < sizeof places / sizeof places[0]; i++) {
            empty();
            put(LARGEST, power);
            put(LARGEST + places[i], SMALLEST_POWER);
            expect_unsound("an area inside another", LENGTH);
        }
        put(LARGEST + places[2], 0);
        put(LARGEST + size, SMALLEST_POWER);
        expect_taken("an area just behind another", LARGEST, size);
    }
}

/* What is handed back must be out, by base and size. */
static void not_out(void)
{
    static const uint32_t bases[] = {
        0x0, 0x1000, 0x1001, 0x1008, 0x100F, 0x1010, 0x1020, 0x0FF0, 0x0FFF, 0x1040, 0xFFFF0, 0x100000, 0x101000, 0x10001000, 0xF0001000,
        0xFFFFFFF0, 0xFFFFFFFF
    };
    empty();
    put(0x1000, 6);
    for (size_t i = 0; i < sizeof bases / sizeof bases[0]; i++)
        for (uint32_t size = SMALLEST; size <= LARGEST; size *= 2)
            if (bases[i] != 0x1000 || size != 64)
                expect_not_taken("64 out at 0x1000", bases[i], size, CC100_REFUSED_RECORD);
    expect_taken("64 out at 0x1000", 0x1000, 64);
    expect_not_taken("handed back twice", 0x1000, 64, CC100_REFUSED_RECORD);
}

/* An area given breaks no rule of the checker's for layouts, as code or as data, and neither do two together. */
static void checked(void)
{
    static struct module m;
    for (uint32_t size = SMALLEST; size <= LARGEST; size *= 2) {
        uint32_t code = size, data = 2 * size;
        empty();
        put(0, SMALLEST_POWER);
        expect_given("code, behind 16", size, code);
        expect_given("data", size, data);
        calling("areas of %u as code and data", (unsigned)size);
        make_quiet(&m, (struct layout){CC100_KEEPER_MEMORY, code, size, data, size});
        expect_accepted(&m);
        make_quiet(&m, (struct layout){CC100_KEEPER_MEMORY, data, size, code, size});
        expect_accepted(&m);
    }
}

void test_areas(void)
{
    sizes();
    wrong_sizes();
    gaps();
    last_bases();
    spread();
    all_of_the_smallest();
    lengths();
    wrong_areas();
    overlaps();
    not_out();
    checked();
}

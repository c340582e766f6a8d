/* The keeper's calls, of the product, plain C and the emulator, each on a record of its own. After every call all of the records are compared. */
#include <string.h>

#include "areas.h"

/* Those that are compared with the emulator, and the emulator's names. */
static const struct {
    const char *allocate_name, *release_name;
    plain_allocator *allocate;
    plain_releaser *release;
} keepers[KEEPERS] = {
    [EMULATOR] = {"em_allocate", "em_release", NULL, NULL},
    [PRODUCT] = {"cc100_allocate", "cc100_release", cc100_allocate, cc100_release},
    [PLAIN] = {"plain_allocate", "plain_release", plain_allocate, plain_release},
    [BY_EIGHT] = {"plain_allocate_by_eight", "plain_release_by_eight", plain_allocate_by_eight, plain_release_by_eight},
};

/* What the calls so far should have left. */
static struct lent wanted;

struct lent records[KEEPERS];
unsigned long given[NUMBERS], taken[NUMBERS];

static void make_rooms(void)
{
    for (int i = 0; i < KEEPERS; i++)
        records[i] = room_for(LONGEST_RECORD);
    wanted = room_for(LONGEST_RECORD);
}

void begin_record(uint32_t length)
{
    if (!wanted.bytes)
        make_rooms();
    for (int i = 0; i < KEEPERS; i++)
        set_length(&records[i], length);
    set_length(&wanted, length);
    memset(records[EMULATOR].bytes, 0, length);
}

/* All work on what the emulator's record has now. */
void share_record(void)
{
    for (int i = 1; i < KEEPERS; i++)
        copy_lent(&records[i], &records[EMULATOR]);
    copy_lent(&wanted, &records[EMULATOR]);
}

/* The byte that a call may have changed, and no other, in each of the records. */
static void same_records(int released, uint32_t number, uint32_t base, uint8_t byte)
{
    if (number == CC100_DONE)
        wanted.bytes[base / 16] = byte;
    for (int i = 0; i < KEEPERS; i++) {
        now.call = released ? keepers[i].release_name : keepers[i].allocate_name;
        same_lent("record", &wanted, &records[i]);
    }
}

static uint8_t power_of(uint32_t size)
{
    uint8_t power = SMALLEST_POWER;
    while (power < LARGEST_POWER && size != 16 * sixteens(power))
        power++;
    return power;
}

uint32_t compare_allocate(uint32_t size, uint32_t *base)
{
    uint32_t number = em_allocate(records[EMULATOR].bytes, records[EMULATOR].length, size, base);
    now.word = size;
    for (int i = 1; i < KEEPERS; i++) {
        now.call = keepers[i].allocate_name;
        cc100_allocated came = keepers[i].allocate(records[i].bytes, records[i].length, size);
        same_number("number", number, came.number);
        same_number("base", *base, came.base);
    }
    same_records(0, number, *base, power_of(size));
    given[number]++;
    return number;
}

uint32_t compare_release(struct area a)
{
    uint32_t number = em_release(records[EMULATOR].bytes, records[EMULATOR].length, a.base, a.size);
    now.word = a.size;
    for (int i = 1; i < KEEPERS; i++) {
        now.call = keepers[i].release_name;
        same_number("number", number, keepers[i].release(records[i].bytes, records[i].length, a.base, a.size));
    }
    same_records(1, number, a.base, 0);
    taken[number]++;
    return number;
}

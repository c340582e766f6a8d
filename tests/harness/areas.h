/* The keeper of areas for the harness: the calls, and records made sound, and damaged. Places in records are counted in sixteens of bytes. */
#ifndef AREAS_H
#define AREAS_H

#include "harness.h"

#define SMALLEST_POWER 4u
#define LARGEST_POWER 16u
#define POWERS (LARGEST_POWER - SMALLEST_POWER + 1)

struct area {
    uint32_t base, size;
};

/* Who has a record of its own; all but the emulator are compared with it. */
enum { EMULATOR, PRODUCT, PLAIN, BY_EIGHT, KEEPERS };
#define LONGEST_RECORD (2 * CC100_RECORD_LENGTH)
extern struct lent records[KEEPERS];
void begin_record(uint32_t length); /* zeros, for the emulator */
void share_record(void);            /* all others get what the emulator's has now */

/* A call of each, compared in the answer and the whole record. Both give the emulator's number, and count it. */
#define NUMBERS (CC100_REFUSED_RECORD + 1)
extern unsigned long given[NUMBERS], taken[NUMBERS];
uint32_t compare_allocate(uint32_t size, uint32_t *base);
uint32_t compare_release(struct area a);

void try_areas_by_hand(void);

/* The size in sixteens of an area whose size is 2 to this power. */
uint32_t sixteens(uint32_t power);

/* How a sound record is filled: from the first sixteen to the last, with areas of these powers where they fit, so many of a hundred of them out.
   Of a record with a gap one area, that was out, is not. */
struct style {
    const char *name;
    uint32_t out, smallest, largest;
    int gap;
};
#define STYLES 13u
extern const struct style styles[STYLES];
void make_record(uint8_t *record, const struct style *s);

/* Some area out, or NOWHERE where there is none. */
uint32_t any_area(const uint8_t *record);
/* Whether none of these sixteens is in an area out of a sound record. */
int is_free(const uint8_t *record, uint32_t from, uint32_t to);

/* A way to make a sound record unsound by one byte. It gives whether it could. */
struct damage {
    const char *name;
    int (*change)(uint8_t *record);
};
#define DAMAGES 10u
extern const struct damage damages[DAMAGES];

#endif

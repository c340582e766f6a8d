/* The keeper's record as a file, and what is said of it. */
#ifndef RECORDS_H
#define RECORDS_H

#include "command.h"

#define SIXTEEN 16u /* bytes of memory that a byte of the record stands for */

/* A record that is open and locked. One byte more than a record has is read, so that the calls see where there are more. */
struct record {
    const char *path;
    int file;
    size_t length;
    uint8_t bytes[CC100_RECORD_LENGTH + 1];
};

/* Each gives whether it could be done; where not, that is said. */
bool make_record(const char *path);                                     /* an empty one, where no file is */
bool open_record(struct record *r, const char *path, bool to_change);   /* to be changed by this process alone, or only read */
bool write_record(const struct record *r, uint32_t base);               /* the byte of an area's base, so that it is on the disk */
void close_record(const struct record *r);

/* The size of the area that a byte of a sound record stands for. */
uint32_t size_at(const struct record *r, uint32_t index);

/* What is out, of a sound record: the areas, their bytes, and the largest area that cc100_allocate would give, or 0. */
struct totals {
    uint32_t areas, out, largest;
};
struct totals totals_of(const struct record *r);

/* An area that was wanted or handed back; the base of one that was wanted is CC100_NO_PLACE. */
struct asked {
    uint32_t base, size;
};

/* Why a call or a look at the record was refused by this number. Gives whether there is a text. Nothing is decided by it. */
bool describe_record(const struct record *r, uint32_t number, struct asked a, char *text, size_t size);

#endif

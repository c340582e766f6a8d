/* The keeper's record as a file: made, opened under a lock, and changed by one byte in place. And why a call refuses it, in words: the numbers
   are the calls' own. */
#define _POSIX_C_SOURCE 200809L
#include "records.h"

#include <errno.h>
#include <fcntl.h>
#include <inttypes.h>
#include <string.h>
#include <unistd.h>

#define SMALLEST_POWER 4u
#define LARGEST_POWER 16u
#define LARGEST 65536u
#define NONE UINT32_MAX /* no index */

/* By a number that is none of the standard streams': where one of these is closed, nothing that is printed may go into the record. */
static int open_apart(const char *path, int flags)
{
    int file = open(path, flags, 0666);
    if (file < 0 || file > STDERR_FILENO)
        return file;
    int apart = fcntl(file, F_DUPFD, STDERR_FILENO + 1);
    close(file);
    return apart;
}

static bool write_all(int file, const uint8_t *bytes, size_t length)
{
    for (size_t done = 0; done < length;) {
        ssize_t written = write(file, bytes + done, length - done);
        if (written < 0)
            return false;
        done += (size_t)written;
    }
    return fsync(file) == 0;
}

/* A record that could not be written whole is not left behind. */
bool make_record(const char *path)
{
    static const uint8_t zeros[CC100_RECORD_LENGTH];
    int file = open_apart(path, O_WRONLY | O_CREAT | O_EXCL);
    if (file < 0 && errno == EEXIST) {
        complain("%s is there already; it is left as it is", path);
        return false;
    }
    bool made = file >= 0 && write_all(file, zeros, sizeof zeros);
    if (!made)
        complain("cannot write %s: %s", path, strerror(errno));
    if (file >= 0 && !made)
        unlink(path);
    if (file >= 0)
        close(file);
    return made;
}

/* Waits until no other process has the file to change it, or where it is to be changed, has it at all. The lock ends when the file is closed. */
static bool lock(int file, bool to_change)
{
    struct flock whole = {.l_type = to_change ? F_WRLCK : F_RDLCK, .l_whence = SEEK_SET};
    return fcntl(file, F_SETLKW, &whole) == 0;
}

static bool read_all(struct record *r)
{
    ssize_t came = 1;
    for (r->length = 0; came > 0; r->length += (size_t)came) {
        came = read(r->file, r->bytes + r->length, sizeof r->bytes - r->length);
        if (came < 0)
            return false;
    }
    return true;
}

static void say_not_opened(const char *path)
{
    int error = errno;
    complain("cannot open %s: %s", path, strerror(error));
    if (error == ENOENT)
        complain("'cc100 areas %s new' makes an empty record", path);
}

bool open_record(struct record *r, const char *path, bool to_change)
{
    r->path = path;
    r->file = open_apart(path, to_change ? O_RDWR : O_RDONLY);
    if (r->file < 0) {
        say_not_opened(path);
        return false;
    }
    bool locked = lock(r->file, to_change), read = locked && read_all(r);
    if (!read) {
        complain("cannot %s %s: %s", locked ? "read" : "lock", path, strerror(errno));
        close_record(r);
    }
    return read;
}

bool write_record(const struct record *r, uint32_t base)
{
    uint32_t index = base / SIXTEEN;
    bool written = pwrite(r->file, r->bytes + index, 1, index) == 1 && fsync(r->file) == 0;
    if (!written)
        complain("cannot write %s: %s", r->path, strerror(errno));
    return written;
}

void close_record(const struct record *r) { close(r->file); }

uint32_t size_at(const struct record *r, uint32_t index) { return 1u << r->bytes[index]; }

/* Asked of the call on a copy, from the largest size down. */
static uint32_t largest_free(const struct record *r)
{
    static uint8_t copy[CC100_RECORD_LENGTH];
    uint32_t size = LARGEST, number = CC100_REFUSED_NO_SPACE;
    for (; size >= SIXTEEN && number != CC100_DONE; size /= 2) {
        memcpy(copy, r->bytes, sizeof copy);
        number = cc100_allocate(copy, sizeof copy, size).number;
    }
    return number == CC100_DONE ? 2 * size : 0;
}

struct totals totals_of(const struct record *r)
{
    struct totals t = {0, 0, largest_free(r)};
    for (uint32_t i = 0; i < CC100_RECORD_LENGTH; i++)
        if (r->bytes[i] != 0) {
            t.areas++;
            t.out += size_at(r, i);
        }
    return t;
}

/* The area, of those that begin before, that a sixteen is in, or NONE. Of the areas that begin up to it all are right but perhaps its own. */
static uint32_t covering(const struct record *r, uint32_t index)
{
    uint32_t last = NONE;
    for (uint32_t i = 0; i < index; i++)
        if (r->bytes[i] != 0)
            last = i;
    return last != NONE && SIXTEEN * (index - last) < size_at(r, last) ? last : NONE;
}

static bool right_power(uint8_t byte) { return byte >= SMALLEST_POWER && byte <= LARGEST_POWER; }
static bool right_base(const struct record *r, uint32_t index) { return SIXTEEN * index % size_at(r, index) == 0; }

/* The first byte that makes a record unsound, or NONE. An area whose base is a multiple of its size lies inside the memory. */
static uint32_t first_wrong(const struct record *r)
{
    uint32_t end = 0;
    for (uint32_t i = 0; i < CC100_RECORD_LENGTH; i++) {
        if (r->bytes[i] == 0)
            continue;
        if (!right_power(r->bytes[i]) || !right_base(r, i) || i < end)
            return i;
        end = i + size_at(r, i) / SIXTEEN;
    }
    return NONE;
}

/* Of a record of the right length with a wrong byte. */
static void describe_wrong(const struct record *r, uint32_t i, char *text, size_t size)
{
    int length = snprintf(text, size, "Byte %" PRIu32 " is %u", i, (unsigned)r->bytes[i]);
    uint32_t outer = covering(r, i);
    text += length, size -= (size_t)length;
    if (!right_power(r->bytes[i]))
        snprintf(text, size, ", at 0x%08" PRIx32 ": the k of an area out is from %u to %u.", SIXTEEN * i, SMALLEST_POWER, LARGEST_POWER);
    else if (!right_base(r, i))
        snprintf(text, size, ", an area of %" PRIu32 " bytes at 0x%08" PRIx32 ": its base is no multiple of its size.", size_at(r, i), SIXTEEN * i);
    else
        snprintf(text, size, ", an area of %" PRIu32 " bytes at 0x%08" PRIx32 ": it overlaps the area of %" PRIu32 " bytes at 0x%08" PRIx32 ".",
                 size_at(r, i), SIXTEEN * i, size_at(r, outer), SIXTEEN * outer);
}

static void describe_length(const struct record *r, char *text, size_t size)
{
    snprintf(text, size, "The file has %s%zu bytes, and a record has %u.", r->length > CC100_RECORD_LENGTH ? "at least " : "", r->length,
             CC100_RECORD_LENGTH);
}

/* What is out at the base of an area that was handed back, where the record is sound. */
static void describe_base(const struct record *r, uint32_t base, char *text, size_t size)
{
    uint32_t index = base / SIXTEEN, outer = base < CC100_KEEPER_MEMORY ? covering(r, index) : NONE;
    if (base >= CC100_KEEPER_MEMORY)
        snprintf(text, size, "0x%08" PRIx32 " is past the memory, which ends before 0x%08x.", base, CC100_KEEPER_MEMORY);
    else if (base % SIXTEEN != 0)
        snprintf(text, size, "0x%08" PRIx32 " is no multiple of %u, and so the base of no area.", base, SIXTEEN);
    else if (r->bytes[index] != 0)
        snprintf(text, size, "The area out at 0x%08" PRIx32 " has %" PRIu32 " bytes.", base, size_at(r, index));
    else if (outer != NONE)
        snprintf(text, size, "No area begins at 0x%08" PRIx32 ", which is in the area of %" PRIu32 " bytes at 0x%08" PRIx32 ".", base,
                 size_at(r, outer), SIXTEEN * outer);
    else
        snprintf(text, size, "Nothing is out at 0x%08" PRIx32 ".", base);
}

static void describe_space(const struct record *r, char *text, size_t size)
{
    struct totals t = totals_of(r);
    int length = snprintf(text, size, "%" PRIu32 " bytes are free", CC100_KEEPER_MEMORY - t.out);
    if (t.largest != 0)
        snprintf(text + length, size - (size_t)length, "; the largest area that there is a base for has %" PRIu32 " bytes.", t.largest);
    else
        snprintf(text + length, size - (size_t)length, ".");
}

bool describe_record(const struct record *r, uint32_t number, struct asked a, char *text, size_t size)
{
    uint32_t wrong = r->length == CC100_RECORD_LENGTH ? first_wrong(r) : NONE;
    if (number == CC100_REFUSED_NO_SPACE)
        describe_space(r, text, size);
    else if (number != CC100_REFUSED_RECORD)
        return false;
    else if (r->length != CC100_RECORD_LENGTH)
        describe_length(r, text, size);
    else if (wrong != NONE)
        describe_wrong(r, wrong, text, size);
    else
        describe_base(r, a.base, text, size);
    return true;
}

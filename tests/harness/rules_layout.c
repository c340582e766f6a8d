/* Ways to break one of rules 1 to 7 and no other. Where sizes or bases change, the words are made anew to fit them. */
#include "harness.h"

#define TRIES 20

enum { ONE_BYTE_MORE, ANY_LENGTH, LOW_HALF_FITS, LARGEST_LENGTH };

static int make_too_long(struct module *m, uint32_t detail)
{
    const uint64_t lengths[] = {
        [ONE_BYTE_MORE] = CC100_LONGEST_MEMORY + 1,
        [ANY_LENGTH] = CC100_LONGEST_MEMORY + 2 + (uint64_t)next_random(),
        [LOW_HALF_FITS] = (1ull << 32) + m->memory_length,
        [LARGEST_LENGTH] = UINT64_MAX,
    };
    m->memory_length = lengths[detail];
    return 1;
}

static int overlap(const struct module *m)
{
    return m->code_base < m->data_base + m->data_size && m->data_base < m->code_base + m->code_size;
}

/* Puts an area of an unusual size where it is clear of the other, at a multiple of four times its size. Gives whether there is room. */
static int place(struct module *m, uint32_t *base, uint32_t size)
{
    m->memory_length = CC100_LONGEST_MEMORY;
    for (int i = 0; i < TRIES; i++) {
        *base = below(CC100_LONGEST_MEMORY / size / 4) * 4 * size;
        if (!overlap(m))
            return 1;
    }
    return 0;
}

static uint32_t no_power_of_two(uint32_t least, uint32_t most)
{
    uint32_t size;
    do
        size = least + below(most - least + 1);
    while ((size & (size - 1)) == 0);
    return size;
}

enum { NO_POWER, TOO_SMALL, LITTLE_TOO_LARGE, TWICE_TOO_LARGE, EMPTY };

static int change_code_size(struct module *m, uint32_t detail)
{
    const uint32_t sizes[] = {
        [NO_POWER] = no_power_of_two(16, 300), [TOO_SMALL] = 8, [LITTLE_TOO_LARGE] = 65552, [TWICE_TOO_LARGE] = 131072
    };
    m->code_size = sizes[detail];
    m->image_length = m->code_size;
    int there = place(m, &m->code_base, m->code_size);
    make_words(m, m->code_size / 4);
    return there;
}

static int change_data_size(struct module *m, uint32_t detail)
{
    const uint32_t sizes[] = {
        [NO_POWER] = no_power_of_two(3, 300), [TOO_SMALL] = 1 + below(2), [LITTLE_TOO_LARGE] = 65540, [TWICE_TOO_LARGE] = 131072,
        [EMPTY] = 0
    };
    int there = 1;
    m->data_size = sizes[detail];
    m->data_base = 0;
    if (detail != EMPTY)
        there = place(m, &m->data_base, m->data_size);
    make_words(m, m->code_size / 4);
    return there;
}

enum { OFF_BY_WORDS, OFF_BY_BYTES, ENDS_ONE_OUTSIDE, ENDS_OUTSIDE, BEHIND_MEMORY, LAST_OF_ALL };

/* The last is at the end of all addresses, where base plus size is 0 in 32 bits. */
static void misplace(struct module *m, uint32_t *base, uint32_t size, uint32_t detail)
{
    switch (detail) {
    case OFF_BY_WORDS: *base += 4 * (1 + below(size / 4)); break;
    case OFF_BY_BYTES: *base += 1 + below(3); break;
    case ENDS_ONE_OUTSIDE: m->memory_length = *base + size - 1; break;
    case ENDS_OUTSIDE: m->memory_length = *base + below(size); break;
    case BEHIND_MEMORY: *base = ((uint32_t)m->memory_length / size + 1 + below(100)) * size; break;
    default: *base = (uint32_t)-size; break;
    }
    if (detail == OFF_BY_WORDS || detail == OFF_BY_BYTES)
        m->memory_length = CC100_LONGEST_MEMORY;
}

static int misplace_code(struct module *m, uint32_t detail)
{
    misplace(m, &m->code_base, m->code_size, detail);
    make_words(m, m->code_size / 4);
    return 1;
}

static int misplace_data(struct module *m, uint32_t detail)
{
    misplace(m, &m->data_base, m->data_size, detail);
    return 1;
}

enum { SAME_BASE, DATA_IN_CODE, CODE_IN_DATA };

/* Areas lie at multiples of their sizes, so that one of two that overlap contains the other. */
static int make_overlap(struct module *m, uint32_t detail)
{
    int larger = m->data_size > m->code_size;
    m->data_base = m->code_base / m->data_size * m->data_size;
    if (detail == DATA_IN_CODE && !larger)
        m->data_base += below(m->code_size / m->data_size) * m->data_size;
    if (detail == SAME_BASE)
        return m->data_base == m->code_base;
    return m->data_base != m->code_base && larger == (detail == CODE_IN_DATA);
}

enum { LONGER_BY_BYTES, LONGER_BY_WORDS, SHORTER_BY_BYTES, SHORTER_BY_WORDS };

/* The words that the image has keep rules 8 to 16, 22 and 25 by themselves. */
static int change_image(struct module *m, uint32_t detail)
{
    uint32_t words = m->code_size / 4, more = 1 + below(2), bytes = 1 + below(3);
    switch (detail) {
    case LONGER_BY_BYTES: make_words(m, words); m->image_length = 4 * words + bytes; break;
    case LONGER_BY_WORDS: make_words(m, words + more); m->image_length = 4 * (words + more); break;
    case SHORTER_BY_BYTES: make_words(m, words - 1); m->image_length = 4 * words - bytes; break;
    default: make_words(m, words - more); m->image_length = 4 * (words - more); break;
    }
    return 1;
}

const struct way layout_ways[] = {
    {1, "memory one byte too long", make_too_long, ONE_BYTE_MORE, 0},
    {1, "memory of any length too long", make_too_long, ANY_LENGTH, 0},
    {1, "memory too long, its low 32 bits fit", make_too_long, LOW_HALF_FITS, 0},
    {1, "memory of the largest length", make_too_long, LARGEST_LENGTH, 0},
    {2, "code size no power of two", change_code_size, NO_POWER, 0},
    {2, "code size 8", change_code_size, TOO_SMALL, 0},
    {2, "code size 65,552", change_code_size, LITTLE_TOO_LARGE, 1},
    {2, "code size 131,072", change_code_size, TWICE_TOO_LARGE, 1},
    {3, "data size no power of two", change_data_size, NO_POWER, 0},
    {3, "data size 1 or 2", change_data_size, TOO_SMALL, 0},
    {3, "data size 65,540", change_data_size, LITTLE_TOO_LARGE, 0},
    {3, "data size 131,072", change_data_size, TWICE_TOO_LARGE, 0},
    {3, "data size 0", change_data_size, EMPTY, 0},
    {4, "code base off by words", misplace_code, OFF_BY_WORDS, 0},
    {4, "code base off by bytes", misplace_code, OFF_BY_BYTES, 0},
    {4, "code ends one byte outside", misplace_code, ENDS_ONE_OUTSIDE, 0},
    {4, "code ends outside", misplace_code, ENDS_OUTSIDE, 0},
    {4, "code behind memory", misplace_code, BEHIND_MEMORY, 0},
    {4, "code at the end of all addresses", misplace_code, LAST_OF_ALL, 0},
    {5, "data base off by words", misplace_data, OFF_BY_WORDS, 0},
    {5, "data base off by bytes", misplace_data, OFF_BY_BYTES, 0},
    {5, "data ends one byte outside", misplace_data, ENDS_ONE_OUTSIDE, 0},
    {5, "data ends outside", misplace_data, ENDS_OUTSIDE, 0},
    {5, "data behind memory", misplace_data, BEHIND_MEMORY, 0},
    {5, "data at the end of all addresses", misplace_data, LAST_OF_ALL, 0},
    {6, "areas with the same base", make_overlap, SAME_BASE, 0},
    {6, "data inside the code", make_overlap, DATA_IN_CODE, 0},
    {6, "code inside the data", make_overlap, CODE_IN_DATA, 0},
    {7, "image longer by bytes", change_image, LONGER_BY_BYTES, 0},
    {7, "image longer by words", change_image, LONGER_BY_WORDS, 0},
    {7, "image shorter by bytes", change_image, SHORTER_BY_BYTES, 0},
    {7, "image shorter by words", change_image, SHORTER_BY_WORDS, 0},
    {0, NULL, NULL, 0, 0},
};

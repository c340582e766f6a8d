/* The table that the samples work on, and the samples placed and started. */
#include <stdio.h>
#include <stdlib.h>

#include "test.h"

#define LARGEST_CODE 65536u

int fits(int64_t number) { return number >= INT32_MIN && number <= INT32_MAX; }

/* Of either sign, and small where many bits are taken off. */
static int64_t random_number(uint32_t off)
{
    int64_t number = next_random() >> off;
    return next_random() % 8 ? number : -number;
}

void random_rows(struct row *rows)
{
    uint32_t quantity_off = 1 + next_random() % 31, price_off = 1 + next_random() % 31;
    for (uint32_t i = 0; i < ROWS; i++) {
        rows[i].quantity = random_number(quantity_off);
        rows[i].cost = random_number(price_off);
        rows[i].price = random_number(price_off);
    }
}

void put_rows(struct machine *m, const struct row *rows)
{
    for (uint32_t i = 0; i < ROWS; i++) {
        uint32_t address = usual.data_base + ROW_LENGTH * i;
        put_memory(m, address, (uint32_t)rows[i].quantity);
        put_memory(m, address + 4, (uint32_t)rows[i].cost);
        put_memory(m, address + 8, (uint32_t)rows[i].price);
        put_memory(m, address + 12, next_random());
    }
}

uint32_t place_sample(struct machine *m, const char *path)
{
    uint8_t word[4];
    uint32_t length = 0;
    FILE *f = fopen(path, "rb");
    if (!f) {
        perror(path);
        exit(2);
    }
    for (; length < LARGEST_CODE && fread(word, 1, sizeof word, f) == sizeof word; length += 4)
        put_memory(m, usual.code_base + length, cc100_get_word(word));
    fclose(f);
    return length;
}

void start_module(struct machine *m, uint32_t code_size)
{
    const uint8_t *image = m->memory.bytes + usual.code_base;
    for (uint32_t place = CC100_REGISTER(1); place <= CC100_LO; place += 4)
        put_state(m, place, next_random());
    put_state(m, CC100_REGISTER(DATA_REGISTER), usual.data_base);
    put_state(m, CC100_REGISTER(CODE_REGISTER), usual.code_base);
    cc100_verdict v = cc100_start(usual.code_base, code_size, usual.data_base, usual.data_size, image, code_size, m->state.bytes, m->state.length,
                                  m->memory.bytes, m->memory.length);
    want_pc(m, usual.code_base, usual.code_base + 4);
    want_state(m, CC100_STATUS, CC100_STATUS_USER);
    expect_number("number of cc100_start", CC100_DONE, v.number);
    expect_left(m);
}

void want_as_came(struct machine *m, const uint32_t *places, size_t count)
{
    for (size_t i = 0; i < count; i++)
        want_state(m, places[i], cc100_get_word(m->state.bytes + places[i]));
}

/* Random modules in random layouts: accepted as they are made, and then with words, layout or image changed. The same for straight-through ones,
   checked by that profile. */
#include <string.h>

#include "harness.h"

#define MODULES 50000
#define CHANGED 8 /* times that a module is changed */
#define OFTEN 300 /* times that each number has to be given at least */
#define NUMBERS 26
#define MOST_MEMORY (CC100_LONGEST_MEMORY - 131072)

static struct module m;
static unsigned long modules, given[NUMBERS];

static uint32_t words(void) { return word_count(&m); }

/* Words that break a rule in most places. */
static uint32_t unlikely_word(uint32_t at)
{
    switch (below(8)) {
    case 0: return to_word(&m, word_of(J, 0, 0, 0, 0), at, below(words() + 2));
    case 1: return to_word(&m, word_of(BEQ, 0, 0, 0, 0), at, below(words() + 2) - 1);
    case 2: return word_of(BREAK, 0, 0, 0, below(4) ? 15 : 15 + (1u << below(20)));
    case 3: return word_of(JALR, below(32), 0, below(32), 0);
    case 4: return word_of(below(2) ? BLTZAL : BGEZAL, 31, 0, 0, below(4));
    case 5: return random_word_of(below(3) ? MFC0 : RFE);
    case 6: return next_random();
    default: return random_word_of(1 + below(KINDS));
    }
}

static void change_word(uint32_t at)
{
    static const uint32_t registers[] = {0, 26, 27, 31}, places[] = {11, 16, 21};
    static const uint32_t steps[] = {1, 2, 4, 16, (uint32_t)-1, (uint32_t)-2, (uint32_t)-4, (uint32_t)-16};
    uint32_t *w = &m.words[at], place = PICK(places);
    switch (below(8)) {
    case 0: case 1: case 2: *w ^= 1u << below(32); break;
    case 3: *w = (*w & ~(31u << place)) | (below(2) ? PICK(registers) : below(32)) << place; break;
    case 4: *w = (*w & ~CONSTANT) | ((*w + PICK(steps)) & CONSTANT); break;
    case 5: *w = m.words[below(words())]; break;
    default: *w = unlikely_word(at); break;
    }
}

/* A guard that is nearly right: with register 0, with the operands of its OR swapped, with a bit of its mask changed, or all three words one later,
   which can be in the next bundle. Gives whether there was one at the word or after it. */
static int change_guard(uint32_t at)
{
    while (at < words() && !guarded(&m, at))
        at++;
    if (at < 2 || at + 1 >= words())
        return 0;
    uint32_t *w = &m.words[at - 2], choice = below(4), rs = w[1] & RS, rt = w[1] & RT;
    if (choice == 0) {
        w[0] &= ~RT;
        w[1] &= ~(RS | RD);
        w[2] &= ~RS;
    } else if (choice == 1) {
        w[1] = (w[1] & ~(RS | RT)) | rs >> 5 | rt << 5;
    } else if (choice == 2) {
        w[0] ^= 1u << below(16);
    } else {
        memmove(w + 1, w, 3 * sizeof *w);
        w[0] = 0;
    }
    return 1;
}

static void change_words(void)
{
    if (below(8) == 0 && change_guard(below(words())))
        return;
    for (uint32_t i = 1 + below(3); i > 0; i--)
        change_word(below(4) ? below(words()) : words() - 1 - below(3));
}

static void change_memory(void)
{
    uint64_t code_end = (uint64_t)m.code_base + m.code_size, data_end = (uint64_t)m.data_base + m.data_size;
    switch (below(4)) {
    case 0: m.memory_length = code_end - below(2); break;
    case 1: m.memory_length = data_end - below(2); break;
    case 2: m.memory_length = CC100_LONGEST_MEMORY + below(2); break;
    default: m.memory_length |= (uint64_t)next_random() << (24 + below(16)); break;
    }
}

/* A size or base a little off, or 0. */
static void change_number(uint32_t *number, uint32_t size)
{
    switch (below(7)) {
    case 0: *number += size; break;
    case 1: *number -= size; break;
    case 2: *number += below(2) ? 1 : 4; break;
    case 3: *number ^= 1u << below(32); break;
    case 4: *number = size / 2; break;
    case 5: *number = 0; break;
    default: *number = (uint32_t)-size; break;
    }
}

static void change_layout(void)
{
    switch (below(8)) {
    case 0: case 1: change_memory(); break;
    case 2: change_number(&m.code_size, m.code_size); break;
    case 3: change_number(&m.data_size, m.data_size); break;
    case 4: change_number(&m.code_base, m.code_size); break;
    case 5: change_number(&m.data_base, m.data_size); break;
    case 6: m.data_base = m.code_base / m.data_size * m.data_size; break;
    default: m.image_length = below(3) ? m.image_length + 1 + below(4) : m.image_length - 1 - below(16); break;
    }
}

/* Words changed, or the layout, or both. */
static void change(void)
{
    uint32_t choice = below(8);
    if (choice < 6)
        change_words();
    if (choice > 4)
        change_layout();
}

static void accepted_and_changed(const struct profile *p)
{
    static struct module accepted;
    now.name = "accepted module, bytes of code";
    p->make(&m, below(8) ? 1u << 18 : MOST_MEMORY);
    now.word = m.code_size;
    same_number("number of an accepted module", CC100_DONE, p->compare(&m));
    copy_module(&accepted, &m);
    now.name = "changed module, change";
    for (now.word = 0; now.word < CHANGED; now.word++) {
        copy_module(&m, &accepted);
        change();
        uint32_t number = p->compare(&m);
        if (number < NUMBERS)
            given[number]++;
    }
}

/* Of the numbers, those that the checker can answer have their bits set. */
static void change_modules(const struct profile *p, uint32_t numbers)
{
    memset(given, 0, sizeof given);
    for (modules = 0; modules < (uint64_t)MODULES * rounds; modules++) {
        now.turn = modules;
        accepted_and_changed(p);
    }
    now.name = "verdict";
    for (now.word = 0; now.word < NUMBERS; now.word++)
        at_least("modules that get it", numbers >> now.word & 1 ? OFTEN : 0, given[now.word]);
}

void test_changed(void)
{
    begin_part("changed modules");
    change_modules(&usual, 0x1FFFF | RULE(22) | RULE(25));
    end_part("%lu accepted, each changed %d times; verdicts 22 %lu, 25 %lu, 0 to 16:%s", modules, CHANGED, given[22], given[25],
             listed(given, 0, 16));
}

void test_changed_straight(void)
{
    begin_part("changed straight-through modules");
    change_modules(&straight, 0x1FFFF | RULE(20) | RULE(21) | RULE(22) | RULE(25));
    end_part("%lu accepted, each changed %d times; verdicts 20 %lu, 21 %lu, 22 %lu, 25 %lu, 0 to 16:%s", modules, CHANGED, given[20], given[21],
             given[22], given[25], listed(given, 0, 16));
}

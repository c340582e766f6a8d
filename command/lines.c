/* A module's words as lines of text. */
#include <inttypes.h>
#include <string.h>

#include "command.h"

#define BUNDLE 4u

/* What the checker says of a module of zeros, but for words of its first bundle up to a last one. No module ends in zeros: 16, which is tried
   last, says that the words themselves are taken. */
static uint32_t tried_alone(const struct layout *l, uint32_t code_size, const uint32_t *words, uint32_t count, uint32_t last)
{
    static uint8_t image[LARGEST_CODE];
    if (code_size > LARGEST_CODE)
        return CC100_REFUSED_CODE_SIZE;
    memset(image, 0, 4 * BUNDLE);
    for (uint32_t i = 0; i < count; i++)
        cc100_set_word(image + 4 * (last + 1 - count + i), words[i]);
    return cc100_check(l->memory_length, l->code_base, code_size, l->data_base, l->data_size, image, code_size).number;
}

/* Whether a word and the two before it are an access, JR or JALR with its guard. The checker decides it: it refuses the word alone by 12 or
   13, for which the smallest code size takes the least time, and takes the three in this layout. */
static bool is_guarded(const struct excerpt *e, uint32_t index)
{
    uint32_t last = index % BUNDLE, words[3], smallest = 4 * BUNDLE;
    for (uint32_t i = 0; i < 3; i++)
        words[i] = module_word(e->module, index - 2 + i);
    uint32_t alone = tried_alone(&e->layout, smallest, words + 2, 1, last);
    if (alone != CC100_REFUSED_ACCESS && alone != CC100_REFUSED_JUMP)
        return false;
    uint32_t together = tried_alone(&e->layout, e->layout.code_size, words, 3, last);
    return together == CC100_DONE || together == CC100_REFUSED_END;
}

/* Marks the words of a bundle: a guard and what it is for are three words, marked as one. */
static void mark_bundle(const struct excerpt *e, uint32_t first, char marks[BUNDLE])
{
    memset(marks, ' ', BUNDLE);
    for (uint32_t last = 2; last < BUNDLE && first + last < e->module->length / 4; last++)
        if (is_guarded(e, first + last))
            memcpy(marks + last - 2, "/|\\", 3);
}

static uint32_t address_of(const struct excerpt *e, uint32_t index) { return e->layout.code_base + 4 * index; }

static uint32_t index_of(const struct excerpt *e, uint32_t address)
{
    uint32_t place = address - e->layout.code_base;
    return place % 4 == 0 && place / 4 < e->module->length / 4 ? place / 4 : CC100_NO_PLACE;
}

uint32_t target_index(const struct excerpt *e, uint32_t index)
{
    struct text t = text_of(module_word(e->module, index), address_of(e, index));
    return t.has_target ? index_of(e, t.target) : CC100_NO_PLACE;
}

static void print_line(const struct excerpt *e, uint32_t index, char mark)
{
    uint32_t address = address_of(e, index), word = module_word(e->module, index);
    struct text t = text_of(word, address);
    if (e->arrow != CC100_NO_PLACE)
        printf(index == e->arrow ? "-->" : "   ");
    printf("%5" PRIu32 "  0x%08" PRIx32 "  %08" PRIx32, index, address, word);
    printf("  %c %s", mark, t.name);
    if (*t.operands)
        printf("%*s%s", (int)(8 - strlen(t.name)), "", t.operands);
    if (t.has_target && index_of(e, t.target) != CC100_NO_PLACE)
        printf("  (word %" PRIu32 ")", index_of(e, t.target));
    else if (t.has_target)
        printf("  (outside the module)");
    printf("\n");
}

void print_lines(const struct excerpt *e, uint32_t from, uint32_t to)
{
    char marks[BUNDLE];
    for (uint32_t i = from; i < to; i++) {
        if (i > from && i % BUNDLE == 0)
            printf("\n");
        if (i % BUNDLE == 0)
            mark_bundle(e, i, marks);
        print_line(e, i, marks[i % BUNDLE]);
    }
}

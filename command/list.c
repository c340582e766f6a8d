/* cc100 list: a module's instructions. */
#include <inttypes.h>

#include "command.h"

/* Says what of the file is no word of a module. Gives whether there is such. */
static bool says_left_over(const struct module *m)
{
    if (m->length > LARGEST_CODE)
        complain("%s is longer than the largest module, 65,536 bytes; the rest is not listed", name_of(m->path));
    else if (m->length % 4)
        complain("the length of %s, %" PRIu32 ", is no multiple of 4; what is left over is not listed", name_of(m->path), m->length);
    else
        return false;
    return true;
}

static enum status list(const struct options *o)
{
    static struct module m;
    struct excerpt e = {.module = &m, .arrow = CC100_NO_PLACE};
    if (!read_module(&m, o->files[0]))
        return STATUS_NOT_DONE;
    if (m.length == 0) {
        complain("%s is empty", name_of(m.path));
        return STATUS_NOT_DONE;
    }
    check_module(&m, o, &e.layout);
    print_lines(&e, 0, m.length / 4);
    if (!flush_output())
        return STATUS_NOT_DONE;
    return says_left_over(&m) ? STATUS_REFUSED : STATUS_DONE;
}

const struct subcommand list_command = {
    LIST, "list", "FILE", "prints a module's instructions",
    "Prints a line for each word: its index, its address, the word, and the instruction\n"
    "as assemblers write it, with the index of the word that a branch or jump leads to.\n"
    "A load, store or jump by register is marked together with the two words of its\n"
    "guard, where the checker takes the three in this layout:\n\n"
    "      0  0x00010000  3108003c  / andi    $8,$8,0x3c\n"
    "      1  0x00010004  011a4025  | or      $8,$8,$26\n"
    "      2  0x00010008  ad090000  \\ sw      $9,0($8)\n",
    1, 1, list,
};

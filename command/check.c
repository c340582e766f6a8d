/* cc100 check: a line for each module, as the verdict program's. */
#include <inttypes.h>

#include "command.h"

static void print_verdict(const char *path, bool several, cc100_verdict v, uint32_t words)
{
    if (several)
        printf("%s: ", name_of(path));
    if (v.number == CC100_DONE)
        printf("accept %" PRIu32 "\n", words);
    else if (v.place == CC100_NO_PLACE)
        printf("refuse %" PRIu32 " -\n", v.number);
    else
        printf("refuse %" PRIu32 " %" PRIu32 "\n", v.number, v.place);
}

static void print_object(const char *path, cc100_verdict v, uint32_t words)
{
    printf("{");
    print_verdict_members(path, v, words);
    printf("}\n");
}

static enum status check_file(const struct options *o, const char *path)
{
    static struct module m;
    struct layout l;
    if (!read_module(&m, path))
        return STATUS_NOT_DONE;
    cc100_verdict v = check_module(&m, o, &l);
    if (o->json)
        print_object(path, v, m.length / 4);
    else
        print_verdict(path, o->file_count > 1, v, m.length / 4);
    return v.number == CC100_DONE ? STATUS_DONE : STATUS_REFUSED;
}

static enum status check(const struct options *o)
{
    enum status status = STATUS_DONE;
    for (int i = 0; i < o->file_count; i++)
        status = worse(status, check_file(o, o->files[i]));
    return status;
}

const struct subcommand check_command = {
    CHECK, "check", "FILE...", "says in a line whether a module is accepted",
    "Prints 'accept' and the number of words, or 'refuse', the number of the rule that\n"
    "is broken, and the index of the word that breaks it or -. Where there are several\n"
    "files, each line begins with the file's name. 'cc100 explain' says why.\n",
    1, ANY_NUMBER, check,
};

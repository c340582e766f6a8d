/* cc100: checks, explains, lists and runs report modules, prints the tables of the instructions, and keeps areas of memory. */
#include <string.h>

#include "command.h"

static const struct subcommand *const subcommands[] = {
    &check_command, &explain_command, &list_command, &run_command, &tables_command, &areas_command,
};
#define SUBCOMMANDS (sizeof subcommands / sizeof subcommands[0])

static void print_help(void)
{
    printf("usage: cc100 COMMAND [OPTION]... [FILE]...\n\n"
           "Report modules in CC100-C machine code: checked, explained, listed and run, and\n"
           "given areas of memory.\n\n"
           "commands:\n");
    for (size_t i = 0; i < SUBCOMMANDS; i++)
        printf("  %-20s  %s\n", subcommands[i]->name, subcommands[i]->summary);
    printf("\noptions:\n"
           "  --help                says this; 'cc100 COMMAND --help' says more of a command\n"
           "  --version             says the version\n\n"
           "FILE is a module: 16-byte bundles of four words, without a header. - stands for\n"
           "standard input. Of areas it is the record.\n\n"
           "Exit status: 0 done or accepted, 1 refused or not complete, 2 not to be done\n"
           "(wrong usage, a file that cannot be read or written).\n");
}

static enum status work(int count, char **arguments)
{
    if (count < 2)
        return wrong_usage(NULL, "no command is named");
    if (strcmp(arguments[1], "--help") == 0 || strcmp(arguments[1], "-h") == 0) {
        print_help();
        return STATUS_DONE;
    }
    if (strcmp(arguments[1], "--version") == 0) {
        printf("cc100 %s\n", VERSION);
        return STATUS_DONE;
    }
    for (size_t i = 0; i < SUBCOMMANDS; i++)
        if (strcmp(arguments[1], subcommands[i]->name) == 0) {
            struct options o;
            enum status status;
            bool go_on = read_options(subcommands[i], count - 1, arguments + 1, &o, &status);
            return go_on ? subcommands[i]->work(&o) : status;
        }
    return wrong_usage(NULL, "there is no command '%s'", arguments[1]);
}

/* What could not be written is noticed at the end at the latest: until then it may stand in a buffer. */
int main(int count, char **arguments)
{
    enum status status = work(count, arguments);
    return (int)(flush_output() ? status : STATUS_NOT_DONE);
}

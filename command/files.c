/* Input: files and standard input; modules. */
#include <errno.h>
#include <stdarg.h>
#include <string.h>

#include "command.h"

enum status worse(enum status one, enum status other) { return one > other ? one : other; }

void complain(const char *format, ...)
{
    va_list values;
    va_start(values, format);
    fprintf(stderr, "cc100: ");
    vfprintf(stderr, format, values);
    fprintf(stderr, "\n");
    va_end(values);
}

bool flush_output(void)
{
    static bool failed;
    errno = 0;
    if (!failed && (fflush(stdout) != 0 || ferror(stdout))) {
        failed = true;
        complain("cannot write the output%s%s", errno ? ": " : "", errno ? strerror(errno) : "");
    }
    return !failed;
}

const char *name_of(const char *path) { return strcmp(path, "-") == 0 ? "standard input" : path; }

FILE *open_input(const char *path)
{
    static bool taken;
    if (strcmp(path, "-") == 0) {
        if (taken)
            complain("standard input can be read only once");
        FILE *input = taken ? NULL : stdin;
        taken = true;
        return input;
    }
    FILE *file = fopen(path, "rb");
    if (!file)
        complain("cannot open %s: %s", path, strerror(errno));
    return file;
}

/* errno is that of the last read, if it failed. */
bool close_input(FILE *file, const char *path)
{
    int error = errno;
    bool failed = ferror(file);
    if (file != stdin)
        fclose(file);
    if (failed)
        complain("cannot read %s: %s", name_of(path), strerror(error));
    return !failed;
}

bool read_module(struct module *m, const char *path)
{
    FILE *file = open_input(path);
    if (!file)
        return false;
    m->path = path;
    m->length = (uint32_t)fread(m->image, 1, sizeof m->image, file);
    return close_input(file, path);
}

uint32_t module_word(const struct module *m, uint32_t index) { return cc100_get_word(m->image + 4 * index); }

cc100_verdict check_module(const struct module *m, const struct options *o, struct layout *l)
{
    *l = o->layout;
    if (!o->code_size_given)
        l->code_size = m->length;
    cc100_verdict (*check)(uint64_t, uint32_t, uint32_t, uint32_t, uint32_t, const uint8_t *, size_t) =
        o->straight ? cc100_check_straight : cc100_check;
    return check(l->memory_length, l->code_base, l->code_size, l->data_base, l->data_size, m->image, m->length);
}

uint32_t last_bundle(const struct layout *l) { return l->code_size / 4 - 4; }

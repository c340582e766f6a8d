/* The words of figures.words in memory. */
#include <inttypes.h>
#include <stdio.h>
#include <string.h>

#include "test.h"

_Static_assert(__BYTE_ORDER__ == __ORDER_LITTLE_ENDIAN__, "input and results are copied as bytes, which needs a little-endian host");

/* Gives whether the line is a comment or a word that fits. */
static bool load_line(struct program *p, const char *line)
{
    char mark;
    uint32_t address, word;
    if (line[0] == '#')
        return true;
    if (sscanf(line, "%c %" SCNx32 " %" SCNx32, &mark, &address, &word) != 3 || address % 4 != 0 || address >= INPUT)
        return false;
    memcpy(p->memory + address, &word, 4);
    if (mark == 'c')
        p->code_end = address + 4;
    return true;
}

bool load_program(struct program *p, const char *path)
{
    char line[200];
    bool good = true;
    FILE *f = fopen(path, "r");
    if (f == NULL) {
        perror(path);
        return false;
    }
    memset(p, 0, sizeof *p);
    while (good && fgets(line, sizeof line, f) != NULL)
        good = load_line(p, line);
    fclose(f);
    if (!good)
        fprintf(stderr, "%s: not a word: %s", path, line);
    return good && p->code_end > START;
}

/* Each run begins with the same memory but for its input. */
void place_input(uint8_t *memory, const struct program *p, const struct input *in)
{
    memcpy(memory, p->memory, MEMORY);
    memcpy(memory + INPUT, in, sizeof *in);
}

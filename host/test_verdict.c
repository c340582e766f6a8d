/* The verdict program: what it prints for modules on its standard input, and its exit status, which is 0 whatever the verdict is. */
#define _POSIX_C_SOURCE 200809L
#include <signal.h>
#include <stdio.h>
#include <stdlib.h>
#include <sys/wait.h>
#include <time.h>

#include "test.h"

#define OUTPUT "target/host/verdict.output"
#define TEXT 256
#define LARGEST 65536
#define JUMP 0x08004000u /* to the first word */

/* Writes in pieces, each after the program had time to read the one before: what it reads then ends where a piece does. */
static void write_pieces(FILE *to, const uint8_t *bytes, size_t length, size_t piece)
{
    struct timespec pause = {0, 1000000};
    for (size_t i = 0; i < length; i += piece) {
        fwrite(bytes + i, 1, length - i < piece ? length - i : piece, to);
        fflush(to);
        nanosleep(&pause, NULL);
    }
}

static void read_output(char *text)
{
    FILE *f = fopen(OUTPUT, "rb");
    if (!f) {
        perror(OUTPUT);
        exit(2);
    }
    text[fread(text, 1, TEXT - 1, f)] = 0;
    fclose(f);
}

static void expect_line(const char *program, const char *name, const uint8_t *bytes, size_t length, size_t piece, const char *line)
{
    char command[512], came[TEXT];
    snprintf(command, sizeof command, "%s > " OUTPUT " 2>&1", program);
    FILE *pipe = popen(command, "w");
    if (!pipe) {
        perror(program);
        exit(2);
    }
    write_pieces(pipe, bytes, length, piece);
    int ended = pclose(pipe);
    read_output(came);
    calling("%s, %zu bytes, %s, in pieces of %zu", program, length, name, piece);
    expect_number("exit status", 0, WIFEXITED(ended) ? (uint32_t)WEXITSTATUS(ended) : 256);
    expect_text("output", line, came);
}

struct example {
    const char *name;
    uint32_t words[8];
    const char *line;
};

/* Document 01's marked cases and its refusal table from 8 on, and ticket 7's mask. */
static const struct example examples[] = {
    {"M", {0x3108003C, 0x011A4025, 0xAD090000, 0x0000000C, 0, 0, JUMP, 0}, "accept 8\n"},
    {"C10", {0x3108003F, 0x011A4025, 0xAD090000, 0x0000000C, 0, 0, JUMP, 0}, "refuse 22 0\n"},
    {"C11", {0x31080040, 0x011A4025, 0xAD090000, 0x0000000C, 0, 0, JUMP, 0}, "refuse 22 0\n"},
    {"mask 0x34", {0x31080034, 0x011A4025, 0xAD090000, 0x0000000C, 0, 0, JUMP, 0}, "refuse 25 0\n"},
    {"C12", {0x3108003C, 0x011A4025, 0xAD090000, 0x0000000C, 0, 0, 0x08004001, 0}, "refuse 15 6\n"},
    {"no instruction", {0xFFFFFFFF, 0, 0, 0, 0, 0, JUMP, 0}, "refuse 8 0\n"},
    {"RFE", {0x42000010, 0, 0, 0, 0, 0, JUMP, 0}, "refuse 9 0\n"},
    {"LUI 26", {0x3C1A0000, 0, 0, 0, 0, 0, JUMP, 0}, "refuse 10 0\n"},
    {"BGEZAL 31", {0x07F10000, 0, 0, 0, 0, 0, JUMP, 0}, "refuse 11 0\n"},
    {"SW without guard", {0xAD090000, 0, 0, 0, 0, 0, JUMP, 0}, "refuse 12 0\n"},
    {"JR without guard", {0x03E00008, 0, 0, 0, 0, 0, JUMP, 0}, "refuse 13 0\n"},
    {"J after J", {JUMP, JUMP, 0, 0, 0, 0, JUMP, 0}, "refuse 14 1\n"},
    {"J to the last word", {0x08004007, 0, 0, 0, 0, 0, JUMP, 0}, "refuse 15 0\n"},
    {"zeros", {0, 0, 0, 0, 0, 0, 0, 0}, "refuse 16 6\n"},
};

/* Whole, and in pieces that do not end where words do. */
static void each_example(const char *program)
{
    static const size_t pieces[] = {32, 1, 5, 31};
    for (size_t i = 0; i < sizeof examples / sizeof examples[0]; i++) {
        uint8_t bytes[32];
        for (size_t w = 0; w < 8; w++)
            cc100_set_word(bytes + 4 * w, examples[i].words[w]);
        for (size_t p = 0; p < sizeof pieces / sizeof pieces[0]; p++)
            expect_line(program, examples[i].name, bytes, sizeof bytes, pieces[p], examples[i].line);
    }
}

/* Of zeros, and with a jump in the last word but one where there is one. */
static void each_length(const char *program)
{
    static const size_t wrong[] = {0, 1, 8, 15, 17, 24, 28, 31, 33, 65535, LARGEST + 1, LARGEST + 4, 2 * LARGEST};
    static uint8_t bytes[2 * LARGEST];
    char line[TEXT];
    for (size_t i = 0; i < sizeof wrong / sizeof wrong[0]; i++) {
        expect_line(program, "zeros", bytes, wrong[i], 2 * LARGEST, "refuse 2 -\n");
        expect_line(program, "zeros", bytes, wrong[i], 1 + wrong[i] / 50, "refuse 2 -\n");
    }
    for (size_t length = 16; length <= LARGEST; length *= 2) {
        size_t piece = 1 + length / 50;
        snprintf(line, sizeof line, "refuse 16 %zu\n", length / 4 - 2);
        expect_line(program, "zeros", bytes, length, piece, line);
        cc100_set_word(bytes + length - 8, JUMP);
        snprintf(line, sizeof line, "accept %zu\n", length / 4);
        expect_line(program, "a loop", bytes, length, piece, line);
        expect_line(program, "a loop", bytes, length, length, line);
        cc100_set_word(bytes + length - 8, 0);
    }
}

/* The last word of the largest module is read too, and one byte behind it is noticed. */
static void largest(const char *program)
{
    static uint8_t bytes[LARGEST + 1];
    cc100_set_word(bytes + LARGEST - 8, JUMP);
    cc100_set_word(bytes + LARGEST - 4, 0xFFFFFFFF);
    expect_line(program, "a last word that is no instruction", bytes, LARGEST, LARGEST, "refuse 8 16383\n");
    cc100_set_word(bytes + LARGEST - 4, 0);
    expect_line(program, "a loop", bytes, LARGEST, LARGEST, "accept 16384\n");
    expect_line(program, "a loop and a byte", bytes, LARGEST + 1, LARGEST, "refuse 2 -\n");
}

/* The program may end before all is written to it: writing then fails, which is no matter. */
void test_verdict(const char *program)
{
    void (*before)(int) = signal(SIGPIPE, SIG_IGN);
    each_example(program);
    each_length(program);
    largest(program);
    signal(SIGPIPE, before);
    remove(OUTPUT);
}

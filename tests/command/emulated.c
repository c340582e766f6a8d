/* The second emulator as a program, for the tests of the command: it shares nothing with the product.

       emulated run FILE STEPS [FIGURE]...
       emulated check|straight FILE MEMORY_LENGTH CODE_BASE CODE_SIZE DATA_BASE DATA_SIZE
       emulated words

   The first places a module at 0x10000 in 196,608 bytes of memory, with its data area at 0x20000, and starts it as demand 3 says: in user
   mode at its first word, register 26 the data base, register 27 the code base; all else is 0. It takes up to so many steps and prints a line
   for each: the address, the word, the address and width of its access and 1 for a store or 0 for a load, three zeros where there is none,
   and registers 0 to 31, HI and LO after it, in hexadecimal; or, where the step exits, the address, the word, `exit` and the number, and ends.
   While figures are left, SYSCALL 0 does not end it: register 8 gets the figure's place, 0, 4, 8 and so on, and register 9 the figure, and the
   module is resumed. At the end it prints `data` and the first 16 words of the data area. It does not look whether the module is accepted.

   The second prints the checker's verdict in the verdict program's words, `straight` that on a straight-through module. The third prints a
   line for each of the 72 instructions: its name, and the word that it is written as with every field 0 but a control register, which is 8. */
#include <inttypes.h>
#include <stdio.h>
#include <stdlib.h>
#include <string.h>

#include "emulator.h"

#define MEMORY_LENGTH 196608u
#define CODE_BASE 0x10000u
#define DATA_BASE 0x20000u
#define WORDS_SHOWN 16u
#define LONGEST 131072u
#define SYSTEM_CALL 46u
#define SYSCALL_0 0x0000000Cu

/* The places of words in a state, as document 01 lists them: registers, HI and LO are words 0 to 33. */
enum { REGISTERS_HI_LO = 34, PC = 34, NEXT_PC = 35, STATUS = 38 };
#define USER_MODE 8u

static uint8_t image[LONGEST], memory[MEMORY_LENGTH], state[EM_STATE_LENGTH];

static uint32_t get(const uint8_t *bytes)
{
    return bytes[0] | (uint32_t)bytes[1] << 8 | (uint32_t)bytes[2] << 16 | (uint32_t)bytes[3] << 24;
}

static void put(uint8_t *bytes, uint32_t word)
{
    for (int i = 0; i < 4; i++)
        bytes[i] = (uint8_t)(word >> 8 * i);
}

static size_t load(const char *path)
{
    FILE *file = fopen(path, "rb");
    if (!file) {
        perror(path);
        exit(2);
    }
    size_t length = fread(image, 1, sizeof image, file);
    fclose(file);
    return length;
}

static void start(size_t length)
{
    memcpy(memory + CODE_BASE, image, length < DATA_BASE - CODE_BASE ? length : DATA_BASE - CODE_BASE);
    put(state + 4 * PC, CODE_BASE);
    put(state + 4 * NEXT_PC, CODE_BASE + 4);
    put(state + 4 * STATUS, USER_MODE);
    put(state + 4 * 26, DATA_BASE);
    put(state + 4 * 27, CODE_BASE);
}

static void print_registers(void)
{
    for (uint32_t i = 0; i < REGISTERS_HI_LO; i++)
        printf(" %" PRIx32, get(state + 4 * i));
    printf("\n");
}

/* One step, as a line. Gives the exit, or 0. */
static uint32_t step(void)
{
    uint32_t address = get(state + 4 * PC);
    uint32_t word = address <= MEMORY_LENGTH - 4 ? get(memory + address) : 0;
    printf("%" PRIx32 " %" PRIx32, address, word);
    struct em_access access;
    uint32_t number = em_step(state, sizeof state, memory, sizeof memory, &access);
    if (number == 0) {
        printf(" %" PRIx32 " %" PRIx32 " %" PRIx32, access.address, access.width, access.store);
        print_registers();
    } else {
        printf(" exit %" PRIu32 "\n", number);
    }
    return number;
}

/* What the command does at SYSCALL 0. */
static void give(uint32_t place, uint32_t figure)
{
    put(state + 4 * 8, place);
    put(state + 4 * 9, figure);
    if (em_resume(state, sizeof state, memory, sizeof memory) != 0)
        exit(2);
}

static int run(int count, char **arguments)
{
    unsigned long steps = strtoul(arguments[1], NULL, 10);
    int given = 0;
    start(load(arguments[0]));
    while (steps > 0) {
        uint32_t number = step();
        steps -= number == 0;
        if (number == 0)
            continue;
        if (number != SYSTEM_CALL || get(memory + get(state + 4 * PC)) != SYSCALL_0 || given == count - 2)
            break;
        give(4 * (uint32_t)given, (uint32_t)strtol(arguments[2 + given], NULL, 10));
        given++;
    }
    printf("data");
    for (uint32_t i = 0; i < WORDS_SHOWN; i++)
        printf(" %" PRIx32, get(memory + DATA_BASE + 4 * i));
    printf("\n");
    return 0;
}

static uint32_t number_of(const char *text) { return (uint32_t)strtoul(text, NULL, 10); }

static int check(em_checker *checker, char **arguments)
{
    size_t length = load(arguments[0]);
    struct em_module m = {
        strtoull(arguments[1], NULL, 10), number_of(arguments[2]), number_of(arguments[3]), number_of(arguments[4]),
        number_of(arguments[5]), image, length,
    };
    em_print_verdict(checker, &m);
    return 0;
}

/* Only a control register may not be 0. */
static int words(void)
{
    for (uint32_t kind = 1; kind <= EM_KINDS; kind++) {
        uint32_t word;
        if (em_write((struct em_instruction){.kind = kind}, &word) != 0 && em_write((struct em_instruction){.kind = kind, .rd = 8}, &word) != 0)
            return 2;
        printf("%s %" PRIx32 "\n", em_name(kind), word);
    }
    return 0;
}

int main(int count, char **arguments)
{
    if (count == 2 && strcmp(arguments[1], "words") == 0)
        return words();
    if (count >= 4 && strcmp(arguments[1], "run") == 0)
        return run(count - 2, arguments + 2);
    if (count == 8 && strcmp(arguments[1], "check") == 0)
        return check(em_check, arguments + 2);
    if (count == 8 && strcmp(arguments[1], "straight") == 0)
        return check(em_check_straight, arguments + 2);
    fprintf(stderr, "usage: emulated run FILE STEPS [FIGURE]... | check|straight FILE MEMORY_LENGTH CODE_BASE CODE_SIZE DATA_BASE DATA_SIZE | words\n");
    return 2;
}

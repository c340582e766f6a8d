/* cc100 tables: which instruction stands where, by the fields of a word, for whoever reads a word aloud. */
#include <inttypes.h>

#include "command.h"

/* Eight places to a row: the three lowest bits of a place's number are those of its column. */
#define COLUMNS 8u
#define MOST_BITS 6u

/* A table by one field. Its words have one opcode, and those of a place the place's number in the field. */
struct table {
    const char *name, *heading;
    uint32_t opcode;       /* 0 in the first, whose field it is */
    uint32_t lowest, bits; /* of the field */
    uint32_t rest[2];      /* the other bits of the words that the reader is asked about, one after the other */
};

/* Instructions read with zeros in their other fields, but MFC0 and MTC0 want a control register, such as 8, and RFE its function. */
static const struct table tables[] = {
    {"opcode", "By the opcode", 0, 26, 6, {0, 0}},
    {"SPECIAL", "SPECIAL, by the function", 0, 0, 6, {0, 0}},
    {"REGIMM", "REGIMM, by rt", 1, 16, 5, {0, 0}},
    {"COP0", "COP0, by rs", 16, 21, 5, {8u << 11, 16}},
};
#define COUNT (sizeof tables / sizeof tables[0])

static uint32_t places(const struct table *t) { return 1u << t->bits; }

/* The name of the table that an opcode leads to, or NULL. */
static const char *table_of(uint32_t opcode)
{
    for (size_t i = 1; i < COUNT; i++)
        if (tables[i].opcode == opcode)
            return tables[i].name;
    return NULL;
}

/* The mnemonic that words with this place's number read as, or NULL. */
static const char *read_at(const struct table *t, uint32_t place)
{
    uint32_t word = t->opcode << 26 | place << t->lowest;
    uint32_t kind = cc100_read(word | t->rest[0]).kind;
    return mnemonic_of(kind ? kind : cc100_read(word | t->rest[1]).kind);
}

/* What stands at a place: the name of another table, a mnemonic, or NULL. */
static const char *entry(const struct table *t, uint32_t place)
{
    const char *other = t == tables ? table_of(place) : NULL;
    return other ? other : read_at(t, place);
}

/* A place's number in binary, with dots for the bits that are not in the mask. */
static void write_bits(char text[MOST_BITS + 1], const struct table *t, uint32_t place, uint32_t mask)
{
    for (uint32_t bit = t->bits; bit-- > 0; text++)
        *text = mask >> bit & 1 ? (char)('0' + (place >> bit & 1)) : '.';
    *text = 0;
}

static void print_cell(uint32_t column, const char *text) { printf(column == COLUMNS - 1 ? "%s\n" : "%-9s", text); }

static void print_columns(const struct table *t)
{
    char text[MOST_BITS + 1];
    printf("%-8s", "");
    for (uint32_t column = 0; column < COLUMNS; column++) {
        write_bits(text, t, column, COLUMNS - 1);
        print_cell(column, text);
    }
}

static void print_row(const struct table *t, uint32_t first)
{
    char text[MOST_BITS + 1];
    write_bits(text, t, first, ~(COLUMNS - 1));
    printf("%-8s", text);
    for (uint32_t column = 0; column < COLUMNS; column++) {
        const char *found = entry(t, first + column);
        print_cell(column, found ? found : "-");
    }
}

static void print_table(const struct table *t)
{
    printf("%s%s, bits %" PRIu32 " to %" PRIu32 ":\n\n", t == tables ? "" : "\n", t->heading, t->lowest + t->bits - 1, t->lowest);
    print_columns(t);
    for (uint32_t first = 0; first < places(t); first += COLUMNS)
        print_row(t, first);
}

static void print_object(const struct table *t)
{
    printf("{\"table\":\"%s\",\"highest_bit\":%" PRIu32 ",\"lowest_bit\":%" PRIu32, t->name, t->lowest + t->bits - 1, t->lowest);
    for (uint32_t place = 0; place < places(t); place++) {
        const char *found = entry(t, place);
        printf(place == 0 ? ",\"places\":[" : ",");
        printf(found ? "\"%s\"" : "null", found);
    }
    printf("]}\n");
}

static enum status print_tables(const struct options *o)
{
    for (size_t i = 0; i < COUNT; i++)
        if (o->json)
            print_object(&tables[i]);
        else
            print_table(&tables[i]);
    return STATUS_DONE;
}

const struct subcommand tables_command = {
    TABLES, "tables", "", "prints the 72 instructions by the fields of a word",
    "Prints the four tables that say which instruction a word is: by its opcode and,\n"
    "where that says SPECIAL, REGIMM or COP0, by another field in the table of that\n"
    "name. A place's number is the bits of its row and then those of its column; a -\n"
    "is a place that no instruction has.\n",
    0, 0, print_tables,
};

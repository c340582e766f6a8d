/* The input and the results of figures.c and averages.c. Their layout is the same for the host and for CC100-C: each field lies at a multiple of its
   size, and words are little-endian. */
#ifndef FIGURES_H
#define FIGURES_H

#include <stdint.h>

#define GROUPS 4
#define TIERS 4
#define ROWS 32
#define TEXT 256
#define TOTAL_TEXT 16

enum { SALE = 0, CREDIT = 1 };

/* A row of a report. */
struct row {
    uint32_t price;   /* in cents, of `unit` pieces */
    int16_t quantity; /* pieces; below zero: returned */
    uint16_t unit;    /* not zero */
    int8_t change;    /* of the price, in percent */
    uint8_t group;    /* below GROUPS */
    uint8_t kind;     /* SALE or CREDIT: a credit has no rebate, and its amount is given back */
    uint8_t unused;
};

/* The rebate, in hundredths of a percent, on amounts of `from` cents and more. Tiers rise. */
struct tier {
    uint32_t from;
    uint16_t rebate, unused;
};

/* What the averages of a row are made of: amounts in cents and how many they are of. Any of these can be 0. */
struct totals {
    int32_t balance, bookings; /* bookings that were taken back count below zero */
    uint32_t turnover, pieces;
};

/* An average that there is not, as its count is 0. */
enum { NO_BOOKINGS = 1, NO_PIECES = 2 };

struct input {
    uint32_t rows, text_length;
    struct tier tiers[GROUPS][TIERS];
    struct row row[ROWS];
    struct totals totals[ROWS];
    uint8_t text[TEXT];
};

/* Amounts are in cents. */
struct output {
    uint32_t checksum, net_checksum; /* CRC-32 of the text and of the bytes of `net` */
    int32_t total, rebates, tax;
    int32_t greatest; /* the greatest net amount, or 0 without rows */
    uint32_t greatest_row, returns;
    int32_t sums[GROUPS]; /* net */
    int32_t net[ROWS];
    int32_t of_bookings[ROWS]; /* averages, cut off towards zero; 0 where there is none */
    uint32_t of_pieces[ROWS];
    uint32_t left_out;         /* averages that there are not, of both kinds */
    uint16_t rebate[ROWS];     /* that was given, in hundredths of a percent */
    uint8_t no_average[ROWS];  /* NO_BOOKINGS, NO_PIECES or both */
    uint8_t total_text[TOTAL_TEXT];
};

void figures(const struct input *in, struct output *out);
void averages(const struct input *in, struct output *out); /* averages.c: a part of the figures */

#endif

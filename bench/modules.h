/* The modules that the checks and the start are timed on, and where they are to run: of the largest and of the smallest size. */
#ifndef MODULES_H
#define MODULES_H

#include "cc100.h"

#define LARGEST 65536u
#define SMALLEST 16u

#define MEMORY_LENGTH 196608u
#define CODE_BASE 0x10000u
#define DATA_BASE 0x20000u
#define DATA_SIZE 4096u

/* A module of each size and, in the second of each, a straight-through one. */
extern uint8_t large[2][LARGEST], small[2][SMALLEST];

/* Code such as a compiler writes, and the smallest loop that asks its host for something. */
void make_modules(void);

#endif

/* What the parts of the wrong units share: wrong.c, wrong_writers.c and wrong_checks.c. */
#ifndef WRONG_H
#define WRONG_H

#include "inputs.h"

/* Whether this is the fault that was asked for. */
int fault(const char *name);

/* A word by one plain store, and by two. */
void store(uint64_t *kept, size_t at, uint64_t value);
void in_halves(uint64_t *kept, size_t at, uint64_t value);

/* Two words by one instruction: a vector's store, or on AArch64 also that of a pair of general registers. */
void both(uint64_t *kept, size_t at, uint64_t low, uint64_t high);

#endif

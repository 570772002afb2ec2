/* What the parts of box/stores share: stores.c, writers.c for the calls that write to the queue, and checks.c for the one that
 * stores nothing. */
#ifndef STORES_H
#define STORES_H

#include "call.h"
#include "watch.h"

/* Over all calls; the stores are those to kept memory, to the second table and to the recorder. */
extern uint64_t watched_calls, watched_stores, refused_calls[CALLS], done_calls[CALLS];

/* Tells what is wrong and ends the program. */
void fail(const char *what, ...);
void all_came_up(const char *of, const uint64_t *counts, size_t count);

/* A call to be made on the watched memory, with what is lent there; and what it gave. */
struct watched_call {
    const struct call *call;
    const struct input *input;
    struct outcome outcome;
};
void make_watched(void *watched_call);

/* The stores to words are the expected ones, and no other store is complained of. */
void compare_stores(const char *name, const struct trace *trace, const struct store *expected, size_t count);

void check_writers(struct dice *dice, int rounds);

/* Batches that fill the largest queue at once, going round, and of one command too many. They take long, and show no wrong unit that
 * the smaller ones do not. */
void check_largest_batches(struct dice *dice, int rounds);
void report_writers(void);

void check_checks(struct dice *dice, int rounds);
void report_checks(void);

#endif

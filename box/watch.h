/* Sees every store that compiled code makes to kept memory, to the second table, to the queue or to the commands, those that change
 * nothing included.
 *
 * They lie in memory that is mapped read-only, so each store faults. The handler decodes the instruction, writes down what it
 * stores and where, makes the store through a second, writable mapping of the same memory, and goes on after the instruction. To
 * kept memory and to the second table only the plain store of one 64-bit register (on x86-64 also of a constant) to an aligned word
 * is taken. Whatever else stores there, be it narrower, wider, a pair, a vector, or one that also reads, ends the call with a
 * complaint. To a queue that is lent to be written a store may have any size; else any store there is a complaint, and so is one
 * to the commands. */
#ifndef WATCH_H
#define WATCH_H

#include <stddef.h>
#include <stdint.h>

#include "inputs.h"

/* A word of kept memory, or from TABLE_AT on one of the second table. */
struct store {
    size_t word;
    uint64_t value;
};

/* Bytes of the queue, which may lie before or behind it, and how many stores to kept memory came before. */
struct queue_store {
    ptrdiff_t at;
    size_t size, after;
};

struct trace {
    size_t count;
    struct store stores[MOST_STORES];
    size_t queue_count;
    struct queue_store queue_stores[2 * QUEUE_ROOM];
    char complaint[160]; /* empty if there is none */
};

/* What an instruction stores, and where; whether it is a plain store of 64 bits. */
struct decoded {
    uintptr_t address;
    size_t size;
    unsigned char bytes[32];
    int plain;
};

/* Whether the instruction at the context's program counter is a store that is known. It makes the instruction's other changes to
 * registers, and steps over it. Each machine has its own. */
int decode_store(void *context, struct decoded *decoded);
const unsigned char *instruction_at(void *context);

void watch_start(void);

/* Copies an input into the watched memory, its kept memory `shift` words off a page boundary and its queue as many bytes; the second
 * table follows the kept memory. The queue is lent to be read. */
void watch_load(const struct input *input, size_t shift);

/* Lends commands, or the batches of a check, and the queue to be written. */
void watch_lend(const uint64_t *commands, size_t command_words);

uint64_t *watch_kept(void);
const uint8_t *watch_queue(void);
const uint64_t *watch_commands(void);

/* Runs a call and gives what it stored. A call that earned a complaint has not returned. */
const struct trace *watch(void (*call)(void *), void *argument);

#endif

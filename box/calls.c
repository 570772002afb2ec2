/* calls [SEED [COUNT]]: pseudo-random calls of the unit, and what comes of them as numbers that can be compared between machines.
 *
 * Accepted images and recorders, several calls in a row on each, and damaged ones; every call. Prints a hash over every number
 * returned, every answer, every word of kept memory and of the second table and every byte of a queue that is written, now and
 * then while it goes on, and how often each call gave each number and each end. Ends with 1 where a refusal or an end never came
 * up, or a call wrote beside its memory. */
#include <inttypes.h>
#include <stdio.h>
#include <stdlib.h>
#include <string.h>

#include "call.h"

enum { REFUSALS = 24, ENDS = 6, MARK_EVERY = 10000 };

/* What each call can return, a bit for each number, and how many ends its answer has. */
static const unsigned RETURNS[CALLS] = {0x601F, 0xB8F,  0x2F,     0x4F,     0xF,     0x100F,  0x40F,
                                        0xF,    0x638F, 0x380001, 0x70001F, 0x80600F, 0x18001, 0x38001, 0x58001};
static const unsigned ENDS_OF[CALLS] = {5, 2, 0, 0, 0, 0, 6, 0, 2, 0, 0, 3, 3, 0, 0};

static uint64_t hash = UINT64_C(0xCBF29CE484222325), returned[CALLS][REFUSALS], ended[CALLS][ENDS];

/* A multiplication that spreads a word's bits, so that order and place count. */
static void take(uint64_t word) {
    hash = (hash ^ word) * UINT64_C(0x9E3779B97F4A7C15);
    hash ^= hash >> 29;
}

static void stop(const char *why, enum which which) {
    printf("calls: %s: %s\n", CALL_NAMES[which], why);
    exit(1);
}

/* Makes a check, whose batches stay as they are. */
static void call_on_batches(const struct call *call, struct input *input, uint64_t *kept, struct outcome *outcome) {
    static uint64_t commands[COMMANDS_ROOM];
    memcpy(commands, call->commands, 8 * call->command_words);
    make_call(call, input, kept, input->queue, outcome);
    if (memcmp(commands, call->commands, 8 * call->command_words)) stop("wrote to a batch", call->which);
}

/* Makes a call, of the writers on a queue with marked bytes on both sides of it, and takes what it left there. */
static void call_on_queue(const struct call *call, struct input *input, uint64_t *kept, struct outcome *outcome) {
    static uint8_t memory[16 + QUEUE_ROOM + 16], *const queue = memory + 16;
    static const uint8_t mark[16] = {0x5A, 0xFE, 0x5A, 0xFE, 0x5A, 0xFE, 0x5A, 0xFE};
    if (call->which == CHECK_BATCH) {
        call_on_batches(call, input, kept, outcome);
        return;
    }
    if (call->which != WRITE_COMMAND && call->which != WRITE_BATCH) {
        make_call(call, input, kept, input->queue, outcome);
        return;
    }
    memcpy(memory, mark, sizeof mark);
    memcpy(queue, input->queue, input->bytes);
    memcpy(queue + input->bytes, mark, sizeof mark);
    make_call(call, input, kept, queue, outcome);
    if (memcmp(memory, mark, sizeof mark) || memcmp(queue + input->bytes, mark, sizeof mark))
        stop("wrote beside the queue", call->which);
    for (size_t i = 0; i < input->bytes; i++) take(queue[i]);
    memcpy(input->queue, queue, input->bytes);
}

/* Makes one call on memory with marked words on both sides of it and of the second table, and takes everything that it left. */
static void one(const struct call *call, struct input *input) {
    static const uint64_t mark = UINT64_C(0x5AFE5AFE5AFE5AFE);
    uint64_t memory[BOTH + 1], *kept = memory + 1, *table = kept + TABLE_AT;
    struct {
        uint64_t before;
        struct outcome outcome;
        uint64_t after;
    } told = {mark, {0, {mark, mark, mark, mark, mark, mark, mark, mark}}, mark};
    memory[0] = mark;
    memcpy(kept, input->kept, 8 * input->words);
    memcpy(table, input->kept + TABLE_AT, 8 * input->table_words);
    kept[input->words] = mark;
    table[-1] = table[input->table_words] = mark;
    call_on_queue(call, input, kept, &told.outcome);
    if (memory[0] != mark || kept[input->words] != mark) stop("wrote beside kept memory", call->which);
    if (table[-1] != mark || table[input->table_words] != mark) stop("wrote beside the second table", call->which);
    if (told.before != mark || told.after != mark) stop("wrote beside its answer", call->which);
    if (told.outcome.returned >= REFUSALS || told.outcome.answer[0] == mark) stop("no such number", call->which);
    take(told.outcome.returned);
    for (int i = 0; i < 8; i++) take(told.outcome.answer[i]);
    for (size_t i = 0; i < input->words; i++) take(kept[i]);
    for (size_t i = 0; i < input->table_words; i++) take(table[i]);
    memcpy(input->kept, kept, 8 * input->words);
    memcpy(input->kept + TABLE_AT, table, 8 * input->table_words);
    returned[call->which][told.outcome.returned]++;
    if (ENDS_OF[call->which] && !told.outcome.returned) ended[call->which][told.outcome.answer[0] % ENDS]++;
}

/* Prints the counts, and says whether one that should be there is 0, or one that cannot be is not. */
static int report(void) {
    int wrong = 0;
    for (enum which which = RUN; which < CALLS; which++) {
        printf("calls: %-17s returned", CALL_NAMES[which]);
        for (unsigned i = 0; i < REFUSALS; i++) {
            if (returned[which][i]) printf(" %u: %" PRIu64, i, returned[which][i]);
            wrong |= (returned[which][i] != 0) != (RETURNS[which] >> i & 1);
        }
        for (unsigned i = 0; i < ENDS; i++) {
            if (ENDS_OF[which]) printf("%s%" PRIu64, i ? ", " : "; ended ", ended[which][i]);
            wrong |= (ended[which][i] != 0) != (i < ENDS_OF[which]);
        }
        printf("\n");
    }
    return wrong;
}

/* Another image or recorder, and how many calls are to be made on it. */
static uint64_t start(struct dice *dice, struct input *input, int events) {
    if (events) any_ring(dice, input);
    else any_input(dice, input, LARGEST, 8);
    uint64_t calls = 1 + below(dice, 8);
    if (below(dice, 3)) return calls;
    if (events) damage_ring(dice, input);
    else damage(dice, input);
    return 1;
}

static void any(struct dice *dice, struct input *input, int events, struct call *call) {
    if (events) {
        any_event(dice, EVENT_WRITE + (enum which)below(dice, CALLS - EVENT_WRITE), call);
        any_record(dice, input);
    } else {
        enum which which = (enum which)below(dice, EVENT_WRITE);
        any_call(dice, input, which, call);
    }
}

int main(int argc, char **argv) {
    static struct input input;
    struct dice dice = {argc > 1 ? strtoull(argv[1], NULL, 0) : 1};
    uint64_t count = argc > 2 ? strtoull(argv[2], NULL, 0) : 200000, left = 0;
    struct call call;
    int events = 0;
    for (uint64_t i = 1; i <= count; i++) {
        if (left == 0) {
            events = below(&dice, 4) == 0;
            left = start(&dice, &input, events);
        }
        left--;
        any(&dice, &input, events, &call);
        one(&call, &input);
        if (i % MARK_EVERY == 0) printf("calls: %" PRIu64 " made, hash %016" PRIx64 "\n", i, hash);
    }
    int wrong = report();
    printf("calls: %" PRIu64 " calls, hash %016" PRIx64 "\n", count, hash);
    if (wrong) printf("calls: a number or an end never came up, or cannot be\n");
    return wrong;
}

/* What a call takes, for box/cost. `cost` prints the best of many times of each call, in nanoseconds; `cost CALL` makes that call
 * once, for its instructions to be counted. The tables are full but for the row that a fill takes, and the queue is empty but for
 * a run: there 256 commands wait, every second of which removes a row. */
#include <inttypes.h>
#include <stdio.h>
#include <stdlib.h>
#include <string.h>
#include <time.h>

#include "tahvenno.h"

enum { ROWS = 128, LAST = ROWS - 1, REGIONS = TAHVENNO_MAX_REGIONS, LOG2SIZE = 8, SLOTS = 1 << LOG2SIZE, TIMES = 2000 };

static const uint64_t STE = TAHVENNO_ROW(TAHVENNO_STE) | TAHVENNO_LAST_LEVEL;
static uint64_t kept[TAHVENNO_WORDS(ROWS)], table[TAHVENNO_TABLE_WORDS(REGIONS)];
static uint64_t events[TAHVENNO_EVENT_WORDS(TAHVENNO_MAX_EVENT_N)];
static uint64_t commands[TAHVENNO_COMMAND_WORDS * SLOTS], answer[TAHVENNO_ANSWER_WORDS];
static uint8_t queue[TAHVENNO_QUEUE_BYTES(LOG2SIZE)], record[TAHVENNO_RECORD_BYTES];

static uint64_t bypass(uint64_t stream) {
    return TAHVENNO_PUT(TAHVENNO_STREAM, stream) | TAHVENNO_PUT(TAHVENNO_CONFIG, TAHVENNO_CONFIG_BYPASS);
}

static void prepare(void) {
    kept[0] = TAHVENNO_PUT(TAHVENNO_LOG2SIZE, LOG2SIZE) | TAHVENNO_CMDQEN;
    for (uint64_t row = 0; row < ROWS; row++) {
        kept[TAHVENNO_WORDS(row)] = STE;
        kept[TAHVENNO_WORDS(row) + 1] = bypass(row);
    }
    for (size_t row = 0; row < REGIONS; row++) table[TAHVENNO_TABLE_WORDS(row)] = TAHVENNO_REGION(TAHVENNO_4KB);
    events[0] = TAHVENNO_PUT(TAHVENNO_EVENT_N, TAHVENNO_MAX_EVENT_N);
    for (size_t i = 0; i < SLOTS; i++) {
        uint64_t *command = commands + TAHVENNO_COMMAND_WORDS * i;
        command[TAHVENNO_CMD_CODE] = i % 2 ? 0x46 : 0x03;
        command[TAHVENNO_CMD_STREAM] = i % 2 ? 0 : i / 2;
    }
}

static uint64_t write_batch(void) {
    return tahvenno_write_batch(kept, TAHVENNO_WORDS(ROWS), queue, sizeof queue, commands, TAHVENNO_COMMAND_WORDS * SLOTS, 0,
                                answer);
}

static uint64_t write_command(void) {
    return tahvenno_write_command(queue, TAHVENNO_SLOT_BYTES, commands, 0, answer);
}

static void prepare_run(void) {
    prepare();
    if (write_batch()) exit(1);
}

static uint64_t run(void) {
    return tahvenno_run(kept, TAHVENNO_WORDS(ROWS), table, TAHVENNO_TABLE_WORDS(REGIONS), queue, sizeof queue, 0, UINT64_MAX,
                        answer);
}

static void prepare_fills(void) {
    prepare();
    kept[TAHVENNO_WORDS(LAST)] = table[TAHVENNO_TABLE_WORDS(REGIONS - 1)] = 0;
}

static uint64_t fill(void) {
    return tahvenno_fill(kept, TAHVENNO_WORDS(ROWS), LAST, STE, bypass(LAST), 0, 0, 4, answer);
}

static uint64_t table_fill(void) {
    return tahvenno_table_fill(kept, TAHVENNO_WORDS(ROWS), table, TAHVENNO_TABLE_WORDS(REGIONS), REGIONS - 1,
                               TAHVENNO_REGION(TAHVENNO_4KB), 0, 2, answer);
}

static uint64_t doorbell(void) {
    return tahvenno_doorbell(kept, TAHVENNO_WORDS(ROWS), SLOTS, answer);
}

static uint64_t event_write(void) {
    return tahvenno_event_write(events, TAHVENNO_EVENT_WORDS(TAHVENNO_MAX_EVENT_N), record, TAHVENNO_RECORD_STORES, answer);
}

static const struct {
    const char *name;
    void (*prepare)(void);
    uint64_t (*make)(void);
} CALLS[] = {
    {"run", prepare_run, run},         {"fill", prepare_fills, fill},          {"table_fill", prepare_fills, table_fill},
    {"doorbell", prepare, doorbell},   {"event_write", prepare, event_write},  {"write_command", prepare, write_command},
    {"write_batch", prepare, write_batch},
};
enum { COUNT = sizeof CALLS / sizeof CALLS[0] };

/* The nanoseconds of one call. */
static uint64_t timed(size_t call) {
    struct timespec before, after;
    CALLS[call].prepare();
    clock_gettime(CLOCK_MONOTONIC, &before);
    uint64_t returned = CALLS[call].make();
    clock_gettime(CLOCK_MONOTONIC, &after);
    if (returned) {
        fprintf(stderr, "cost: %s is refused with %" PRIu64 "\n", CALLS[call].name, returned);
        exit(1);
    }
    return (uint64_t)(after.tv_sec - before.tv_sec) * 1000000000 + (uint64_t)after.tv_nsec - (uint64_t)before.tv_nsec;
}

int main(int count, char **words) {
    for (size_t call = 0; call < COUNT; call++) {
        if (count > 1 && strcmp(words[1], CALLS[call].name)) continue;
        uint64_t best = timed(call);
        for (int i = 1; count == 1 && i < TIMES; i++) {
            uint64_t next = timed(call);
            if (next < best) best = next;
        }
        printf("%s %" PRIu64 "\n", CALLS[call].name, best);
    }
    return 0;
}

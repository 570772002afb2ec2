#include "check.h"

#include <inttypes.h>
#include <stdarg.h>
#include <stdio.h>
#include <stdlib.h>

struct counts counts;

static uint64_t state = UINT64_C(0x9E3779B97F4A7C15);

uint64_t roll(void) { /* xorshift64*, from one fixed state on */
    state ^= state >> 12;
    state ^= state << 25;
    state ^= state >> 27;
    return state * UINT64_C(0x2545F4914F6CDD1D);
}

uint64_t below(uint64_t limit) {
    return (roll() >> 32) % limit;
}

uint64_t any_width(void) {
    uint64_t shift = below(64);
    return roll() >> shift;
}

uint64_t up_to(uint64_t most) {
    switch (below(4)) {
    case 0: return 0;
    case 1: return most;
    default: return most == UINT64_MAX ? roll() : roll() % (most + 1);
    }
}

void fail(const char *format, ...) {
    va_list values;
    va_start(values, format);
    fputs("c: failed: ", stdout);
    vprintf(format, values);
    putchar('\n');
    va_end(values);
    exit(1);
}

int main(void) {
    check_names();
    check_commands();
    check_recorders();
    check_memories();
    check_controls();
    check_rows(20000);
    check_bad_fields(500);
    check_words(100000);
    check_meaning(5000);
    printf("c: %" PRIu64 " rows built, filled and read; %" PRIu64 " fields out of range named; %" PRIu64
           " rows judged as the unit does, %" PRIu64 " of them accepted; ",
           counts.built, counts.named, counts.judged, counts.accepted);
    printf("%" PRIu64 " accesses; %" PRIu64 " memories; %" PRIu64 " commands; %" PRIu64 " names\n", counts.accesses,
           counts.memories, counts.commands, counts.names);
    return 0;
}

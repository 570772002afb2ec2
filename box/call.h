/* The calls of the unit as values, so that a test can make the same call twice. */
#ifndef CALL_H
#define CALL_H

#include "fields.h"

enum which {
    RUN,
    FILL,
    DOORBELL,
    ACKNOWLEDGE,
    ENABLE,
    CLEAR_PENDING,
    TRANSLATE,
    STATE,
    TABLE_FILL,
    WRITE_COMMAND, /* the writers */
    WRITE_BATCH,
    CHECK_BATCH,
    EVENT_WRITE, /* those from here on are on a recorder */
    EVENT_READ,
    EVENT_ACKNOWLEDGE,
    CALLS
};

struct call {
    enum which which;
    uint64_t allowance; /* run, either fill, event write */
    uint64_t row, w[4]; /* fill; that of the second table has two words; row also the slot of a write_command */
    uint64_t argument;  /* doorbell: WR; enable: on; write_command: the slot's length */
    struct access access;
    const uint64_t *commands; /* the writers; lives until the next any_call. Both batches of a check are in it, as bytes: they begin
                               * at byte `row` and `argument`, and have w[0] and w[1] of them */
    size_t command_words;
};

struct outcome {
    uint64_t returned;
    uint64_t answer[8];
};

extern const char *const CALL_NAMES[CALLS];

/* Makes a call on this memory, with the second table in it, and queue, with the input's lengths and features. Only the writers write
 * to the queue. */
void make_call(const struct call *call, const struct input *input, uint64_t *kept, const uint8_t *queue, struct outcome *outcome);

/* A call of this kind that fits the input, more often than not. */
void any_call(struct dice *dice, const struct input *input, enum which which, struct call *call);

/* So many commands of 16 words, about one in `rarity` of which is refused; none if that is 0. */
void any_commands(struct dice *dice, uint64_t features, uint64_t count, uint64_t rarity, uint64_t *commands);

/* Two batches for a check of this image, of so many commands at most. */
void any_batches(struct dice *dice, const struct input *input, uint64_t most, struct call *call);

/* A call on a recorder, whatever is in it. */
void any_event(struct dice *dice, enum which which, struct call *call);

#endif

/* Empty memories, and what their first words say, taken apart: compared with what the unit says of them, and with counts of what
 * was done to them. */
#include <inttypes.h>
#include <string.h>

#include "check.h"

enum { QUEUE_BYTES = TAHVENNO_SLOT_BYTES << TAHVENNO_MAX_LOG2SIZE, NOISE = 0x5A, UNKNOWN = 0xFF };

static uint64_t kept[TAHVENNO_WORDS(TAHVENNO_MAX_ROWS) + 1], table[TAHVENNO_TABLE_WORDS(TAHVENNO_MAX_REGIONS) + 1];
static uint8_t queue[QUEUE_BYTES];
static uint64_t answer[TAHVENNO_ANSWER_WORDS];

static void expect(const char *what, uint64_t got, uint64_t wanted) {
    if (got != wanted) fail("%s: %" PRIu64 ", and should be %" PRIu64, what, got, wanted);
}

/* Words that nobody has written to. */
static void expect_noise(const char *what, const uint64_t *words, size_t from, size_t to) {
    for (; from < to; from++)
        if (words[from] != UINT64_MAX / UINT8_MAX * NOISE) fail("%s: word %zu is written", what, from);
}

static uint64_t make_run(size_t words, uint64_t regions, uint64_t log2size, uint64_t allowance) {
    return tahvenno_run(kept, words, table, TAHVENNO_TABLE_WORDS(regions), queue, TAHVENNO_QUEUE_BYTES(log2size), 0, allowance,
                        answer);
}

static void check_kept(uint64_t rows, uint64_t log2size, bool enabled) {
    size_t words = TAHVENNO_WORDS(rows);
    const uint64_t wanted[TAHVENNO_ANSWER_WORDS] = {0, 0, 0, 0, enabled};
    memset(kept, NOISE, sizeof kept);
    expect("an empty kept memory", tahvenno_empty_kept(kept, rows, log2size, enabled), TAHVENNO_BUILT);
    expect_noise("an empty kept memory", kept, words, words + 1);
    expect("the state of an empty memory", tahvenno_state(kept, words, answer), 0);
    if (memcmp(answer, wanted, sizeof answer)) fail("an empty memory has another state");
    expect("an empty table", tahvenno_empty_table(table, 1), TAHVENNO_BUILT);
    expect("a run", make_run(words, 1, log2size, 0), 0);
    expect("its end", answer[0], enabled ? TAHVENNO_EMPTY : TAHVENNO_OFF);
    for (size_t i = TAHVENNO_ROW_AT(0); i < words; i++) expect("a word of an empty row", kept[i], 0);
    counts.memories++;
}

static void check_table(uint64_t rows) {
    size_t words = TAHVENNO_TABLE_WORDS(rows);
    memset(table, NOISE, sizeof table);
    expect("an empty table", tahvenno_empty_table(table, rows), TAHVENNO_BUILT);
    expect_noise("an empty table", table, words, words + 1);
    tahvenno_empty_kept(kept, 1, 0, true);
    expect("a run", make_run(TAHVENNO_WORDS(1), rows, 0, 0), 0);
    for (size_t i = TAHVENNO_REGION_AT(0); i < words; i++) expect("a word of an empty table", table[i], 0);
    counts.memories++;
}

static void check_refused(void) {
    static const uint64_t rows[] = {0, TAHVENNO_MAX_ROWS + 1, UINT64_MAX / 4, UINT64_MAX};
    static const uint64_t regions[] = {0, TAHVENNO_MAX_REGIONS + 1, UINT64_MAX / 2, UINT64_MAX};
    static const uint64_t sizes[] = {TAHVENNO_MAX_LOG2SIZE + 1, 31, 32, UINT64_MAX};
    memset(kept, NOISE, sizeof kept);
    memset(table, NOISE, sizeof table);
    for (size_t i = 0; i < 4; i++) {
        expect("too few rows, or too many", tahvenno_empty_kept(kept, rows[i], 0, true), TAHVENNO_FIELD_ROWS);
        expect("too large a queue", tahvenno_empty_kept(kept, 1, sizes[i], true), TAHVENNO_FIELD_LOG2SIZE);
        expect("too few regions, or too many", tahvenno_empty_table(table, regions[i]), TAHVENNO_FIELD_ROWS);
    }
    expect_noise("a refused kept memory", kept, 0, sizeof kept / sizeof kept[0]);
    expect_noise("a refused table", table, 0, sizeof table / sizeof table[0]);
    tahvenno_empty_kept(kept, 1, 0, true);
    kept[0] |= TAHVENNO_PUT(TAHVENNO_LOG2SIZE, sizes[0]);
    expect("too large a queue, for the unit", tahvenno_state(kept, TAHVENNO_WORDS(1), answer), 2);
    expect("too many rows, for the unit", tahvenno_state(kept, TAHVENNO_WORDS(rows[1]), answer), 1);
}

void check_memories(void) {
    for (uint64_t rows = 1; rows <= TAHVENNO_MAX_ROWS; rows += rows < 4 || rows >= 997 ? 1 : 331)
        for (uint64_t log2size = 0; log2size <= TAHVENNO_MAX_LOG2SIZE; log2size++)
            for (int enabled = 0; enabled < 2; enabled++) check_kept(rows, log2size, enabled);
    for (uint64_t rows = 1; rows <= TAHVENNO_MAX_REGIONS; rows++) check_table(rows);
    check_refused();
}

/* What was done to a queue, counted without end. */
struct done {
    uint64_t rd, wr, log2size;
    bool gerror, gerrorn, enabled, pending;
};

static void compare_control(const struct done *done) {
    struct tahvenno_control control;
    uint64_t indexes = UINT64_C(2) << done->log2size;
    tahvenno_read_control(kept[0], &control);
    expect("the state", tahvenno_state(kept, TAHVENNO_WORDS(1), answer), 0);
    expect("rd", control.rd, answer[0]);
    expect("wr", control.wr, answer[1]);
    expect("err", control.err, answer[2]);
    expect("active", control.active, answer[3]);
    expect("enabled", control.enabled, answer[4]);
    expect("rd, as counted", control.rd, done->rd % indexes);
    expect("wr, as counted", control.wr, done->wr % indexes);
    expect("waiting", control.waiting, done->wr - done->rd);
    expect("log2size", control.log2size, done->log2size);
    expect("gerror", control.gerror, done->gerror);
    expect("gerrorn", control.gerrorn, done->gerrorn);
    expect("pending", control.pending, done->pending);
    expect("enabled, as set", control.enabled, done->enabled);
    counts.memories++;
}

/* A command at WR, which asks for an interrupt or is illegal, and the doorbell. */
static void ring(struct done *done, bool legal) {
    uint64_t fields[TAHVENNO_COMMAND_WORDS], slots = UINT64_C(1) << done->log2size;
    uint8_t *slot = queue + TAHVENNO_SLOT_BYTES * (done->wr % slots);
    if (done->wr - done->rd == slots) return;
    tahvenno_cmd_sync(fields, TAHVENNO_CS_IRQ);
    expect("a CMD_SYNC", tahvenno_write_command(slot, TAHVENNO_SLOT_BYTES, fields, 0, answer), 0);
    if (!legal) slot[0] = UNKNOWN;
    expect("a doorbell", tahvenno_doorbell(kept, TAHVENNO_WORDS(1), (done->wr + 1) % (2 * slots), answer), 0);
    done->wr++;
}

static void run(struct done *done) {
    uint64_t slots = UINT64_C(1) << done->log2size;
    tahvenno_empty_table(table, 1);
    expect("a run", make_run(TAHVENNO_WORDS(1), 1, done->log2size, below(4)), 0);
    done->rd += answer[1];
    done->pending |= answer[4] > 0;
    if (answer[0] != TAHVENNO_RAISED) return;
    done->gerror = !done->gerror;
    queue[TAHVENNO_SLOT_BYTES * (done->rd % slots)] = TAHVENNO_CODE_SYNC; /* the guest mends it */
}

void check_controls(void) {
    for (uint64_t log2size = 0; log2size <= TAHVENNO_MAX_LOG2SIZE; log2size += log2size < 4 ? 1 : 4) {
        struct done done = {.log2size = log2size, .enabled = true};
        tahvenno_empty_kept(kept, 1, log2size, true);
        for (unsigned i = 0; i < 2000; i++) {
            uint64_t what = below(8);
            if (what < 3) ring(&done, what);
            else if (what < 5) run(&done);
            else if (what == 5 && !tahvenno_acknowledge(kept, TAHVENNO_WORDS(1), answer)) done.gerrorn = done.gerror;
            else if (what == 6 && !tahvenno_clear_pending(kept, TAHVENNO_WORDS(1), answer)) done.pending = false;
            else if (what == 7) tahvenno_enable(kept, TAHVENNO_WORDS(1), done.enabled = below(4) != 0, answer);
            compare_control(&done);
        }
    }
}

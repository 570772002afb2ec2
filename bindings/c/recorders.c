/* Recorders: empty ones, records from fields and back, and the index word taken apart, compared with counts of what was done. */
#include <inttypes.h>
#include <string.h>

#include "check.h"

enum { MOST_SLOTS = 1 << TAHVENNO_MAX_EVENT_N, NOISE = 0x5A };

static uint64_t events[TAHVENNO_EVENT_WORDS(TAHVENNO_MAX_EVENT_N)];
static uint64_t answer[TAHVENNO_ANSWER_WORDS];

static void expect(const char *what, uint64_t got, uint64_t wanted) {
    if (got != wanted) fail("%s: %" PRIu64 ", and should be %" PRIu64, what, got, wanted);
}

/* A record's bytes: the event's number in the first, the stream in the fifth to the eighth, the lowest first. */
static void any_record(struct tahvenno_record *fields, uint8_t *record) {
    uint8_t wanted[TAHVENNO_RECORD_BYTES] = {0};
    fields->event = up_to(UINT8_MAX);
    fields->stream = up_to(UINT32_MAX);
    memset(record, NOISE, TAHVENNO_RECORD_BYTES);
    expect("a record", tahvenno_build_record(fields, record), TAHVENNO_BUILT);
    wanted[0] = (uint8_t)fields->event;
    for (unsigned i = 0; i < 4; i++) wanted[4 + i] = (uint8_t)(fields->stream >> 8 * i);
    if (memcmp(record, wanted, sizeof wanted)) fail("a record: other bytes");
}

static void check_refused(void) {
    static const struct tahvenno_record events_bad[] = {{UINT8_MAX + 1, 0}, {UINT64_MAX, UINT64_MAX}};
    static const struct tahvenno_record streams_bad[] = {{0, UINT64_C(1) << 32}, {0, UINT64_MAX}};
    uint8_t record[TAHVENNO_RECORD_BYTES];
    memset(record, NOISE, sizeof record);
    memset(events, NOISE, sizeof events);
    for (size_t i = 0; i < 2; i++) {
        expect("too large an event", tahvenno_build_record(&events_bad[i], record), TAHVENNO_FIELD_EVENT);
        expect("too large a stream", tahvenno_build_record(&streams_bad[i], record), TAHVENNO_FIELD_STREAM);
        expect("too large an n", tahvenno_empty_recorder(events, i ? UINT64_MAX : TAHVENNO_MAX_EVENT_N + 1), TAHVENNO_FIELD_N);
    }
    for (size_t i = 0; i < sizeof record; i++) expect("a byte of a refused record", record[i], NOISE);
    expect("the index word of a refused recorder", events[0], UINT64_MAX / UINT8_MAX * NOISE);
}

/* What was done, counted without end; the records that wait, by their place modulo the slots. */
struct done {
    uint64_t n, rd, wr;
    bool overflow, acknowledged;
    struct tahvenno_record waiting[MOST_SLOTS];
};

static void compare_index(const struct done *done) {
    struct tahvenno_index index;
    uint64_t indexes = UINT64_C(2) << done->n;
    tahvenno_read_index(events[0], &index);
    expect("rd", index.rd, done->rd % indexes);
    expect("wr", index.wr, done->wr % indexes);
    expect("n", index.n, done->n);
    expect("waiting", index.waiting, done->wr - done->rd);
    expect("overflow", index.overflow, done->overflow);
    expect("acknowledged", index.acknowledged, done->acknowledged);
    expect("outstanding", index.outstanding, done->overflow != done->acknowledged);
    counts.memories++;
}

static void write(struct done *done) {
    struct tahvenno_record fields;
    uint8_t record[TAHVENNO_RECORD_BYTES];
    any_record(&fields, record);
    expect("a write", tahvenno_event_write(events, TAHVENNO_EVENT_WORDS(done->n), record, TAHVENNO_RECORD_STORES, answer), 0);
    if (answer[0] == TAHVENNO_EVENT_STORED) done->waiting[done->wr++ % MOST_SLOTS] = fields;
    else if (done->overflow == done->acknowledged) done->overflow = !done->overflow;
}

static void read(struct done *done) {
    struct tahvenno_record fields, wanted = done->waiting[done->rd % MOST_SLOTS];
    bool none = done->rd == done->wr;
    expect("a read", tahvenno_event_read(events, TAHVENNO_EVENT_WORDS(done->n), answer), none ? 17 : 0);
    if (none) return;
    tahvenno_read_record(answer, &fields);
    expect("the event that is read", fields.event, wanted.event);
    expect("the stream that is read", fields.stream, wanted.stream);
    done->rd++;
}

void check_recorders(void) {
    static struct done done;
    for (uint64_t n = 0; n <= TAHVENNO_MAX_EVENT_N; n++) {
        memset(&done, 0, sizeof done);
        memset(events, NOISE, sizeof events);
        done.n = n;
        expect("an empty recorder", tahvenno_empty_recorder(events, n), TAHVENNO_BUILT);
        expect("a read of it", tahvenno_event_read(events, TAHVENNO_EVENT_WORDS(n), answer), 17);
        for (unsigned i = 0; i < 2000; i++) {
            uint64_t what = below(16), words = TAHVENNO_EVENT_WORDS(n);
            if (what == 0 && !tahvenno_event_acknowledge(events, words, answer)) done.acknowledged = done.overflow;
            else if (what < 9) write(&done);
            else read(&done);
            compare_index(&done);
        }
    }
    check_refused();
}

/* A monitor's calls from C: two rows are filled, a command removes one of them, and a transaction asks before and after. A CMD_SYNC
 * behind that command asks for an interrupt. The guest is the monitor's own, so a batch writes both into its queue and rings. The
 * access that misses is recorded as an event, and the event is read. */
#include <inttypes.h>
#include <stdio.h>
#include <stdlib.h>
#include "tahvenno_rows.h"

#define FEATURES (TAHVENNO_S1P | TAHVENNO_S2P)
#define WRITE_BACK TAHVENNO_NORMAL(TAHVENNO_WB, TAHVENNO_WB)
#define FROM UINT64_C(0x1000) /* a page, where it comes out, and an address in it */
#define TO UINT64_C(0x8000)
#define ADDRESS (FROM + 0x234)
#define F_TRANSLATION 0x10 /* Arm's number of the event */

enum { ROWS = 2, WORDS = TAHVENNO_WORDS(ROWS), LOG2SIZE = 1, STREAM = 5, SUBSTREAM = 0 };
enum { REGIONS = 1, TABLE_WORDS = TAHVENNO_TABLE_WORDS(REGIONS) };
enum { COMMANDS = 2, COMMANDS_WORDS = COMMANDS * TAHVENNO_COMMAND_WORDS };
enum { N = 2, EVENT_WORDS = TAHVENNO_EVENT_WORDS(N) };

static void built(enum tahvenno_field bad) { /* what a builder returned */
    if (bad == TAHVENNO_BUILT) return;
    fprintf(stderr, "out of range: %s\n", tahvenno_field_name(bad));
    exit(1);
}

static void made(uint64_t refusal) { /* what a call returned */
    if (refusal == 0) return;
    fprintf(stderr, "refused: %s\n", tahvenno_refusal_name(refusal));
    exit(1);
}

static void fill(uint64_t *kept, uint64_t row, const uint64_t *w) {
    uint64_t answer[TAHVENNO_ANSWER_WORDS];
    made(tahvenno_fill(kept, WORDS, row, w[0], w[1], w[2], w[3], TAHVENNO_ROW_WORDS, answer));
}

static void fill_rows(uint64_t *kept) { /* the stream goes through stage 2, which maps the page */
    struct tahvenno_ste ste = {.last_level = true, .stream = STREAM, .config = TAHVENNO_CONFIG_STAGE2};
    struct tahvenno_stage2 page = {.last_level = true, .span = TAHVENNO_MIN_SPAN, .input = FROM, .output = TO,
                                   .memattr = WRITE_BACK, .sh = TAHVENNO_ISH};
    uint64_t row[TAHVENNO_ROW_WORDS];
    built(tahvenno_build_ste(&ste, row));
    fill(kept, 0, row);
    built(tahvenno_build_stage2(&page, row));
    fill(kept, 1, row);
}

static void ask(const uint64_t *kept, uint64_t *answer) { /* a write by the device of the stream */
    made(tahvenno_translate(kept, WORDS, STREAM, SUBSTREAM, ADDRESS, TAHVENNO_WRITE, WRITE_BACK, TAHVENNO_NSH, 0, answer));
}

static void remove_rows(uint64_t *kept, uint64_t *answer) { /* the guest removes every stage 1 and stage 2 row */
    static uint8_t queue[TAHVENNO_QUEUE_BYTES(LOG2SIZE)];
    uint64_t commands[COMMANDS_WORDS], table[TABLE_WORDS]; /* the second table, of which this guest makes no use */
    built(tahvenno_empty_table(table, REGIONS));
    tahvenno_cmd_tlbi_nsnh_all(commands);
    tahvenno_cmd_sync(commands + TAHVENNO_COMMAND_WORDS, TAHVENNO_CS_IRQ);
    made(tahvenno_write_batch(kept, WORDS, queue, sizeof queue, commands, COMMANDS_WORDS, FEATURES, answer));
    do { /* one store a call, as if power went after each */
        made(tahvenno_run(kept, WORDS, table, TABLE_WORDS, queue, sizeof queue, FEATURES, 1, answer));
    } while (answer[0] == TAHVENNO_CUT);
}

static void record_event(uint64_t *events, uint64_t *answer) {
    struct tahvenno_record event = {.event = F_TRANSLATION, .stream = STREAM};
    uint8_t record[TAHVENNO_RECORD_BYTES];
    built(tahvenno_build_record(&event, record));
    made(tahvenno_event_write(events, EVENT_WORDS, record, TAHVENNO_RECORD_STORES, answer));
}

int main(void) {
    uint64_t kept[WORDS], events[EVENT_WORDS], answer[TAHVENNO_ANSWER_WORDS];
    struct tahvenno_control control;
    struct tahvenno_record event;
    built(tahvenno_empty_kept(kept, ROWS, LOG2SIZE, true));
    built(tahvenno_empty_recorder(events, N));
    fill_rows(kept);
    ask(kept, answer);
    printf("before: %s, %" PRIx64 "\n", tahvenno_outcome_name(answer[0]), answer[1]);
    remove_rows(kept, answer);
    tahvenno_read_control(kept[0], &control);
    if (control.pending) { /* no matter which run consumed the CMD_SYNC; raised first, then cleared */
        printf("interrupt\n");
        made(tahvenno_clear_pending(kept, WORDS, answer));
    }
    ask(kept, answer);
    printf("after: %s\n", tahvenno_outcome_name(answer[0]));
    if (answer[0] != TAHVENNO_ADDRESS) record_event(events, answer);
    made(tahvenno_event_read(events, EVENT_WORDS, answer));
    tahvenno_read_record(answer, &event);
    printf("event: %" PRIx64 " of stream %" PRIu64 "\n", event.event, event.stream);
    return 0;
}

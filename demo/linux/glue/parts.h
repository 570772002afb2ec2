/* What the glue's files share. */
#ifndef TAHVENNO_PARTS_H
#define TAHVENNO_PARTS_H

#include "glue.h"
#include "../smmuv3-internal.h"
#include "tahvenno.h"

/* The mapped file: five parts, each at a multiple of PART bytes. `told` is the glue's own, a word; the others are as the unit takes them. */
enum { PART = 1 << 16, KEPT_PART = 0, TABLE_PART, EVENTS_PART, TOLD_PART, QUEUE_PART, PARTS };
enum { EVENTS_N = TAHVENNO_MAX_EVENT_N, REGIONS = 1, DEFAULT_ROWS = 256 };
#define FEATURES (TAHVENNO_S1P | TAHVENNO_ASID16 | TAHVENNO_RIL)

/* All that the glue knows; a cut takes it away. */
struct known {
    uint64_t *kept, *table, *events;
    uint64_t *told;  /* RD up to which the guest was told of its CMD_SYNCs */
    uint8_t *queue;  /* the private copy of the guest's queue */
    size_t words, rows;
    size_t next_row; /* where the search for an empty row begins */
    bool has_config, has_page; /* what the last walk found */
    SMMUTransCfg config;
    SMMUTLBEntry page;
    uint16_t page_asid;
};
extern struct known known;

/* Faults are not recorded: a walk is made to compare, or to fill a row, and does not answer a device yet. */
extern bool quiet;

/* state.c: the file, and what a cut does to the glue */
void state_create(void);
void state_restart(SMMUv3State *s);
void state_must(uint64_t refused, const char *call);
static inline uint64_t control(uint64_t part) {
    return TAHVENNO_GET(part, known.kept[0]);
}

/* Where a row's word 0 stands among the words of kept memory. */
#define ROW_AT(row) TAHVENNO_WORDS(row)

/* cuts.c: allowances */
uint64_t cuts_allowance(uint64_t most);
bool cuts_after(void);

/* queue.c */
bool queue_run(SMMUv3State *s);
void queue_show_error(SMMUv3State *s);
void queue_tell(SMMUv3State *s);
void queue_mirror(SMMUv3State *s);

/* recorder.c */
bool recorder_read_out(SMMUv3State *s);

/* wrong.c: tahvenno_run in the wrong order */
uint64_t wrong_run(uint64_t *kept, size_t words, uint64_t *table, size_t table_words, const uint8_t *queue, size_t bytes,
                   uint64_t features, uint64_t allowance, uint64_t answer[8]);

/* translation.c */
uint64_t ask(const uint64_t *kept, uint32_t sid, hwaddr addr, uint64_t answer[8]);

/* watch.c: what is counted, and twin.c: the same without cuts. No part of the monitor, so a cut leaves them alone. */
#define WATCHED(w) \
    w(RUNS, "runs") w(REMOVED, "rows_removed") \
    w(FILLED_STE, "filled_ste") w(FILLED_CD, "filled_cd") w(FILLED_STAGE1, "filled_stage1") w(FILLED_READ_ONLY, "filled_read_only") \
    w(HITS, "hits") w(MISSES_STE, "misses_ste") w(MISSES_CD, "misses_cd") w(MISSES_STAGE1, "misses_stage1") \
    w(NO_ROOM, "answered_by_walk_no_room") w(DOUBLED, "answered_by_walk_doubled") w(UNFIT, "answered_by_walk_unfit") \
    w(ABORTS, "aborts") w(DENIED, "accesses_denied") \
    w(CUTS_OF_RUNS, "cuts_run") w(CUTS_OF_FILLS, "cuts_fill") w(CUTS_OF_EVENTS, "cuts_event") w(LOST_ANSWERS, "cuts_answer_lost") \
    w(REFUSED_BELLS, "doorbells_refused") w(RAISED, "errors_raised") w(ACKNOWLEDGED, "errors_acknowledged") \
    w(MSIS, "sync_messages") w(MSIS_TO_SLOT, "sync_messages_to_own_slot") w(WIRED, "sync_wired") \
    w(FAULTS, "faults") w(EVENTS, "events") w(EVENTS_DROPPED, "events_dropped") w(EVENTS_READ, "events_read") \
    w(EVENTS_TAKEN, "events_taken_by_guest") w(BEGUN, "memories_begun") \
    w(CHECKED, "hits_checked_by_walk") w(OTHERWISE, "hits_tables_say_otherwise") w(STALE_ROWS, "stale_rows") \
    w(STALE_USES, "stale_uses") w(STALE_ELSEWHERE, "stale_uses_elsewhere") w(TOO_FEW, "rows_missing_beside_twin")
#define WATCHED_NAME(name, text) name,
enum watched { WATCHED(WATCHED_NAME) COUNTS };

void watch_count(enum watched what, uint64_t n);
uint64_t watch_counted(enum watched what);
void watch_begin(void);
void watch_before_run(void);
void watch_after_run(bool cut);
bool watch_closely(void);

void twin_begin(void);
void twin_follow(bool cut);
void twin_filled(uint64_t row);
void twin_hit(uint32_t sid, hwaddr addr, const uint64_t answer[8], hwaddr by_tables);
void twin_report(FILE *to);

#endif

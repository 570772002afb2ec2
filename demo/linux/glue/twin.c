/* The twin: the same rows and commands, carried out by the unit without a cut. It shows which rows are stale: a row that is in use
 * though RD has passed a command that has it in scope. The twin has no such row, so a row that stands in the kept memory and not in
 * the twin is one. Every access that a row answers is looked at twice: is it answered otherwise without the stale rows; and do the
 * guest's tables, walked anew, say the same. */
#include "parts.h"

static uint64_t twin[TAHVENNO_WORDS(TAHVENNO_MAX_ROWS)];
static bool stale[TAHVENNO_MAX_ROWS];
static uint64_t since_hit[TAHVENNO_MAX_ROWS], stale_now, first_hits, first_us, soonest_us;
static int64_t since_us[TAHVENNO_MAX_ROWS];

void twin_begin(void) {
    memcpy(twin, known.kept, known.words * sizeof *twin);
    memset(stale, 0, sizeof stale);
    stale_now = 0;
}

static void mark(size_t row, bool is_stale) {
    if (is_stale && !stale[row]) {
        watch_count(STALE_ROWS, 1);
        since_hit[row] = watch_counted(HITS);
        since_us[row] = g_get_monotonic_time();
    }
    stale_now += is_stale - stale[row];
    stale[row] = is_stale;
}

/* After a call of a run, cut or not: the twin carries out what RD has passed. */
void twin_follow(bool cut) {
    uint64_t table[TAHVENNO_TABLE_WORDS(REGIONS)] = {0}, answer[TAHVENNO_ANSWER_WORDS];
    uint64_t log2size = control(TAHVENNO_LOG2SIZE);
    twin[0] = TAHVENNO_PUT(TAHVENNO_LOG2SIZE, log2size) | TAHVENNO_PUT(TAHVENNO_RD, TAHVENNO_GET(TAHVENNO_RD, twin[0])) |
              TAHVENNO_PUT(TAHVENNO_WR, control(TAHVENNO_RD)) | TAHVENNO_CMDQEN;
    state_must(tahvenno_run(twin, known.words, table, ARRAY_SIZE(table), known.queue, TAHVENNO_QUEUE_BYTES(log2size), FEATURES,
                            TAHVENNO_MAX_STORES, answer), "the twin's run");
    for (size_t row = 0; row < known.rows; row++) {
        bool kept = known.kept[ROW_AT(row)] != 0, twins = twin[ROW_AT(row)] != 0;
        mark(row, kept && !twins);
        if (!cut && twins && !kept) watch_count(TOO_FEW, 1);
    }
}

void twin_filled(uint64_t row) {
    if (!watch_closely()) return;
    memcpy(twin + ROW_AT(row), known.kept + ROW_AT(row), TAHVENNO_ROW_WORDS * sizeof *twin);
    mark(row, false);
}

/* Whether the access is answered otherwise without these rows: one, or every stale one. */
static bool differs(uint32_t sid, hwaddr addr, const uint64_t answer[8], size_t only) {
    static uint64_t copy[ARRAY_SIZE(twin)];
    uint64_t other[TAHVENNO_ANSWER_WORDS];
    memcpy(copy, known.kept, known.words * sizeof *copy);
    for (size_t row = 0; row < known.rows; row++)
        if (row == only || (only == known.rows && stale[row])) copy[ROW_AT(row)] = 0;
    return ask(copy, sid, addr, other) != answer[0] || other[1] != answer[1];
}

static void used_stale(uint32_t sid, hwaddr addr, const uint64_t answer[8], bool elsewhere) {
    size_t row = 0;
    uint64_t us;
    while (row < known.rows && !(stale[row] && differs(sid, addr, answer, row))) row++;
    if (row == known.rows) return;
    us = g_get_monotonic_time() - since_us[row];
    if (watch_counted(STALE_USES) == 0) first_us = us, first_hits = watch_counted(HITS) - since_hit[row];
    if (watch_counted(STALE_USES) == 0 || us < soonest_us) soonest_us = us;
    watch_count(STALE_USES, 1);
    watch_count(STALE_ELSEWHERE, elsewhere);
}

void twin_hit(uint32_t sid, hwaddr addr, const uint64_t answer[8], hwaddr by_tables) {
    watch_count(CHECKED, 1);
    watch_count(OTHERWISE, by_tables != answer[1]);
    if (stale_now && differs(sid, addr, answer, known.rows)) used_stale(sid, addr, answer, by_tables != answer[1]);
}

void twin_report(FILE *to) {
    uint64_t same = 0, other = 0;
    for (size_t i = ROW_AT(0); i < known.words; i += TAHVENNO_ROW_WORDS) {
        if (twin[i] == 0 && known.kept[i] == 0) continue;
        *(memcmp(twin + i, known.kept + i, TAHVENNO_ROW_WORDS * sizeof *twin) ? &other : &same) += 1;
    }
    fprintf(to, "final_rows_as_twin=%" PRIu64 "\nfinal_rows_otherwise=%" PRIu64 "\n", same, other);
    if (watch_counted(STALE_USES) == 0) return;
    fprintf(to, "first_stale_use_us=%" PRIu64 "\nfirst_stale_use_hits=%" PRIu64 "\n", first_us, first_hits);
    fprintf(to, "soonest_stale_use_us=%" PRIu64 "\n", soonest_us);
}

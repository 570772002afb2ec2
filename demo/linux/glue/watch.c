/* What is counted, for the summary; told at the emulator's end in the file TAHVENNO_REPORT, a name and a number a line. */
#include "parts.h"

static uint64_t counts[COUNTS], codes[256], rd_before;

void watch_count(enum watched what, uint64_t n) {
    counts[what] += n;
}

uint64_t watch_counted(enum watched what) {
    return counts[what];
}

bool watch_closely(void) {
    static int closely = -1;
    if (closely < 0) closely = getenv("TAHVENNO_WATCH") != NULL;
    return closely;
}

static void report(void) {
#define WATCHED_TEXT(name, text) text,
    static const char *const names[] = {WATCHED(WATCHED_TEXT)};
    const char *path = getenv("TAHVENNO_REPORT");
    FILE *to = path ? fopen(path, "w") : NULL;
    if (!to) return;
    for (int i = 0; i < 256; i++)
        if (codes[i]) fprintf(to, "command_%02x=%" PRIu64 "\n", i, codes[i]);
    for (int i = 0; i < COUNTS; i++) fprintf(to, "%s=%" PRIu64 "\n", names[i], counts[i]);
    if (watch_closely()) twin_report(to);
    fclose(to);
}

/* Memory was begun anew. */
void watch_begin(void) {
    if (counts[BEGUN]++ == 0) atexit(report);
    if (watch_closely()) twin_begin();
}

void watch_before_run(void) {
    rd_before = control(TAHVENNO_RD);
}

void watch_after_run(bool cut) {
    uint64_t mask = TAHVENNO_BITS(control(TAHVENNO_LOG2SIZE), 0);
    counts[RUNS]++;
    for (uint64_t i = rd_before; i != control(TAHVENNO_RD); i = (i + 1) & mask)
        codes[known.queue[TAHVENNO_SLOT_BYTES * (i & mask >> 1)]]++;
    if (watch_closely()) twin_follow(cut);
}

/* A stand-in for tahvenno_run with the mistake of the fire night: RD moves first, then the rows go. It takes from the unit what a
 * command removes, on a copy, and makes the same stores in the other order. For demo/linux/run --fire-night only. */
#include "parts.h"

/* The memory after the command at RD alone, without cuts; what the run of it ends with. */
static uint64_t after_one(const uint64_t *kept, size_t words, uint64_t *copy, const uint8_t *queue, size_t bytes) {
    uint64_t table[TAHVENNO_TABLE_WORDS(REGIONS)] = {0}, answer[TAHVENNO_ANSWER_WORDS];
    uint64_t next = TAHVENNO_GET(TAHVENNO_RD, kept[0]) + 1, refused;
    memcpy(copy, kept, words * sizeof *kept);
    next &= TAHVENNO_BITS(TAHVENNO_GET(TAHVENNO_LOG2SIZE, kept[0]), 0);
    copy[0] = (kept[0] & ~TAHVENNO_WR) | TAHVENNO_PUT(TAHVENNO_WR, next);
    refused = tahvenno_run(copy, words, table, ARRAY_SIZE(table), queue, bytes, FEATURES, TAHVENNO_MAX_STORES, answer);
    state_must(refused, "a copy's run");
    return answer[0];
}

static bool store(uint64_t *word, uint64_t value, uint64_t *allowance) {
    if (*allowance == 0) return false;
    *(volatile uint64_t *)word = value;
    *allowance -= 1;
    return true;
}

uint64_t wrong_run(uint64_t *kept, size_t words, uint64_t *table, size_t table_words, const uint8_t *queue, size_t bytes,
                   uint64_t features, uint64_t allowance, uint64_t answer[8]) {
    static uint64_t copy[TAHVENNO_WORDS(TAHVENNO_MAX_ROWS)];
    uint64_t removed = 0;
    while (TAHVENNO_GET(TAHVENNO_RD, kept[0]) != TAHVENNO_GET(TAHVENNO_WR, kept[0]) &&
           after_one(kept, words, copy, queue, bytes) == TAHVENNO_EMPTY) {
        bool going = store(kept, (copy[0] & ~TAHVENNO_WR) | (kept[0] & TAHVENNO_WR), &allowance);
        for (size_t i = ROW_AT(0); going && i < words; i += TAHVENNO_ROW_WORDS) {
            if (kept[i] == copy[i]) continue;
            going = store(kept + i, 0, &allowance);
            removed += going;
        }
        if (!going) {
            memset(answer, 0, TAHVENNO_ANSWER_WORDS * sizeof *answer);
            answer[0] = TAHVENNO_CUT, answer[3] = removed;
            return 0;
        }
    }
    uint64_t refused = tahvenno_run(kept, words, table, table_words, queue, bytes, features, allowance, answer);
    answer[3] += removed;
    return refused;
}

/* Checks of batches that store (wrong.c): what is there already, or something else that they take back. So all but one leave
 * everything as it was when they return, and only the stores tell. */
#include "tahvenno.h"
#include "wrong.h"

/* A word as it is, and one that is changed for a while. */
static void again(const uint64_t *words, size_t at) {
    store((uint64_t *)(uintptr_t)words, at, words[at]);
}

static void and_back(const uint64_t *words, size_t at, uint64_t other) {
    uint64_t held = words[at];
    store((uint64_t *)(uintptr_t)words, at, other);
    store((uint64_t *)(uintptr_t)words, at, held);
}

static void touch(const uint8_t *byte) {
    *(volatile uint8_t *)(uintptr_t)byte = *byte;
}

/* What a check might do before it says something. */
static void store_said(const uint64_t *kept, size_t words, const uint64_t *table, size_t table_words, const uint64_t *answer) {
    size_t row = 1 + 4 * answer[1];
    if (fault("check-carried-out")) /* the rows go, and come back */
        for (size_t at = 1; at < words; at += 4)
            if (kept[at]) and_back(kept, at, 0);
    if (fault("check-row")) again(kept, words - 1);
    if (fault("check-region")) again(table, table_words - 2);
    if (fault("check-region-gone")) and_back(table, 0, 0);
    if (fault("check-byte")) touch((const uint8_t *)(kept + 1));
    if (fault("check-region-byte")) touch((const uint8_t *)table);
    if (fault("check-in-halves")) in_halves((uint64_t *)(uintptr_t)kept, 1, kept[1]);
    if (fault("check-beyond")) again(kept, words);
    if (fault("check-beyond-table")) again(table, table_words);
    if (answer[0] == 0 && fault("check-yes")) again(kept, 0);
    if (answer[0] == 1 && fault("check-raised")) and_back(kept, 0, kept[0] ^ GERROR);
    if (answer[0] == 2 && row < words && fault("check-named")) and_back(kept, row, 0);
}

uint64_t __real_tahvenno_check_batch(const uint64_t *, size_t, const uint64_t *, size_t, const uint8_t *, size_t, const uint8_t *,
                                     size_t, uint64_t, uint64_t *);
uint64_t __wrap_tahvenno_check_batch(const uint64_t *kept, size_t words, const uint64_t *table, size_t table_words,
                                     const uint8_t *original, size_t original_bytes, const uint8_t *proposed, size_t proposed_bytes,
                                     uint64_t features, uint64_t answer[8]) {
    uint64_t returned = __real_tahvenno_check_batch(kept, words, table, table_words, original, original_bytes, proposed,
                                                    proposed_bytes, features, answer);
    if (returned == 3 && fault("check-mends")) and_back(kept, 1 + 4 * answer[0], 0);
    if (returned == 14 && fault("check-region-mends")) and_back(table, 2 * answer[0], 0);
    if (returned == 23 && fault("check-refused")) again(kept, 0);
    if (returned) return returned;
    store_said(kept, words, table, table_words, answer);
    if (original_bytes && fault("check-original")) touch(original);
    if (proposed_bytes && fault("check-proposed")) touch(proposed + proposed_bytes - 1);
    if (proposed_bytes && fault("check-changes")) *(volatile uint8_t *)(uintptr_t)proposed ^= 1;
    return 0;
}

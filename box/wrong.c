/* Units whose stores are wrong, to show that box/stores refuses them. No part of the unit.
 *
 * The linker puts these functions before the unit's (--wrap), and TAHVENNO_WRONG names the fault. Each asks the unit on a copy
 * what is to be stored, and then makes the stores its own way: so answers are right, mostly memory too, and only the stores tell.
 * Without a fault they are right as well, and box/stores has to accept them. Those of the writers are in wrong_writers.c, and
 * those of the check of a batch in wrong_checks.c. */
#include "wrong.h"

#include <stdlib.h>
#include <string.h>

#include "tahvenno.h"

typedef uint64_t pair __attribute__((vector_size(16), aligned(8)));
typedef volatile uint64_t word;

/* A store to kept memory, or from TABLE_AT on to the second table. */
struct due {
    size_t word;
    uint64_t value;
};

/* What a run is lent. */
struct lent {
    uint64_t *kept;
    size_t words;
    uint64_t *table;
    size_t table_words;
    const uint8_t *queue;
    size_t bytes;
    uint64_t features;
};

int fault(const char *name) {
    const char *chosen = getenv("TAHVENNO_WRONG");
    return chosen && strcmp(chosen, name) == 0;
}

void store(uint64_t *kept, size_t at, uint64_t value) {
    *(word *)&kept[at] = value;
}

void in_halves(uint64_t *kept, size_t at, uint64_t value) {
    volatile uint32_t *halves = (volatile uint32_t *)(void *)&kept[at];
    halves[0] = (uint32_t)value;
    halves[1] = (uint32_t)(value >> 32);
}

void both(uint64_t *kept, size_t at, uint64_t low, uint64_t high) {
    pair value = {low, high};
#ifdef __aarch64__
    if (fault("fill-paired") || fault("table-fill-paired") || fault("event-paired"))
        __asm__ volatile("stp %0, %1, [%2]" : : "r"(low), "r"(high), "r"(&kept[at]) : "memory");
    else __asm__ volatile("str %q0, [%1]" : : "w"(value), "r"(&kept[at]) : "memory");
#else
    *(volatile pair *)(void *)&kept[at] = value;
#endif
}

static void swap(struct due *one, struct due *other) {
    struct due held = *one;
    *one = *other;
    *other = held;
}

/* Both tables, as one array has them. */
static void copy_both(uint64_t *copy, const struct lent *lent) {
    memcpy(copy, lent->kept, 8 * lent->words);
    memcpy(copy + TABLE_AT, lent->table, 8 * lent->table_words);
}

/* Whether this input is the one that was asked about last, so that a run at many allowances is asked about once. */
static int asked(const struct lent *lent) {
    static struct input last;
    if (last.words == lent->words && last.table_words == lent->table_words && last.bytes == lent->bytes &&
        last.features == lent->features && !memcmp(last.kept, lent->kept, 8 * lent->words) &&
        !memcmp(last.kept + TABLE_AT, lent->table, 8 * lent->table_words) && !memcmp(last.queue, lent->queue, lent->bytes))
        return 1;
    last.words = lent->words;
    last.table_words = lent->table_words;
    last.bytes = lent->bytes;
    last.features = lent->features;
    copy_both(last.kept, lent);
    memcpy(last.queue, lent->queue, lent->bytes);
    return 0;
}

/* The first stores of a run, as many as are wanted: the unit makes one store a call on a copy, and the copy tells which. If the
 * input is the last one, it goes on from where the copy is. */
uint64_t __real_tahvenno_run(uint64_t *, size_t, uint64_t *, size_t, const uint8_t *, size_t, uint64_t, uint64_t, uint64_t *);
static const struct due *stores_of(const struct lent *lent, size_t wanted) {
    static struct due due[MOST_STORES];
    static uint64_t copy[BOTH], before[BOTH];
    static size_t known;
    uint64_t answer[8], *table = copy + TABLE_AT;
    if (!asked(lent)) {
        memset(copy, 0, sizeof copy);
        copy_both(copy, lent);
        known = 0;
    }
    for (; known < wanted; known++) {
        memcpy(before, copy, sizeof before);
        __real_tahvenno_run(copy, lent->words, table, lent->table_words, lent->queue, lent->bytes, lent->features, 1, answer);
        for (size_t i = 0; i < BOTH; i++)
            if (before[i] != copy[i]) due[known] = (struct due){i, copy[i]};
    }
    return due;
}

/* Whether a store clears a row of the second table, and whether one clears a row of the kept memory. */
static int in_table(const struct due *due) {
    return due->word >= TABLE_AT;
}

static int in_kept(const struct due *due) {
    return due->word && !in_table(due);
}

/* EL2 rows before EL2-E2H rows of the same command, as two scans would clear them. */
static void by_mark(const uint64_t *kept, struct due *due, size_t count) {
    for (size_t i = 1; i < count; i++)
        for (size_t k = i; k > 0 && in_kept(&due[k - 1]) && in_kept(&due[k]); k--)
            if (kept[due[k - 1].word] & E2H_MARK && kept[due[k].word] & EL2_MARK) swap(&due[k - 1], &due[k]);
            else break;
}

/* Whether the command after so many others has a range, and its first page. */
static int in_range(const uint64_t *kept, const uint8_t *queue, size_t after, uint64_t *first) {
    uint64_t slots = UINT64_C(1) << (kept[0] >> SIZE_SHIFT & SIZE_BITS);
    return range_of(queue + 16 * (((kept[0] & RD_BITS) + after) % slots), first) > 1;
}

/* The page of the range at which a row is found first. */
static uint64_t found_at(const uint64_t *kept, const struct due *due, uint64_t first) {
    uint64_t page = kept[due->word + 2] >> 12;
    return page < first ? first : page;
}

/* The rows of a range in the order of their pages, as a loop over these would clear them. */
static void by_page(const uint64_t *kept, const uint8_t *queue, struct due *due, size_t count) {
    uint64_t first;
    for (size_t i = 1, after = due[0].word == 0; i < count; after += due[i++].word == 0)
        for (size_t k = i; k > 0 && in_kept(&due[k - 1]) && in_kept(&due[k]) && in_range(kept, queue, after, &first); k--)
            if (found_at(kept, &due[k - 1], first) > found_at(kept, &due[k], first)) swap(&due[k - 1], &due[k]);
            else break;
}

/* The rows of the second table that a command removes in the order of their sizes, as a loop over these would clear them. */
static void by_size(const uint64_t *table, struct due *due, size_t count) {
    for (size_t i = 1; i < count; i++)
        for (size_t k = i; k > 0 && in_table(&due[k - 1]) && in_table(&due[k]); k--)
            if (table[due[k - 1].word - TABLE_AT] >> 2 > table[due[k].word - TABLE_AT] >> 2) swap(&due[k - 1], &due[k]);
            else break;
}

/* Puts a wrong order on what a run stores. */
static void reorder(const struct lent *lent, struct due *due, size_t count) {
    if (fault("run-by-mark")) by_mark(lent->kept, due, count);
    if (fault("run-by-page") && count) by_page(lent->kept, lent->queue, due, count);
    if (fault("run-by-size")) by_size(lent->table, due, count);
    for (size_t i = 1; i < count; i++) {
        int rows = in_kept(&due[i - 1]) && in_kept(&due[i]), regions = in_table(&due[i - 1]) && in_table(&due[i]);
        if ((fault("run-rows-swapped") && rows) || (fault("run-regions-swapped") && regions)) {
            swap(&due[i - 1], &due[i]);
            return;
        }
        int cleared = (fault("run-rd-first") && in_kept(&due[i - 1])) || (fault("run-rd-before-regions") && in_table(&due[i - 1]));
        if (cleared && !due[i].word)
            for (size_t k = i; k > 0 && due[k - 1].word; k--) swap(&due[k - 1], &due[k]);
    }
}

/* The control word of a run, with the pending bit in it by other stores, or by other commands. */
static void store_pending(uint64_t *kept, uint64_t value) {
    uint64_t new = value & ~kept[0] & PENDING;
    int moves = (value ^ kept[0]) & RD_BITS ? 1 : 0;
    if (fault("run-pending-apart") && new) store(kept, 0, value ^ PENDING);
    if (fault("run-pending-first") && new) store(kept, 0, kept[0] | PENDING);
    if (fault("run-pending-lost")) value ^= new;
    if (fault("run-pending-always") && moves) value |= PENDING;
    if (fault("run-pending-raised") && !moves) value &= ~PENDING;
    store(kept, 0, value);
}

/* A row of several pages once more, if a range removes it. */
static void store_again(uint64_t *kept, const uint8_t *queue, const struct due *due, uint64_t row) {
    uint64_t first;
    if (due->word && (row >> 5 & 63) > 12 && in_range(kept, queue, 0, &first)) store(kept, due->word, 0);
}

/* A row of the second table is cleared. */
static void store_region(uint64_t *table, const struct due *due) {
    size_t at = due->word - TABLE_AT;
    if (fault("run-region-whole")) both(table, at, 0, table[at + 1]);
    else if (fault("run-region-in-halves")) in_halves(table, at, 0);
    else if (fault("run-region-byte")) *(volatile uint8_t *)&table[at] = 0;
    else store(table, at, 0);
    if (fault("run-region-doubled")) store(table, at, 0);
    if (fault("run-region-base")) store(table, at + 1, table[at + 1]);
}

static void store_run(const struct lent *lent, const struct due *due, size_t count) {
    uint64_t *kept = lent->kept;
    size_t last = count;
    while (last > 0 && due[last - 1].word) last--;
    for (size_t i = 0; i < count; i++) {
        int narrow = !due[i].word && due[i].value >> 32 == kept[0] >> 32; /* the lower half is all that changes */
        if (in_table(&due[i])) {
            store_region(lent->table, &due[i]);
            continue;
        }
        uint64_t row = kept[due[i].word];
        if (fault("run-rd-gathered") && i + 1 < last && !due[i].word) continue;
        if (fault("run-in-halves")) in_halves(kept, due[i].word, due[i].value);
        else if (fault("run-rd-narrow") && narrow) *(volatile uint32_t *)(void *)kept = (uint32_t)due[i].value;
        else if (!due[i].word) store_pending(kept, due[i].value);
        else store(kept, due[i].word, due[i].value);
        if (fault("run-doubled")) store(kept, due[i].word, due[i].value);
        if (fault("run-page-again")) store_again(kept, lent->queue, &due[i], row);
    }
}

/* As a unit that works on a copy would, from word 0 up. */
static void write_back(const struct lent *lent, const struct due *due, size_t count) {
    for (size_t at = 0; at < TABLE_AT + lent->table_words; at++)
        for (size_t i = count; i-- > 0;)
            if (due[i].word == at) {
                if (at < TABLE_AT) store(lent->kept, at, due[i].value);
                else store(lent->table, at - TABLE_AT, due[i].value);
                break;
            }
}

/* What stands in the table's rows is stored there once more, though no command is about it. */
static void store_table_again(const struct lent *lent) {
    for (size_t at = 0; at < lent->table_words; at += 2) store(lent->table, at, lent->table[at]);
}

uint64_t __wrap_tahvenno_run(uint64_t *kept, size_t words, uint64_t *table, size_t table_words, const uint8_t *queue, size_t bytes,
                             uint64_t features, uint64_t allowance, uint64_t answer[8]) {
    static struct due due[MOST_STORES];
    static uint64_t copy[BOTH];
    const struct lent lent = {kept, words, table, table_words, queue, bytes, features};
    copy_both(copy, &lent);
    uint64_t returned = __real_tahvenno_run(copy, words, copy + TABLE_AT, table_words, queue, bytes, features, allowance, answer);
    if (returned) {
        if (fault("refusal-stores")) store(kept, 0, kept[0]);
        if (returned == 14 && fault("refusal-mends")) store(table, 2 * answer[0], 0);
        return returned;
    }
    size_t count = answer[2];
    memcpy(due, stores_of(&lent, count), count * sizeof due[0]);
    reorder(&lent, due, count);
    if (fault("run-queue")) *(volatile uint8_t *)(uintptr_t)queue = *queue;
    if (fault("run-beyond")) store(kept, words, 0);
    if (fault("run-beyond-table")) store(table, table_words, 0);
    if (fault("run-table-again")) store_table_again(&lent);
    if (fault("run-written-back")) write_back(&lent, due, count);
    else store_run(&lent, due, count);
    return 0;
}

static void store_fill(uint64_t *row, const uint64_t w[4], uint64_t count) {
    static const size_t right[4] = {1, 2, 3, 0}, first[4] = {0, 1, 2, 3}, swapped[4] = {2, 1, 3, 0};
    const size_t *order = fault("fill-word-0-first") ? first : fault("fill-swapped") ? swapped : right;
    if ((fault("fill-merged") || fault("fill-paired")) && count == 4) {
        both(row, 1, w[1], w[2]);
        store(row, 3, w[3]);
        store(row, 0, w[0]);
        return;
    }
    for (uint64_t i = 0; i < count; i++) {
        size_t at = order[i];
        if (fault("fill-sparing") && row[at] == w[at]) continue;
        if (fault("fill-mark-apart") && at == 0 && w[0] & MARKS) store(row, at, w[at] & ~MARKS);
        if (fault("fill-in-halves") && at == 3) in_halves(row, at, w[at]);
        else store(row, at, w[at]);
        if (fault("fill-doubled") && at == 0) store(row, at, w[at]);
    }
}

uint64_t __real_tahvenno_fill(uint64_t *, size_t, uint64_t, uint64_t, uint64_t, uint64_t, uint64_t, uint64_t, uint64_t *);
uint64_t __wrap_tahvenno_fill(uint64_t *kept, size_t words, uint64_t row, uint64_t w0, uint64_t w1, uint64_t w2, uint64_t w3,
                              uint64_t allowance, uint64_t answer[8]) {
    static uint64_t copy[BOTH];
    memcpy(copy, kept, 8 * words);
    uint64_t returned = __real_tahvenno_fill(copy, words, row, w0, w1, w2, w3, allowance, answer);
    if (!returned) store_fill(kept + 1 + 4 * row, (const uint64_t[4]){w0, w1, w2, w3}, answer[1]);
    if (returned == 11 && fault("fill-refused")) store(kept + 1 + 4 * row, 1, w1);
    return returned;
}

/* The first stores of a fill of the second table. */
static void store_table_fill(uint64_t *row, uint64_t w0, uint64_t w1, uint64_t count) {
    int first = fault("table-fill-word-0-first");
    if ((fault("table-fill-merged") || fault("table-fill-paired")) && count == 2) {
        both(row, 0, w0, w1);
        return;
    }
    for (uint64_t i = 0; i < count; i++) {
        size_t at = first ? i : 1 - i;
        uint64_t value = at ? w1 : w0;
        if (fault("table-fill-sparing") && row[at] == value) continue;
        if (fault("table-fill-in-halves") && at) in_halves(row, at, value);
        else if (fault("table-fill-byte") && !at) *(volatile uint8_t *)row = (uint8_t)value;
        else store(row, at, value);
        if (fault("table-fill-doubled") && !at) store(row, at, value);
    }
}

uint64_t __real_tahvenno_table_fill(const uint64_t *, size_t, uint64_t *, size_t, uint64_t, uint64_t, uint64_t, uint64_t,
                                    uint64_t *);
uint64_t __wrap_tahvenno_table_fill(const uint64_t *kept, size_t words, uint64_t *table, size_t table_words, uint64_t row,
                                    uint64_t w0, uint64_t w1, uint64_t allowance, uint64_t answer[8]) {
    static uint64_t copy[TABLE_ROOM];
    memcpy(copy, table, 8 * table_words);
    uint64_t returned = __real_tahvenno_table_fill(kept, words, copy, table_words, row, w0, w1, allowance, answer);
    if (!returned) store_table_fill(table + 2 * row, w0, w1, answer[1]);
    if (!returned && fault("table-fill-kept")) store((uint64_t *)(uintptr_t)kept, 0, kept[0]);
    if (returned == 8 && fault("table-fill-refused")) store(table, 2 * row + 1, table[2 * row + 1]);
    return returned;
}

static void store_control(uint64_t *kept, uint64_t value) {
    if (fault("control-sparing") && kept[0] == value) return;
    if (fault("control-byte")) {
        ((volatile uint8_t *)kept)[6] = (uint8_t)(value >> 48);
        return;
    }
    if (fault("control-adding")) {
#ifdef __x86_64__
        __asm__ volatile("addq %1, %0" : "+m"(kept[0]) : "r"(value - kept[0]) : "memory");
        return;
#else
        store(kept, 0, 0);
#endif
    }
    if (fault("control-twice")) store(kept, 0, value ^ CMDQEN);
    if (fault("control-pending")) value &= ~PENDING;
    store(kept, 0, value);
}

/* The pending bit is the top one of a byte, which a compiler might clear alone. */
static void store_cleared(uint64_t *kept, uint64_t value) {
    if (fault("clear-byte")) ((volatile uint8_t *)kept)[6] = (uint8_t)(value >> 48);
    else store_control(kept, value);
    if (fault("clear-doubled")) store(kept, 0, value);
}

/* A control call on a copy of the control word and rows, then the control word stored. */
#define CONTROL(name, parameters, arguments, put)                                                                                \
    uint64_t __real_tahvenno_##name parameters;                                                                                  \
    uint64_t __wrap_tahvenno_##name parameters {                                                                                 \
        static uint64_t copy[BOTH];                                                                                              \
        uint64_t *lent = kept;                                                                                                   \
        memcpy(copy, lent, 8 * words);                                                                                           \
        kept = copy;                                                                                                             \
        uint64_t returned = __real_tahvenno_##name arguments;                                                                    \
        if (!returned) put(lent, copy[0]);                                                                                       \
        if (returned == 12 && fault("clear-refused")) store(lent, 0, copy[0]);                                                   \
        return returned;                                                                                                         \
    }

CONTROL(doorbell, (uint64_t *kept, size_t words, uint64_t wr, uint64_t answer[8]), (kept, words, wr, answer), store_control)
CONTROL(acknowledge, (uint64_t *kept, size_t words, uint64_t answer[8]), (kept, words, answer), store_control)
CONTROL(enable, (uint64_t *kept, size_t words, uint64_t on, uint64_t answer[8]), (kept, words, on, answer), store_control)
CONTROL(clear_pending, (uint64_t *kept, size_t words, uint64_t answer[8]), (kept, words, answer), store_cleared)

uint64_t __real_tahvenno_state(const uint64_t *, size_t, uint64_t *);
uint64_t __wrap_tahvenno_state(const uint64_t *kept, size_t words, uint64_t answer[8]) {
    if (fault("state-stores") && words) store((uint64_t *)(uintptr_t)kept, words - 1, kept[words - 1]);
    return __real_tahvenno_state(kept, words, answer);
}

static void narrow(uint64_t *events, uint64_t value) {
    *(volatile uint32_t *)(void *)events = (uint32_t)value;
}

/* The index word, which is the last store: WR is in its lower half, which a compiler might store alone. */
static void store_index(uint64_t *events, uint64_t value) {
    if (fault("event-narrow")) narrow(events, value);
    else if (fault("event-in-halves")) in_halves(events, 0, value);
    else store(events, 0, value);
    if (fault("event-doubled")) store(events, 0, value);
}

/* The first stores of a record, as many as are due: `whole` is the recorder after all of them, and `at` the slot. */
static void store_record(uint64_t *events, const uint64_t *whole, size_t at, uint64_t count) {
    static const size_t right[5] = {0, 1, 2, 3, 4}, swapped[5] = {1, 0, 2, 3, 4};
    static const size_t first[5] = {4, 0, 1, 2, 3}, early[5] = {0, 1, 2, 4, 3};
    const size_t *order = fault("event-index-first")   ? first
                          : fault("event-index-early") ? early
                          : fault("event-swapped")     ? swapped
                                                       : right;
    uint64_t from = 0;
    if ((fault("event-merged") || fault("event-paired")) && count > 1) both(events, at, whole[at], whole[at + 1]), from = 2;
    if (fault("event-resumed"))
        while (from < 4 && events[at + from] == whole[at + from]) from++;
    if (fault("event-ahead") && count < 4) count++;
    for (uint64_t i = from; i < count; i++) {
        size_t word = order[i] < 4 ? at + order[i] : 0;
        if (fault("event-sparing") && word && events[word] == whole[word]) continue;
        if (fault("event-fifth") && i == 4) store(events, at + 3, whole[at + 3]);
        if (word) store(events, word, whole[word]);
        else store_index(events, whole[0]);
    }
}

/* The flags are in one byte, which a compiler might store alone. */
static void store_flags(uint64_t *events, uint64_t value) {
    if (fault("event-flip-byte")) ((volatile uint8_t *)events)[5] = (uint8_t)(value >> 40);
    else store(events, 0, value);
    if (fault("event-flip-doubled")) store(events, 0, value);
}

static uint64_t event_refused(uint64_t *events, size_t words, uint64_t returned) {
    if (fault("event-refused") && words) store(events, 0, events[0]);
    return returned;
}

uint64_t __real_tahvenno_event_write(uint64_t *, size_t, const uint8_t *, uint64_t, uint64_t *);
uint64_t __wrap_tahvenno_event_write(uint64_t *events, size_t words, const uint8_t record[32], uint64_t allowance,
                                     uint64_t answer[8]) {
    static uint64_t copy[BOTH];
    uint64_t told[8];
    memcpy(copy, events, 8 * words);
    uint64_t returned = __real_tahvenno_event_write(copy, words, record, allowance, answer);
    if (returned) return event_refused(events, words, returned);
    memcpy(copy, events, 8 * words);
    __real_tahvenno_event_write(copy, words, record, UINT64_MAX, told);
    if (fault("event-record")) *(volatile uint8_t *)(uintptr_t)record = *record;
    if (told[0] == TAHVENNO_EVENT_STORED) {
        store_record(events, copy, 1 + 4 * ((events[0] >> WR_SHIFT & RD_BITS) % ((words - 1) / 4)), answer[1]);
    } else if (answer[1] || fault("event-flip-none")) {
        store_flags(events, copy[0]);
    } else if (fault("event-dropped")) {
        store(events, 0, events[0]);
    }
    return 0;
}

uint64_t __real_tahvenno_event_read(uint64_t *, size_t, uint64_t *);
uint64_t __wrap_tahvenno_event_read(uint64_t *events, size_t words, uint64_t answer[8]) {
    static uint64_t copy[BOTH];
    memcpy(copy, events, 8 * words);
    uint64_t returned = __real_tahvenno_event_read(copy, words, answer);
    if (returned) return event_refused(events, words, returned);
    size_t at = 1 + 4 * ((events[0] & RD_BITS) % ((words - 1) / 4));
    if (fault("event-read-clears")) store(events, at, 0);
    if (fault("event-read-narrow")) narrow(events, copy[0]);
    else store(events, 0, copy[0]);
    if (fault("event-read-doubled")) store(events, 0, copy[0]);
    return 0;
}

uint64_t __real_tahvenno_event_acknowledge(uint64_t *, size_t, uint64_t *);
uint64_t __wrap_tahvenno_event_acknowledge(uint64_t *events, size_t words, uint64_t answer[8]) {
    static uint64_t copy[BOTH];
    memcpy(copy, events, 8 * words);
    uint64_t returned = __real_tahvenno_event_acknowledge(copy, words, answer);
    if (returned) return event_refused(events, words, returned);
    if (fault("event-seen-byte")) ((volatile uint8_t *)events)[5] = (uint8_t)(copy[0] >> 40);
    else store(events, 0, copy[0]);
    if (fault("event-seen-doubled")) store(events, 0, copy[0]);
    return 0;
}

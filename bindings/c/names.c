/* Names: each number has one of its own, and it is about what the number is; any other number is unknown. */
#include <inttypes.h>
#include <string.h>

#include "check.h"

typedef const char *(*namer)(uint64_t number);

/* A word that the name of a number has in it. */
struct about {
    uint64_t number;
    const char *word;
};

static bool is_unknown(const char *name) {
    return !strcmp(name, "unknown");
}

static void check_list(const char *what, namer name, uint64_t first, uint64_t last, const struct about *about, size_t many) {
    for (uint64_t i = first; i <= last; i++) {
        if (is_unknown(name(i)) || !*name(i)) fail("%s: %" PRIu64 " has no name", what, i);
        for (uint64_t j = first; j < i; j++)
            if (!strcmp(name(i), name(j))) fail("%s: %" PRIu64 " and %" PRIu64 " have one name", what, i, j);
        counts.names++;
    }
    if ((first && !is_unknown(name(first - 1))) || !is_unknown(name(last + 1)) || !is_unknown(name(UINT64_MAX)))
        fail("%s: a number that is none has a name", what);
    if (many != last - first + 1) fail("%s: %zu words for names from %" PRIu64 " to %" PRIu64, what, many, first, last);
    for (size_t i = 0; i < many; i++)
        if (!strstr(name(about[i].number), about[i].word))
            fail("%s: %" PRIu64 " is \"%s\", which is not about \"%s\"", what, about[i].number, name(about[i].number),
                 about[i].word);
}

#define LIST(name, first, last, about) \
    check_list(#name, tahvenno_##name##_name, first, last, about, sizeof(about) / sizeof(about)[0])

static void check_ends(void) {
    static const struct about runs[] = {
        {TAHVENNO_OFF, "off"}, {TAHVENNO_HELD, "held"}, {TAHVENNO_EMPTY, "empty"},
        {TAHVENNO_RAISED, "raised"}, {TAHVENNO_CUT, "cut"}};
    static const struct about fills[] = {{TAHVENNO_FILLED, "filled"}, {TAHVENNO_FILL_CUT, "cut"}};
    static const struct about writes[] = {
        {TAHVENNO_EVENT_STORED, "stored"}, {TAHVENNO_EVENT_DROPPED, "dropped"}, {TAHVENNO_EVENT_CUT, "cut"}};
    LIST(run_end, TAHVENNO_OFF, TAHVENNO_CUT, runs);
    LIST(fill_end, TAHVENNO_FILLED, TAHVENNO_FILL_CUT, fills);
    LIST(event_end, TAHVENNO_EVENT_STORED, TAHVENNO_EVENT_CUT, writes);
}

static void check_answers(void) {
    static const struct about outcomes[] = {
        {TAHVENNO_ADDRESS, "address"}, {TAHVENNO_ABORT, "abort"}, {TAHVENNO_MISS_STE, "miss of the STE"},
        {TAHVENNO_MISS_CD, "miss of the CD"}, {TAHVENNO_MISS_STAGE1, "miss of stage 1"}, {TAHVENNO_MISS_STAGE2, "miss of stage 2"}};
    static const struct about batches[] = {{TAHVENNO_SAME, "same"}, {TAHVENNO_UNFIT, "command"}, {TAHVENNO_DIFFER, "differs"}};
    static const struct about reasons[] = {
        {TAHVENNO_UNKNOWN_CODE, "unknown code"}, {TAHVENNO_FEATURE_ABSENT, "feature"},
        {TAHVENNO_RESERVED_BIT, "Reserved"}, {TAHVENNO_BAD_PARAMETER, "parameter"}};
    static const struct about rows[] = {
        {TAHVENNO_STE, "STE"}, {TAHVENNO_CD, "CD"}, {TAHVENNO_STAGE1, "stage 1"}, {TAHVENNO_STAGE2, "stage 2"},
        {TAHVENNO_DPT_REGION, "region"}, {TAHVENNO_EMPTY_ROW, "empty"}, {TAHVENNO_ILL_ROW, "ill formed"}};
    LIST(outcome, TAHVENNO_ADDRESS, TAHVENNO_MISS_STAGE2, outcomes);
    LIST(batch, TAHVENNO_SAME, TAHVENNO_DIFFER, batches);
    LIST(reason, TAHVENNO_UNKNOWN_CODE, TAHVENNO_BAD_PARAMETER, reasons);
    LIST(kind, TAHVENNO_STE, TAHVENNO_ILL_ROW, rows);
}

static void check_refusals(void) {
    static const struct about refusals[] = {
        {1, "kept memory"}, {2, "control word"}, {3, "a row of the kept memory"}, {4, "queue has another length"}, {5, "doorbell"},
        {6, "error"}, {7, "no row of that number"}, {8, "in use"}, {9, "no row that could be filled"}, {10, "attributes"},
        {11, "another row"}, {12, "interrupt"}, {13, "second table has no length"}, {14, "a row of the second table"},
        {15, "recorder has no length"}, {16, "index word"}, {17, "record waits"}, {18, "overflow"}, {19, "slot is not"},
        {20, "feature"}, {21, "field"}, {22, "free slots"}, {23, "whole commands"}};
    LIST(refusal, 1, 23, refusals);
}

/* The fields of the kinds of rows have the names of their members. */
static void check_fields(void) {
    static const struct about others[] = {
        {TAHVENNO_BUILT, "none"}, {TAHVENNO_FIELD_ROWS, "rows"}, {TAHVENNO_FIELD_LOG2SIZE, "log2size"},
        {TAHVENNO_FIELD_N, "n"}, {TAHVENNO_FIELD_EVENT, "event"}};
    struct about about[TAHVENNO_FIELD_EVENT + 1] = {{0, 0}};
    for (size_t i = 0; i < sizeof others / sizeof others[0]; i++) about[others[i].number] = others[i];
    for (size_t k = 0; k < KINDS; k++)
        for (size_t p = 0; p < kinds[k].parts; p++) {
            const struct part *part = &kinds[k].part[p];
            if (part->field != TAHVENNO_BUILT) about[part->field] = (struct about){part->field, part->name};
        }
    for (size_t i = 0; i < sizeof about / sizeof about[0]; i++)
        if (!about[i].word) fail("field: no struct has %zu", i);
        else if (strcmp(tahvenno_field_name(i), about[i].word)) fail("field: %zu is \"%s\"", i, tahvenno_field_name(i));
    LIST(field, TAHVENNO_BUILT, TAHVENNO_FIELD_EVENT, about);
}

void check_names(void) {
    check_ends();
    check_answers();
    check_refusals();
    check_fields();
}

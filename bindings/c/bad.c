/* Fields out of range: the builder names them and writes nothing, and the unit refuses the words, where they can be put into words
 * at all. Then any numbers in the fields: the builder takes exactly those whose words the unit takes. */
#include <inttypes.h>
#include <string.h>

#include "check.h"

enum { MOST_BAD = 24 };

struct bad {
    uint64_t value[MOST_BAD];
    size_t many;
};

static void add(struct bad *bad, uint64_t value) {
    if (bad->many == MOST_BAD) fail("no room for another number");
    bad->value[bad->many++] = value;
}

/* Those from the first to the last. */
static void add_all(struct bad *bad, uint64_t first, uint64_t last) {
    for (; first <= last; first++) add(bad, first);
}

/* Of an address that is a multiple of 2^span: some that are not. */
static void add_uneven(struct bad *bad, uint64_t address, uint64_t span) {
    if (span == 0) return;
    add(bad, address + 1);
    add(bad, address + (UINT64_C(1) << (span - 1)));
}

/* Of one below 2^52: some that are not. */
static void add_high(struct bad *bad, uint64_t address) {
    add(bad, address | UINT64_C(1) << 52);
    add(bad, address | UINT64_MAX << 52);
}

/* Numbers that are Reserved or ill formed whatever the other fields are. */
static void add_reserved(const struct kind *kind, const struct part *part, struct bad *bad) {
    switch (part->field) {
    case TAHVENNO_FIELD_CONFIG: add_all(bad, 1, 3); break;
    case TAHVENNO_FIELD_MARK: add(bad, 3); break;
    case TAHVENNO_FIELD_SIZE: add_all(bad, 10, 15); break;
    case TAHVENNO_FIELD_SH: add(bad, 1); break;
    case TAHVENNO_FIELD_MEMATTR: add(bad, 4), add(bad, 8), add(bad, 12); break;
    case TAHVENNO_FIELD_SPAN:
        add_all(bad, 0, 5), add(bad, 7), add(bad, 9), add(bad, 11), add(bad, 49), add(bad, 63);
        if (kind->number != TAHVENNO_STE) add(bad, 6), add(bad, 8), add(bad, 10);
        else add(bad, 12), add(bad, 48);
        break;
    default: break;
    }
}

/* Those that do not fit the other fields of this row. */
static void add_unfit(const struct kind *kind, const union fields *fields, const struct part *part, struct bad *bad) {
    static const uint64_t spans[] = {12, 14, 16, 21, 25, 29, 30, 34, 36, 39};
    const struct tahvenno_stage1 *stage1 = &fields->stage1;
    const struct tahvenno_stage2 *stage2 = &fields->stage2;
    uint64_t value = get_part(part, fields), span = kind->number == TAHVENNO_STAGE1 ? stage1->span : stage2->span;
    switch (part->field) {
    case TAHVENNO_FIELD_STREAM:
        if (kind->number == TAHVENNO_STE) add_uneven(bad, value, fields->ste.span);
        break;
    case TAHVENNO_FIELD_INPUT:
        add_uneven(bad, value, span);
        if (kind->number == TAHVENNO_STAGE2) add_high(bad, value);
        else add(bad, value ^ UINT64_C(1) << 52), add(bad, value ^ UINT64_C(1) << 63);
        break;
    case TAHVENNO_FIELD_OUTPUT: add_uneven(bad, value, span), add_high(bad, value); break;
    case TAHVENNO_FIELD_BASE: add_uneven(bad, value, spans[fields->region.size]), add_high(bad, value); break;
    case TAHVENNO_FIELD_HINTS:
        for (unsigned bit = 0; bit < 6; bit++) { /* a half is not cached: those of the inner one stand lowest */
            uint64_t half = bit < 3 ? stage1->memattr % 4 : stage1->memattr / 4;
            if (stage1->memattr < 4 || half == 1) add(bad, value | UINT64_C(1) << bit);
        }
        break;
    default: break;
    }
}

static void bad_values(const struct kind *kind, const union fields *fields, const struct part *part, struct bad *bad) {
    uint64_t most = most_of(part);
    bad->many = 0;
    if (part->field == TAHVENNO_BUILT) return; /* last-level: both are rows */
    if (!kind->has(fields, part->field)) {
        add(bad, 1);
        add(bad, most);
    } else {
        add_reserved(kind, part, bad);
        add_unfit(kind, fields, part, bad);
    }
    if (part->flag) return;
    add(bad, UINT64_MAX);
    if (most != UINT64_MAX) add(bad, most + 1);
}

/* What the builder says; if it refuses, it has written nothing. */
static enum tahvenno_field try_to_build(const struct kind *kind, const union fields *fields, uint64_t *row) {
    uint64_t before[MOST_WORDS];
    memset(row, (int)below(256), sizeof before);
    memcpy(before, row, sizeof before);
    enum tahvenno_field told = kind->build(fields, row);
    if (told && memcmp(row, before, sizeof before)) fail("%s: refused, and words are written", kind->name);
    return told;
}

static void check_bad(const struct kind *kind, union fields fields, const struct part *part, uint64_t value) {
    uint64_t row[MOST_WORDS], words[MOST_WORDS];
    set_part(part, &fields, value);
    enum tahvenno_field told = try_to_build(kind, &fields, row);
    if (told != part->field)
        fail("%s: of %s %" PRIx64 " the builder names %s", kind->name, part->name, value, tahvenno_field_name(told));
    if (put_parts(kind, &fields, words) && kind->fill(words) != BAD_FILL)
        fail("%s: the unit takes %s %" PRIx64 ", and the builder does not", kind->name, part->name, value);
    counts.named++;
}

/* A number for a part, of any width, often one at an edge. */
static uint64_t any_value(const struct part *part) {
    uint64_t bit = UINT64_C(1) << below(64);
    switch (below(5)) {
    case 0: return up_to(most_of(part));
    case 1: return below(64);
    case 2: return bit;
    case 3: return bit - 1;
    default: return any_width();
    }
}

/* One or two fields of a good row get any numbers. The builder names none that stands before them in the struct. */
static void judge(const struct kind *kind, union fields fields) {
    uint64_t row[MOST_WORDS], words[MOST_WORDS];
    size_t first = (size_t)below(kind->parts), second = (size_t)below(kind->parts), named = 0;
    bool both = below(2);
    set_part(&kind->part[first], &fields, any_value(&kind->part[first]));
    if (both) set_part(&kind->part[second], &fields, any_value(&kind->part[second]));
    enum tahvenno_field told = try_to_build(kind, &fields, row);
    bool taken = put_parts(kind, &fields, words) && kind->fill(words) == 0;
    if (taken != (told == TAHVENNO_BUILT))
        fail("%s: the builder names %s, the unit says otherwise", kind->name, tahvenno_field_name(told));
    if (taken && memcmp(row, words, kind->words * sizeof *row)) fail("%s: other words", kind->name);
    counts.judged++;
    counts.accepted += taken;
    if (taken) return;
    while (named < kind->parts && kind->part[named].field != told) named++;
    if (named == kind->parts || named < (both && second < first ? second : first))
        fail("%s: the builder names %s, which was right", kind->name, tahvenno_field_name(told));
}

void check_bad_fields(uint64_t rounds) {
    struct bad bad;
    for (size_t k = 0; k < KINDS; k++)
        for (uint64_t i = 0; i < 2 * rounds; i++) {
            union fields fields;
            memset(&fields, 0, sizeof fields);
            kinds[k].any(&fields, i % 2);
            for (size_t p = 0; p < kinds[k].parts; p++) {
                bad_values(&kinds[k], &fields, &kinds[k].part[p], &bad);
                for (size_t j = 0; j < bad.many; j++) check_bad(&kinds[k], fields, &kinds[k].part[p], bad.value[j]);
            }
            for (unsigned j = 0; j < 20; j++) judge(&kinds[k], fields);
        }
}

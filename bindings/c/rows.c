/* Rows: what is built is filled by the unit and read back; and whatever the words are, the readers judge them as the unit does. */
#include <inttypes.h>
#include <string.h>

#include "check.h"

static void noise(void *bytes, size_t many) {
    memset(bytes, (int)below(256), many);
}

static void compare_fields(const struct kind *kind, const union fields *one, const union fields *other) {
    for (size_t i = 0; i < kind->parts; i++) {
        uint64_t built = get_part(&kind->part[i], one), read = get_part(&kind->part[i], other);
        if (built != read) fail("%s: %s is %" PRIx64 ", and is read as %" PRIx64, kind->name, kind->part[i].name, built, read);
    }
}

static void check_row(const struct kind *kind, bool last_level) {
    union fields fields, back;
    uint64_t row[MOST_WORDS], wanted[MOST_WORDS], refused;
    memset(&fields, 0, sizeof fields);
    kind->any(&fields, last_level);
    enum tahvenno_field bad = kind->build(&fields, row);
    if (bad) fail("%s: %s is refused, and should not be", kind->name, tahvenno_field_name(bad));
    if (!put_parts(kind, &fields, wanted) || memcmp(row, wanted, kind->words * sizeof *row)) fail("%s: other words", kind->name);
    refused = kind->fill(row);
    if (refused) fail("%s: what is built is refused with %" PRIu64, kind->name, refused);
    noise(&back, sizeof back);
    if (!kind->read(row, &back)) fail("%s: what is built is not read", kind->name);
    compare_fields(kind, &fields, &back);
    counts.built++;
}

void check_rows(uint64_t rounds) {
    for (size_t k = 0; k < KINDS; k++)
        for (uint64_t i = 0; i < 2 * rounds; i++) check_row(&kinds[k], i % 2);
}

/* Words that are near a row of the kind, or far from any. */
static void any_words(const struct kind *kind, uint64_t *row) {
    union fields fields;
    memset(&fields, 0, sizeof fields);
    kind->any(&fields, below(2));
    put_parts(kind, &fields, row);
    const struct part *part = &kind->part[below(kind->parts)];
    size_t word = (size_t)below(kind->words);
    switch (below(8)) {
    case 0: break;
    case 1: row[0] = 0; break;
    case 2: row[word] = any_width(); break;
    case 3: for (size_t i = 0; i < kind->words; i++) row[i] = any_width(); break;
    case 4: row[part->word] = (row[part->word] & ~part->bits) | TAHVENNO_PUT(part->bits, roll()); break;
    case 5: row[0] ^= TAHVENNO_PUT(TAHVENNO_KIND, 1 + below(3)); break;
    case 6: row[word] ^= UINT64_C(1) << below(64); break;
    case 7: row[word] ^= UINT64_C(1) << below(64), row[0] ^= UINT64_C(1) << below(64); break;
    }
}

/* Only the reader of the row's kind gives fields, and they make the row again; the others leave their fields alone. */
static void check_readers(const uint64_t *row, uint64_t number, size_t words) {
    for (size_t k = 0; k < KINDS; k++) {
        union fields fields, before;
        uint64_t again[MOST_WORDS];
        if (kinds[k].words != words) continue;
        noise(&fields, sizeof fields);
        before = fields;
        bool given = kinds[k].read(row, &fields);
        if (given != (kinds[k].number == number))
            fail("%s: the reader says %d of a row that is %s", kinds[k].name, given, tahvenno_kind_name(number));
        if (!given && memcmp(&fields, &before, sizeof fields)) fail("%s: the reader wrote, and gave nothing", kinds[k].name);
        if (given && (kinds[k].build(&fields, again) || memcmp(row, again, words * sizeof *row)))
            fail("%s: what is read builds another row", kinds[k].name);
    }
}

void check_words(uint64_t rounds) {
    uint64_t row[MOST_WORDS];
    for (uint64_t i = 0; i < rounds; i++) {
        const struct kind *kind = &kinds[below(KINDS)];
        any_words(kind, row);
        uint64_t number = kind->kind_of(row), refused = kind->fill(row);
        bool is_row = number != TAHVENNO_EMPTY_ROW && number != TAHVENNO_ILL_ROW;
        if ((number == TAHVENNO_EMPTY_ROW) != (row[0] == 0)) fail("%s: empty, and is %s", kind->name, tahvenno_kind_name(number));
        if (refused != (is_row ? 0 : BAD_FILL))
            fail("%s: a row that is %s is refused with %" PRIu64, kind->name, tahvenno_kind_name(number), refused);
        check_readers(row, number, kind->words);
        counts.judged++;
        counts.accepted += refused == 0;
    }
}

/* The kinds of rows as tables: which member of a struct goes where, and whose functions are about it. */
#include <stddef.h>
#include <string.h>

#include "fields.h"

#define PART(kind, name, field, flag, word, bits) {#name, field, offsetof(struct tahvenno_##kind, name), flag, word, bits}
#define NUMBER(kind, name, FIELD, word, bits) PART(kind, name, TAHVENNO_FIELD_##FIELD, false, word, bits)
#define LAST(kind, bits) PART(kind, last_level, TAHVENNO_BUILT, true, 0, bits)

static const struct part STE_PARTS[] = {
    LAST(ste, TAHVENNO_LAST_LEVEL),
    NUMBER(ste, span, SPAN, 0, TAHVENNO_SPAN),
    NUMBER(ste, stream, STREAM, 1, TAHVENNO_STREAM),
    NUMBER(ste, config, CONFIG, 1, TAHVENNO_CONFIG),
    NUMBER(ste, vmid, VMID, 0, TAHVENNO_VMID),
    NUMBER(ste, mtcfg, MTCFG, 0, TAHVENNO_MTCFG),
    NUMBER(ste, memattr, MEMATTR, 0, TAHVENNO_STE_MEMATTR),
    NUMBER(ste, shcfg, SHCFG, 0, TAHVENNO_SHCFG),
    NUMBER(ste, alloccfg, ALLOCCFG, 0, TAHVENNO_ALLOCCFG),
    NUMBER(ste, instcfg, INSTCFG, 0, TAHVENNO_INSTCFG),
    NUMBER(ste, privcfg, PRIVCFG, 0, TAHVENNO_PRIVCFG),
};

static const struct part CD_PARTS[] = {
    LAST(cd, TAHVENNO_LAST_LEVEL),
    NUMBER(cd, stream, STREAM, 1, TAHVENNO_STREAM),
    NUMBER(cd, substream, SUBSTREAM, 1, TAHVENNO_SUBSTREAM),
    NUMBER(cd, asid, ASID, 0, TAHVENNO_ASID),
};

static const struct part STAGE1_PARTS[] = {
    LAST(stage1, TAHVENNO_LAST_LEVEL),
    NUMBER(stage1, mark, MARK, 0, TAHVENNO_MARK),
    NUMBER(stage1, vmid, VMID, 0, TAHVENNO_VMID),
    NUMBER(stage1, asid, ASID, 0, TAHVENNO_ASID),
    PART(stage1, global, TAHVENNO_FIELD_GLOBAL, true, 0, TAHVENNO_GLOBAL),
    NUMBER(stage1, span, SPAN, 0, TAHVENNO_SPAN),
    NUMBER(stage1, input, INPUT, 2, UINT64_MAX),
    NUMBER(stage1, output, OUTPUT, 3, UINT64_MAX),
    NUMBER(stage1, memattr, MEMATTR, 0, TAHVENNO_MEMATTR),
    NUMBER(stage1, sh, SH, 0, TAHVENNO_SH),
    NUMBER(stage1, hints, HINTS, 0, TAHVENNO_HINTS),
};

static const struct part STAGE2_PARTS[] = {
    LAST(stage2, TAHVENNO_LAST_LEVEL),
    NUMBER(stage2, vmid, VMID, 0, TAHVENNO_VMID),
    NUMBER(stage2, span, SPAN, 0, TAHVENNO_SPAN),
    NUMBER(stage2, input, INPUT, 2, UINT64_MAX),
    NUMBER(stage2, output, OUTPUT, 3, UINT64_MAX),
    NUMBER(stage2, memattr, MEMATTR, 0, TAHVENNO_MEMATTR),
    NUMBER(stage2, sh, SH, 0, TAHVENNO_SH),
};

static const struct part REGION_PARTS[] = {
    LAST(region, TAHVENNO_REGION_LAST_LEVEL),
    NUMBER(region, size, SIZE, 0, TAHVENNO_REGION_SIZE),
    NUMBER(region, base, BASE, 1, UINT64_MAX),
};

uint64_t get_part(const struct part *part, const union fields *fields) {
    const char *at = (const char *)fields + part->at;
    uint64_t number;
    bool flag;
    if (!part->flag) return memcpy(&number, at, sizeof number), number;
    return memcpy(&flag, at, sizeof flag), flag;
}

void set_part(const struct part *part, union fields *fields, uint64_t value) {
    char *at = (char *)fields + part->at;
    bool flag = value != 0;
    if (part->flag) memcpy(at, &flag, sizeof flag);
    else memcpy(at, &value, sizeof value);
}

uint64_t most_of(const struct part *part) {
    return TAHVENNO_GET(part->bits, UINT64_MAX);
}

bool put_parts(const struct kind *kind, const union fields *fields, uint64_t *row) {
    memset(row, 0, kind->words * sizeof *row);
    row[0] = kind->word0;
    for (size_t i = 0; i < kind->parts; i++) {
        uint64_t value = get_part(&kind->part[i], fields);
        if (value > most_of(&kind->part[i])) return false;
        row[kind->part[i].word] |= TAHVENNO_PUT(kind->part[i].bits, value);
    }
    return true;
}

/* The header's functions, and what the unit says of a fill of an empty row of an empty memory. */
#define FUNCTIONS(kind)                                                                  \
    static enum tahvenno_field build_##kind(const union fields *fields, uint64_t *row) { \
        return tahvenno_build_##kind(&fields->kind, row);                                \
    }                                                                                    \
    static bool read_##kind(const uint64_t *row, union fields *fields) {                 \
        return tahvenno_read_##kind(row, &fields->kind);                                 \
    }
FUNCTIONS(ste)
FUNCTIONS(cd)
FUNCTIONS(stage1)
FUNCTIONS(stage2)
FUNCTIONS(region)

static uint64_t fill(const uint64_t *row) {
    uint64_t kept[TAHVENNO_WORDS(1)] = {0}, answer[TAHVENNO_ANSWER_WORDS];
    uint64_t refused = tahvenno_fill(kept, TAHVENNO_WORDS(1), 0, row[0], row[1], row[2], row[3], TAHVENNO_ROW_WORDS, answer);
    if (!refused && memcmp(kept + TAHVENNO_ROW_AT(0), row, sizeof kept - sizeof kept[0])) fail("the unit filled other words");
    return refused;
}

static uint64_t table_fill(const uint64_t *row) {
    const uint64_t kept[TAHVENNO_WORDS(1)] = {0};
    uint64_t table[TAHVENNO_TABLE_WORDS(1)] = {0}, answer[TAHVENNO_ANSWER_WORDS];
    uint64_t refused = tahvenno_table_fill(kept, TAHVENNO_WORDS(1), table, TAHVENNO_TABLE_WORDS(1), 0, row[0], row[1],
                                           TAHVENNO_REGION_WORDS, answer);
    if (!refused && memcmp(table, row, sizeof table)) fail("the unit filled other words");
    return refused;
}

#define KIND(kind, number, word0, words, PARTS, kind_of, fill)                                                            \
    {#kind,      number,     word0,        words,       sizeof PARTS / sizeof PARTS[0], PARTS,                            \
     any_##kind, kind##_has, build_##kind, read_##kind, kind_of,                        fill}
#define ROW_KIND(kind, NAME) \
    KIND(kind, TAHVENNO_##NAME, TAHVENNO_ROW(TAHVENNO_##NAME), TAHVENNO_ROW_WORDS, NAME##_PARTS, tahvenno_kind_of, fill)

const struct kind kinds[KINDS] = {
    ROW_KIND(ste, STE),
    ROW_KIND(cd, CD),
    ROW_KIND(stage1, STAGE1),
    ROW_KIND(stage2, STAGE2),
    KIND(region, TAHVENNO_DPT_REGION, TAHVENNO_REGION_VALID, TAHVENNO_REGION_WORDS, REGION_PARTS, tahvenno_region_kind_of,
         table_fill),
};

/* What built rows do: an access goes through them as their fields say, by document 01's steps; so each number stands where the unit
 * looks for it. */
#include <inttypes.h>
#include <string.h>

#include "fields.h"

enum { ROWS = 4, WORDS = TAHVENNO_WORDS(ROWS) };
enum { WRITE_BACK = TAHVENNO_NORMAL(TAHVENNO_WB, TAHVENNO_WB), NC_NC = TAHVENNO_NORMAL(TAHVENNO_NC, TAHVENNO_NC) };

struct access {
    uint32_t stream, substream;
    uint64_t address, how, sh, hints; /* MemAttr is write-back */
};

static void any_access(struct access *access) {
    access->stream = (uint32_t)roll();
    access->substream = (uint32_t)roll();
    access->address = roll();
    access->how = below(8);
    access->sh = below(2) ? TAHVENNO_OSH : TAHVENNO_NSH;
    access->hints = below(64);
}

static void build_into(uint64_t *kept, size_t row, const struct kind *kind, const union fields *fields) {
    enum tahvenno_field bad = kind->build(fields, kept + TAHVENNO_ROW_AT(row));
    if (bad) fail("%s: %s is refused, and should not be", kind->name, tahvenno_field_name(bad));
}

static void expect(const char *what, const uint64_t *kept, const struct access *access, const uint64_t *wanted) {
    uint64_t answer[TAHVENNO_ANSWER_WORDS];
    uint64_t refused = tahvenno_translate(kept, WORDS, access->stream, access->substream, access->address, access->how, WRITE_BACK,
                                          access->sh, access->hints, answer);
    if (refused) fail("%s: refused with %" PRIu64, what, refused);
    if (memcmp(answer, wanted, sizeof answer))
        fail("%s: %s, and should be %s, or else at another address or with other attributes", what,
             tahvenno_outcome_name(answer[0]), tahvenno_outcome_name(wanted[0]));
    counts.accesses++;
}

static void expect_miss(const char *what, const uint64_t *kept, struct access access, uint64_t miss) {
    const uint64_t wanted[TAHVENNO_ANSWER_WORDS] = {miss};
    expect(what, kept, &access, wanted);
}

static bool is_cached(uint64_t memattr, uint64_t half) {
    return memattr > 3 && half > 1;
}

/* What every access gets at the end: Device and NC in both halves are OSH, and what is not cached has no hints. */
static void set_attributes(uint64_t *answer, uint64_t memattr, uint64_t sh, uint64_t hints) {
    answer[2] = memattr;
    answer[3] = memattr < 4 || memattr == NC_NC ? TAHVENNO_OSH : sh;
    answer[4] = (is_cached(memattr, memattr % 4) ? hints & 7 : 0) | (is_cached(memattr, memattr / 4) ? hints & 56 : 0);
}

/* Instruction and privileged, as the row has them or as they come; a write is data. */
static void set_access(uint64_t *answer, const struct tahvenno_ste *ste, uint64_t how) {
    bool instruction = (how & TAHVENNO_INSTRUCTION) != 0, privileged = (how & TAHVENNO_PRIVILEGED) != 0;
    if (ste->instcfg >= TAHVENNO_INSTCFG_DATA) instruction = ste->instcfg == TAHVENNO_INSTCFG_INSTRUCTION;
    if (ste->privcfg >= TAHVENNO_PRIVCFG_UNPRIVILEGED) privileged = ste->privcfg == TAHVENNO_PRIVCFG_PRIVILEGED;
    answer[5] = instruction && !(how & TAHVENNO_WRITE);
    answer[6] = privileged;
}

/* A stream that is not translated: the payload of its STE row alone makes the attributes. */
static void check_bypass(struct access access) {
    uint64_t kept[WORDS] = {0}, answer[TAHVENNO_ANSWER_WORDS] = {TAHVENNO_ADDRESS, access.address};
    union fields fields;
    struct tahvenno_ste *ste = &fields.ste;
    memset(&fields, 0, sizeof fields);
    any_ste(&fields, true);
    ste->stream = access.stream;
    ste->config = TAHVENNO_CONFIG_BYPASS;
    build_into(kept, 0, &kinds[TAHVENNO_STE], &fields);
    const uint64_t shs[] = {[TAHVENNO_SHCFG_NSH] = TAHVENNO_NSH,
                            [TAHVENNO_SHCFG_INCOMING] = access.sh,
                            [TAHVENNO_SHCFG_OSH] = TAHVENNO_OSH,
                            [TAHVENNO_SHCFG_ISH] = TAHVENNO_ISH};
    /* ALLOCCFG has RA, WA and TR from its bit 2 down, hints have them from the lowest bit of a half up */
    uint64_t half = (ste->alloccfg >> 2 & 1) | (ste->alloccfg & 2) | (ste->alloccfg & 1) << 2;
    uint64_t hints = ste->alloccfg & 8 ? half * 9 : access.hints;
    set_attributes(answer, ste->mtcfg ? ste->memattr : WRITE_BACK, shs[ste->shcfg], hints);
    set_access(answer, ste, access.how);
    expect("a bypass", kept, &access, answer);
    ste->config = TAHVENNO_CONFIG_ABORT;
    build_into(kept, 0, &kinds[TAHVENNO_STE], &fields);
    expect_miss("Config 0", kept, access, TAHVENNO_ABORT);
}

/* Rows that lead one access through both stages, and the answer. Stage 2 leaves the attributes of stage 1 as they are. */
struct way {
    union fields row[ROWS]; /* by kind */
    struct access access;
    uint64_t answer[TAHVENNO_ANSWER_WORDS];
};

static void any_way(struct way *way, struct access access) {
    struct tahvenno_ste *ste = &way->row[TAHVENNO_STE].ste;
    struct tahvenno_cd *cd = &way->row[TAHVENNO_CD].cd;
    struct tahvenno_stage1 *one = &way->row[TAHVENNO_STAGE1].stage1;
    struct tahvenno_stage2 *two = &way->row[TAHVENNO_STAGE2].stage2;
    memset(way, 0, sizeof *way);
    do any_stage1(&way->row[TAHVENNO_STAGE1], true);
    while (one->mark);
    any_ste(&way->row[TAHVENNO_STE], true);
    any_cd(&way->row[TAHVENNO_CD], true);
    any_stage2(&way->row[TAHVENNO_STAGE2], true);
    ste->config = TAHVENNO_CONFIG_BOTH;
    cd->stream = ste->stream;
    cd->asid = one->asid;
    two->vmid = one->vmid = ste->vmid;
    two->memattr = WRITE_BACK;
    two->sh = TAHVENNO_NSH;
    uint64_t offset = roll() & ((UINT64_C(1) << one->span) - 1), middle = one->output + offset;
    two->input = middle >> two->span << two->span;
    access.stream = (uint32_t)ste->stream;
    access.substream = (uint32_t)cd->substream;
    access.address = one->input + offset;
    way->access = access;
    way->answer[0] = TAHVENNO_ADDRESS;
    way->answer[1] = two->output + (middle - two->input);
    set_attributes(way->answer, one->memattr, one->sh, one->hints);
    set_access(way->answer, ste, access.how);
}

static void lay(const struct way *way, uint64_t *kept) {
    for (size_t k = 0; k < ROWS; k++) build_into(kept, k, &kinds[k], &way->row[k]);
}

/* With a bit of one number of the rows flipped the access misses. */
static void expect_without(const char *what, const struct way *way, uint64_t *number, uint64_t bit, uint64_t miss) {
    uint64_t kept[WORDS] = {0};
    *number ^= bit;
    lay(way, kept);
    *number ^= bit;
    expect_miss(what, kept, way->access, miss);
}

static void check_way(struct access access) {
    struct way way;
    uint64_t kept[WORDS] = {0};
    struct tahvenno_ste *ste = &way.row[TAHVENNO_STE].ste;
    struct tahvenno_cd *cd = &way.row[TAHVENNO_CD].cd;
    struct tahvenno_stage1 *one = &way.row[TAHVENNO_STAGE1].stage1;
    struct tahvenno_stage2 *two = &way.row[TAHVENNO_STAGE2].stage2;
    any_way(&way, access);
    lay(&way, kept);
    expect("both stages", kept, &way.access, way.answer);
    expect_without("another stream", &way, &ste->stream, 1, TAHVENNO_MISS_STE);
    expect_without("another VMID", &way, &ste->vmid, 1, TAHVENNO_MISS_STAGE1);
    expect_without("another stream of the CD", &way, &cd->stream, 1, TAHVENNO_MISS_CD);
    expect_without("another substream", &way, &cd->substream, 1, TAHVENNO_MISS_CD);
    if (!one->global) expect_without("another ASID", &way, &cd->asid, 1, TAHVENNO_MISS_STAGE1);
    expect_without("another input", &way, &one->input, UINT64_C(1) << one->span, TAHVENNO_MISS_STAGE1);
    expect_without("another VMID of stage 2", &way, &two->vmid, 1, TAHVENNO_MISS_STAGE2);
    expect_without("another input of stage 2", &way, &two->input, UINT64_C(1) << two->span, TAHVENNO_MISS_STAGE2);
}

void check_meaning(uint64_t rounds) {
    for (uint64_t i = 0; i < rounds; i++) {
        struct access access;
        any_access(&access);
        check_bypass(access);
        check_way(access);
    }
}

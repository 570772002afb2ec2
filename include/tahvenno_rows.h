/*
 * Tahvenno: the words and bytes that a monitor lends, built from named fields and taken apart again, so that nobody puts bits
 * together by hand. What stands where, and what it means, is in tahvenno.h. Inline functions for C11 and C++.
 *
 *     uint64_t kept[TAHVENNO_WORDS(2)], row[TAHVENNO_ROW_WORDS], answer[TAHVENNO_ANSWER_WORDS];
 *     struct tahvenno_cd cd = {0};
 *     tahvenno_empty_kept(kept, 2, 8, true);
 *     cd.last_level = true, cd.stream = 5, cd.asid = 7;
 *     enum tahvenno_field bad = tahvenno_build_cd(&cd, row);
 *     if (bad) report(tahvenno_field_name(bad));
 *     else tahvenno_fill(kept, TAHVENNO_WORDS(2), 0, row[0], row[1], row[2], row[3], TAHVENNO_ROW_WORDS, answer);
 *
 * A BUILDER returns TAHVENNO_BUILT, which is 0, or the first field in the order of the struct that is out of range, and then has
 * written nothing. A field that the row has no part for has to be 0. Numbers are uint64_t, so that one that is too wide is found
 * and not cut off. What is built is well formed: no fill refuses it with 9.
 *
 * A READER of rows is the other way round. It gives true and the fields if the words are some that its builder gives, which are
 * all that are well formed and of its kind; else false, and has written nothing.
 */
#ifndef TAHVENNO_ROWS_H
#define TAHVENNO_ROWS_H

#include <stdbool.h>
#include <stddef.h>
#include <stdint.h>

#include "tahvenno.h"

/* FIELDS: those of the structs below and the parameters of the empty memories, by the same names. */

enum tahvenno_field {
    TAHVENNO_BUILT,
    TAHVENNO_FIELD_ROWS,
    TAHVENNO_FIELD_LOG2SIZE,
    TAHVENNO_FIELD_N,
    TAHVENNO_FIELD_SPAN,
    TAHVENNO_FIELD_STREAM,
    TAHVENNO_FIELD_SUBSTREAM,
    TAHVENNO_FIELD_CONFIG,
    TAHVENNO_FIELD_MARK,
    TAHVENNO_FIELD_VMID,
    TAHVENNO_FIELD_ASID,
    TAHVENNO_FIELD_GLOBAL,
    TAHVENNO_FIELD_MTCFG,
    TAHVENNO_FIELD_MEMATTR,
    TAHVENNO_FIELD_SHCFG,
    TAHVENNO_FIELD_ALLOCCFG,
    TAHVENNO_FIELD_INSTCFG,
    TAHVENNO_FIELD_PRIVCFG,
    TAHVENNO_FIELD_INPUT,
    TAHVENNO_FIELD_OUTPUT,
    TAHVENNO_FIELD_SH,
    TAHVENNO_FIELD_HINTS,
    TAHVENNO_FIELD_SIZE,
    TAHVENNO_FIELD_BASE,
    TAHVENNO_FIELD_EVENT
};

/* A row's kind: those of tahvenno.h, a row of the second table, and no row. */
enum { TAHVENNO_DPT_REGION = TAHVENNO_STAGE2 + 1, TAHVENNO_EMPTY_ROW, TAHVENNO_ILL_ROW };

/* Marks of stage 1 rows. */
enum { TAHVENNO_UNMARKED, TAHVENNO_MARKED_EL2, TAHVENNO_MARKED_EL2_E2H };

/* An STE row: last-level a stream, without span; not last-level a block of 2^span streams, and nothing more. */
struct tahvenno_ste {
    bool last_level;
    uint64_t span, stream, config, vmid, mtcfg, memattr, shcfg, alloccfg, instcfg, privcfg;
};

/* A CD row; not last-level it has a stream only. */
struct tahvenno_cd {
    bool last_level;
    uint64_t stream, substream, asid;
};

/* A stage 1 row: 2^span addresses from input on; last-level they come out from output on, with the attributes. */
struct tahvenno_stage1 {
    bool last_level;
    uint64_t mark, vmid, asid;
    bool global;
    uint64_t span, input, output, memattr, sh, hints;
};

/* A stage 2 row, likewise. */
struct tahvenno_stage2 {
    bool last_level;
    uint64_t vmid, span, input, output, memattr, sh;
};

/* A row of the second table: size is TAHVENNO_4KB to TAHVENNO_512GB. */
struct tahvenno_region {
    bool last_level;
    uint64_t size, base;
};

/* The event's number and its stream in a record. */
struct tahvenno_record {
    uint64_t event, stream;
};

/* The parts of a control word; and whether an error is active, and how many commands wait. */
struct tahvenno_control {
    uint64_t rd, wr, err, log2size, waiting;
    bool gerror, gerrorn, active, enabled, pending;
};

/* The parts of a recorder's index word; and whether an overflow is outstanding, and how many records wait. */
struct tahvenno_index {
    uint64_t rd, wr, n, waiting;
    bool overflow, acknowledged, outstanding;
};

/* EMPTY MEMORIES. Lend TAHVENNO_WORDS(rows), TAHVENNO_TABLE_WORDS(rows) or TAHVENNO_EVENT_WORDS(n) words. The stores are volatile,
 * so that a compiler keeps their order: rows first, word 0 of each before its others, and the control word last. */

static inline void tahvenno_clear(volatile uint64_t *words, size_t from, size_t to) {
    for (; from < to; from++) words[from] = 0;
}

/* A queue of 2^log2size slots, enabled or not, and so many rows. */
static inline enum tahvenno_field tahvenno_empty_kept(uint64_t *kept, uint64_t rows, uint64_t log2size, bool enabled) {
    if (rows < 1 || rows > TAHVENNO_MAX_ROWS) return TAHVENNO_FIELD_ROWS;
    if (log2size > TAHVENNO_MAX_LOG2SIZE) return TAHVENNO_FIELD_LOG2SIZE;
    tahvenno_clear(kept, TAHVENNO_ROW_AT(0), (size_t)TAHVENNO_WORDS(rows));
    *(volatile uint64_t *)kept = TAHVENNO_PUT(TAHVENNO_LOG2SIZE, log2size) | TAHVENNO_PUT(TAHVENNO_CMDQEN, enabled);
    return TAHVENNO_BUILT;
}

static inline enum tahvenno_field tahvenno_empty_table(uint64_t *table, uint64_t rows) {
    if (rows < 1 || rows > TAHVENNO_MAX_REGIONS) return TAHVENNO_FIELD_ROWS;
    tahvenno_clear(table, TAHVENNO_REGION_AT(0), (size_t)TAHVENNO_TABLE_WORDS(rows));
    return TAHVENNO_BUILT;
}

/* A recorder of 2^n slots, by one store: what the slots hold does not matter. */
static inline enum tahvenno_field tahvenno_empty_recorder(uint64_t *events, uint64_t n) {
    if (n > TAHVENNO_MAX_EVENT_N) return TAHVENNO_FIELD_N;
    *(volatile uint64_t *)events = TAHVENNO_PUT(TAHVENNO_EVENT_N, n);
    return TAHVENNO_BUILT;
}

/* RULES that the checks below share. */

/* A number fits into a part; where a row does not have the part, only 0 does. */
static inline bool tahvenno_fits(bool has, uint64_t bits, uint64_t n) {
    return n <= (has ? TAHVENNO_GET(bits, bits) : 0);
}

static inline bool tahvenno_is_multiple(uint64_t n, uint64_t span) {
    return (n & ((UINT64_C(1) << span) - 1)) == 0;
}

static inline bool tahvenno_is_memattr(uint64_t memattr) {
    return memattr <= TAHVENNO_DEVICE_GRE || TAHVENNO_INNER(memattr) != 0;
}

/* The hints that a MemAttr may have: those of its halves that are cached. */
static inline uint64_t tahvenno_hints_for(uint64_t memattr) {
    uint64_t hints = 0;
    if (memattr <= TAHVENNO_DEVICE_GRE) return hints;
    if (TAHVENNO_INNER(memattr) > TAHVENNO_NC) hints |= TAHVENNO_INNER_RA | TAHVENNO_INNER_WA | TAHVENNO_INNER_TR;
    if (TAHVENNO_OUTER(memattr) > TAHVENNO_NC) hints |= TAHVENNO_OUTER_RA | TAHVENNO_OUTER_WA | TAHVENNO_OUTER_TR;
    return hints;
}

/* Word 0 of a row of a kind, as far as every row has it. */
static inline uint64_t tahvenno_word0(uint64_t kind, bool last_level) {
    return TAHVENNO_ROW(kind) | TAHVENNO_PUT(TAHVENNO_LAST_LEVEL, last_level);
}

static inline bool tahvenno_same(const uint64_t *one, const uint64_t *other, size_t words) {
    for (size_t i = 0; i < words; i++)
        if (one[i] != other[i]) return false;
    return true;
}

/* STE ROWS */

static inline enum tahvenno_field tahvenno_check_ste(const struct tahvenno_ste *f) {
    bool last = f->last_level, block = f->span == 6 || f->span == 8 || f->span == 10;
    if (last ? f->span != 0 : !block) return TAHVENNO_FIELD_SPAN;
    if (!tahvenno_fits(true, TAHVENNO_STREAM, f->stream) || !tahvenno_is_multiple(f->stream, f->span)) return TAHVENNO_FIELD_STREAM;
    if (!tahvenno_fits(last, TAHVENNO_CONFIG, f->config)) return TAHVENNO_FIELD_CONFIG;
    if (f->config != TAHVENNO_CONFIG_ABORT && f->config < TAHVENNO_CONFIG_BYPASS) return TAHVENNO_FIELD_CONFIG;
    if (!tahvenno_fits(last, TAHVENNO_VMID, f->vmid)) return TAHVENNO_FIELD_VMID;
    if (!tahvenno_fits(last, TAHVENNO_MTCFG, f->mtcfg)) return TAHVENNO_FIELD_MTCFG;
    if (!tahvenno_fits(last, TAHVENNO_STE_MEMATTR, f->memattr)) return TAHVENNO_FIELD_MEMATTR;
    if (!tahvenno_is_memattr(f->memattr)) return TAHVENNO_FIELD_MEMATTR;
    if (!tahvenno_fits(last, TAHVENNO_SHCFG, f->shcfg)) return TAHVENNO_FIELD_SHCFG;
    if (!tahvenno_fits(last, TAHVENNO_ALLOCCFG, f->alloccfg)) return TAHVENNO_FIELD_ALLOCCFG;
    if (!tahvenno_fits(last, TAHVENNO_INSTCFG, f->instcfg)) return TAHVENNO_FIELD_INSTCFG;
    if (!tahvenno_fits(last, TAHVENNO_PRIVCFG, f->privcfg)) return TAHVENNO_FIELD_PRIVCFG;
    return TAHVENNO_BUILT;
}

static inline enum tahvenno_field tahvenno_build_ste(const struct tahvenno_ste *f, uint64_t row[TAHVENNO_ROW_WORDS]) {
    enum tahvenno_field bad = tahvenno_check_ste(f);
    if (bad) return bad;
    row[0] = tahvenno_word0(TAHVENNO_STE, f->last_level) | TAHVENNO_PUT(TAHVENNO_SPAN, f->span) |
             TAHVENNO_PUT(TAHVENNO_VMID, f->vmid) | TAHVENNO_PUT(TAHVENNO_MTCFG, f->mtcfg) |
             TAHVENNO_PUT(TAHVENNO_STE_MEMATTR, f->memattr) | TAHVENNO_PUT(TAHVENNO_SHCFG, f->shcfg) |
             TAHVENNO_PUT(TAHVENNO_ALLOCCFG, f->alloccfg) | TAHVENNO_PUT(TAHVENNO_INSTCFG, f->instcfg) |
             TAHVENNO_PUT(TAHVENNO_PRIVCFG, f->privcfg);
    row[1] = TAHVENNO_PUT(TAHVENNO_STREAM, f->stream) | TAHVENNO_PUT(TAHVENNO_CONFIG, f->config);
    row[2] = row[3] = 0;
    return TAHVENNO_BUILT;
}

static inline bool tahvenno_read_ste(const uint64_t row[TAHVENNO_ROW_WORDS], struct tahvenno_ste *f) {
    struct tahvenno_ste g;
    uint64_t built[TAHVENNO_ROW_WORDS];
    g.last_level = (row[0] & TAHVENNO_LAST_LEVEL) != 0;
    g.span = TAHVENNO_GET(TAHVENNO_SPAN, row[0]);
    g.stream = TAHVENNO_GET(TAHVENNO_STREAM, row[1]);
    g.config = TAHVENNO_GET(TAHVENNO_CONFIG, row[1]);
    g.vmid = TAHVENNO_GET(TAHVENNO_VMID, row[0]);
    g.mtcfg = TAHVENNO_GET(TAHVENNO_MTCFG, row[0]);
    g.memattr = TAHVENNO_GET(TAHVENNO_STE_MEMATTR, row[0]);
    g.shcfg = TAHVENNO_GET(TAHVENNO_SHCFG, row[0]);
    g.alloccfg = TAHVENNO_GET(TAHVENNO_ALLOCCFG, row[0]);
    g.instcfg = TAHVENNO_GET(TAHVENNO_INSTCFG, row[0]);
    g.privcfg = TAHVENNO_GET(TAHVENNO_PRIVCFG, row[0]);
    if (tahvenno_build_ste(&g, built) || !tahvenno_same(row, built, TAHVENNO_ROW_WORDS)) return false;
    *f = g;
    return true;
}

/* CD ROWS */

static inline enum tahvenno_field tahvenno_build_cd(const struct tahvenno_cd *f, uint64_t row[TAHVENNO_ROW_WORDS]) {
    if (!tahvenno_fits(true, TAHVENNO_STREAM, f->stream)) return TAHVENNO_FIELD_STREAM;
    if (!tahvenno_fits(f->last_level, TAHVENNO_SUBSTREAM, f->substream)) return TAHVENNO_FIELD_SUBSTREAM;
    if (!tahvenno_fits(f->last_level, TAHVENNO_ASID, f->asid)) return TAHVENNO_FIELD_ASID;
    row[0] = tahvenno_word0(TAHVENNO_CD, f->last_level) | TAHVENNO_PUT(TAHVENNO_ASID, f->asid);
    row[1] = TAHVENNO_PUT(TAHVENNO_STREAM, f->stream) | TAHVENNO_PUT(TAHVENNO_SUBSTREAM, f->substream);
    row[2] = row[3] = 0;
    return TAHVENNO_BUILT;
}

static inline bool tahvenno_read_cd(const uint64_t row[TAHVENNO_ROW_WORDS], struct tahvenno_cd *f) {
    struct tahvenno_cd g;
    uint64_t built[TAHVENNO_ROW_WORDS];
    g.last_level = (row[0] & TAHVENNO_LAST_LEVEL) != 0;
    g.stream = TAHVENNO_GET(TAHVENNO_STREAM, row[1]);
    g.substream = TAHVENNO_GET(TAHVENNO_SUBSTREAM, row[1]);
    g.asid = TAHVENNO_GET(TAHVENNO_ASID, row[0]);
    if (tahvenno_build_cd(&g, built) || !tahvenno_same(row, built, TAHVENNO_ROW_WORDS)) return false;
    *f = g;
    return true;
}

/* ROWS OF BOTH STAGES, as stage 1 has the fields. A kind with one half has no input address in the upper one. */

static inline enum tahvenno_field tahvenno_check_stage(const struct tahvenno_stage1 *f, bool one_half) {
    bool last = f->last_level, upper = !one_half && f->input >= ~TAHVENNO_LOWER_HALF;
    if (f->mark > TAHVENNO_MARKED_EL2_E2H) return TAHVENNO_FIELD_MARK;
    if (!tahvenno_fits(f->mark == TAHVENNO_UNMARKED, TAHVENNO_VMID, f->vmid)) return TAHVENNO_FIELD_VMID;
    if (!tahvenno_fits(f->mark != TAHVENNO_MARKED_EL2, TAHVENNO_ASID, f->asid)) return TAHVENNO_FIELD_ASID;
    if (f->global && f->mark == TAHVENNO_MARKED_EL2) return TAHVENNO_FIELD_GLOBAL;
    if (f->span < TAHVENNO_MIN_SPAN || f->span > TAHVENNO_MAX_SPAN) return TAHVENNO_FIELD_SPAN;
    if (f->input > TAHVENNO_LOWER_HALF && !upper) return TAHVENNO_FIELD_INPUT;
    if (!tahvenno_is_multiple(f->input, f->span)) return TAHVENNO_FIELD_INPUT;
    if (!tahvenno_fits(last, TAHVENNO_LOWER_HALF, f->output)) return TAHVENNO_FIELD_OUTPUT;
    if (!tahvenno_is_multiple(f->output, f->span)) return TAHVENNO_FIELD_OUTPUT;
    if (!tahvenno_fits(last, TAHVENNO_MEMATTR, f->memattr)) return TAHVENNO_FIELD_MEMATTR;
    if (!tahvenno_is_memattr(f->memattr)) return TAHVENNO_FIELD_MEMATTR;
    if (!tahvenno_fits(last, TAHVENNO_SH, f->sh)) return TAHVENNO_FIELD_SH;
    if (f->sh != TAHVENNO_NSH && f->sh != TAHVENNO_OSH && f->sh != TAHVENNO_ISH) return TAHVENNO_FIELD_SH;
    if (f->hints & ~tahvenno_hints_for(f->memattr)) return TAHVENNO_FIELD_HINTS;
    return TAHVENNO_BUILT;
}

static inline void tahvenno_put_stage(uint64_t kind, const struct tahvenno_stage1 *f, uint64_t row[TAHVENNO_ROW_WORDS]) {
    row[0] = tahvenno_word0(kind, f->last_level) | TAHVENNO_PUT(TAHVENNO_MARK, f->mark) | TAHVENNO_PUT(TAHVENNO_VMID, f->vmid) |
             TAHVENNO_PUT(TAHVENNO_ASID, f->asid) | TAHVENNO_PUT(TAHVENNO_GLOBAL, f->global) |
             TAHVENNO_PUT(TAHVENNO_SPAN, f->span) | TAHVENNO_PUT(TAHVENNO_MEMATTR, f->memattr) |
             TAHVENNO_PUT(TAHVENNO_SH, f->sh) | TAHVENNO_PUT(TAHVENNO_HINTS, f->hints);
    row[1] = 0;
    row[2] = f->input;
    row[3] = f->output;
}

static inline void tahvenno_get_stage(const uint64_t row[TAHVENNO_ROW_WORDS], struct tahvenno_stage1 *f) {
    f->last_level = (row[0] & TAHVENNO_LAST_LEVEL) != 0;
    f->mark = TAHVENNO_GET(TAHVENNO_MARK, row[0]);
    f->vmid = TAHVENNO_GET(TAHVENNO_VMID, row[0]);
    f->asid = TAHVENNO_GET(TAHVENNO_ASID, row[0]);
    f->global = (row[0] & TAHVENNO_GLOBAL) != 0;
    f->span = TAHVENNO_GET(TAHVENNO_SPAN, row[0]);
    f->input = row[2];
    f->output = row[3];
    f->memattr = TAHVENNO_GET(TAHVENNO_MEMATTR, row[0]);
    f->sh = TAHVENNO_GET(TAHVENNO_SH, row[0]);
    f->hints = TAHVENNO_GET(TAHVENNO_HINTS, row[0]);
}

/* STAGE 1 ROWS */

static inline enum tahvenno_field tahvenno_build_stage1(const struct tahvenno_stage1 *f, uint64_t row[TAHVENNO_ROW_WORDS]) {
    enum tahvenno_field bad = tahvenno_check_stage(f, false);
    if (!bad) tahvenno_put_stage(TAHVENNO_STAGE1, f, row);
    return bad;
}

static inline bool tahvenno_read_stage1(const uint64_t row[TAHVENNO_ROW_WORDS], struct tahvenno_stage1 *f) {
    struct tahvenno_stage1 g;
    uint64_t built[TAHVENNO_ROW_WORDS];
    tahvenno_get_stage(row, &g);
    if (tahvenno_build_stage1(&g, built) || !tahvenno_same(row, built, TAHVENNO_ROW_WORDS)) return false;
    *f = g;
    return true;
}

/* STAGE 2 ROWS */

static inline enum tahvenno_field tahvenno_build_stage2(const struct tahvenno_stage2 *f, uint64_t row[TAHVENNO_ROW_WORDS]) {
    struct tahvenno_stage1 g;
    enum tahvenno_field bad;
    g.last_level = f->last_level;
    g.vmid = f->vmid;
    g.span = f->span;
    g.input = f->input;
    g.output = f->output;
    g.memattr = f->memattr;
    g.sh = f->sh;
    g.mark = g.asid = g.hints = 0;
    g.global = false;
    bad = tahvenno_check_stage(&g, true);
    if (!bad) tahvenno_put_stage(TAHVENNO_STAGE2, &g, row);
    return bad;
}

static inline bool tahvenno_read_stage2(const uint64_t row[TAHVENNO_ROW_WORDS], struct tahvenno_stage2 *f) {
    struct tahvenno_stage1 g;
    struct tahvenno_stage2 h;
    uint64_t built[TAHVENNO_ROW_WORDS];
    tahvenno_get_stage(row, &g);
    h.last_level = g.last_level;
    h.vmid = g.vmid;
    h.span = g.span;
    h.input = g.input;
    h.output = g.output;
    h.memattr = g.memattr;
    h.sh = g.sh;
    if (tahvenno_build_stage2(&h, built) || !tahvenno_same(row, built, TAHVENNO_ROW_WORDS)) return false;
    *f = h;
    return true;
}

/* The kind of a row of the kept memory: TAHVENNO_STE to TAHVENNO_STAGE2, whose reader then gives true; else TAHVENNO_EMPTY_ROW, or
 * TAHVENNO_ILL_ROW if the unit would refuse it with 3. */
static inline uint64_t tahvenno_kind_of(const uint64_t row[TAHVENNO_ROW_WORDS]) {
    struct tahvenno_ste ste;
    struct tahvenno_cd cd;
    struct tahvenno_stage1 stage1;
    struct tahvenno_stage2 stage2;
    if (row[0] == 0) return TAHVENNO_EMPTY_ROW;
    if (tahvenno_read_ste(row, &ste)) return TAHVENNO_STE;
    if (tahvenno_read_cd(row, &cd)) return TAHVENNO_CD;
    if (tahvenno_read_stage1(row, &stage1)) return TAHVENNO_STAGE1;
    if (tahvenno_read_stage2(row, &stage2)) return TAHVENNO_STAGE2;
    return TAHVENNO_ILL_ROW;
}

/* ROWS OF THE SECOND TABLE */

/* A region of a size is 2^span bytes; 0 where there is no such size. */
static inline uint64_t tahvenno_region_span(uint64_t size) {
    static const uint8_t spans[] = {12, 14, 16, 21, 25, 29, 30, 34, 36, 39};
    return size < sizeof spans ? spans[size] : 0;
}

static inline enum tahvenno_field tahvenno_build_region(const struct tahvenno_region *f, uint64_t row[TAHVENNO_REGION_WORDS]) {
    uint64_t span = tahvenno_region_span(f->size);
    if (span == 0) return TAHVENNO_FIELD_SIZE;
    if (f->base > TAHVENNO_LOWER_HALF || !tahvenno_is_multiple(f->base, span)) return TAHVENNO_FIELD_BASE;
    row[0] = TAHVENNO_REGION(f->size) | TAHVENNO_PUT(TAHVENNO_REGION_LAST_LEVEL, f->last_level);
    row[1] = f->base;
    return TAHVENNO_BUILT;
}

static inline bool tahvenno_read_region(const uint64_t row[TAHVENNO_REGION_WORDS], struct tahvenno_region *f) {
    struct tahvenno_region g;
    uint64_t built[TAHVENNO_REGION_WORDS];
    g.last_level = (row[0] & TAHVENNO_REGION_LAST_LEVEL) != 0;
    g.size = TAHVENNO_GET(TAHVENNO_REGION_SIZE, row[0]);
    g.base = row[1];
    if (tahvenno_build_region(&g, built) || !tahvenno_same(row, built, TAHVENNO_REGION_WORDS)) return false;
    *f = g;
    return true;
}

/* TAHVENNO_DPT_REGION, TAHVENNO_EMPTY_ROW, or TAHVENNO_ILL_ROW if the unit would refuse it with 14. */
static inline uint64_t tahvenno_region_kind_of(const uint64_t row[TAHVENNO_REGION_WORDS]) {
    struct tahvenno_region region;
    if (row[0] == 0) return TAHVENNO_EMPTY_ROW;
    return tahvenno_read_region(row, &region) ? TAHVENNO_DPT_REGION : TAHVENNO_ILL_ROW;
}

/* RECORDS. Of the 32 bytes only the event's number and the stream have names here; the others are built as 0, and not looked at. */

static inline enum tahvenno_field tahvenno_build_record(const struct tahvenno_record *f, uint8_t record[TAHVENNO_RECORD_BYTES]) {
    uint64_t word;
    if (!tahvenno_fits(true, TAHVENNO_RECORD_EVENT, f->event)) return TAHVENNO_FIELD_EVENT;
    if (!tahvenno_fits(true, TAHVENNO_RECORD_STREAM, f->stream)) return TAHVENNO_FIELD_STREAM;
    word = TAHVENNO_PUT(TAHVENNO_RECORD_EVENT, f->event) | TAHVENNO_PUT(TAHVENNO_RECORD_STREAM, f->stream);
    for (size_t i = 0; i < TAHVENNO_RECORD_BYTES; i++, word >>= 8) record[i] = (uint8_t)(word & UINT8_MAX);
    return TAHVENNO_BUILT;
}

/* Of the four words that event_read answers. */
static inline void tahvenno_read_record(const uint64_t *words, struct tahvenno_record *f) {
    f->event = TAHVENNO_GET(TAHVENNO_RECORD_EVENT, words[0]);
    f->stream = TAHVENNO_GET(TAHVENNO_RECORD_STREAM, words[0]);
}

/* THE CONTROL WORD, kept[0], and THE INDEX WORD of a recorder, events[0], taken apart. */

/* How many wait between two indexes of log2size + 1 bits each. */
static inline uint64_t tahvenno_waiting(uint64_t rd, uint64_t wr, uint64_t log2size) {
    return (wr - rd) & TAHVENNO_BITS(log2size, 0);
}

static inline void tahvenno_read_control(uint64_t word, struct tahvenno_control *f) {
    f->rd = TAHVENNO_GET(TAHVENNO_RD, word);
    f->wr = TAHVENNO_GET(TAHVENNO_WR, word);
    f->err = TAHVENNO_GET(TAHVENNO_ERR, word);
    f->log2size = TAHVENNO_GET(TAHVENNO_LOG2SIZE, word);
    f->waiting = tahvenno_waiting(f->rd, f->wr, f->log2size);
    f->gerror = (word & TAHVENNO_GERROR) != 0;
    f->gerrorn = (word & TAHVENNO_GERRORN) != 0;
    f->active = f->gerror != f->gerrorn;
    f->enabled = (word & TAHVENNO_CMDQEN) != 0;
    f->pending = (word & TAHVENNO_PENDING) != 0;
}

static inline void tahvenno_read_index(uint64_t word, struct tahvenno_index *f) {
    f->rd = TAHVENNO_GET(TAHVENNO_EVENT_RD, word);
    f->wr = TAHVENNO_GET(TAHVENNO_EVENT_WR, word);
    f->n = TAHVENNO_GET(TAHVENNO_EVENT_N, word);
    f->waiting = tahvenno_waiting(f->rd, f->wr, f->n);
    f->overflow = (word & TAHVENNO_EVENT_OVERFLOW) != 0;
    f->acknowledged = (word & TAHVENNO_EVENT_ACKNOWLEDGED) != 0;
    f->outstanding = f->overflow != f->acknowledged;
}

/* COMMANDS, as the writers take them: each function sets the 16 words of one, by Arm's name. An address is given whole, and its low
 * 12 bits do not count. Nothing is checked here: a writer refuses a number that is too wide with 21. */

static inline void tahvenno_cmd(uint64_t fields[TAHVENNO_COMMAND_WORDS], uint64_t code) {
    for (size_t i = 0; i < TAHVENNO_COMMAND_WORDS; i++) fields[i] = 0;
    fields[TAHVENNO_CMD_CODE] = code;
}

/* One about an address. */
static inline void tahvenno_cmd_at(uint64_t fields[TAHVENNO_COMMAND_WORDS], uint64_t code, uint64_t address, bool leaf) {
    tahvenno_cmd(fields, code);
    fields[TAHVENNO_CMD_ADDRESS] = address >> TAHVENNO_ADDRESS_SHIFT;
    fields[TAHVENNO_CMD_LEAF] = leaf;
}

static inline void tahvenno_cmd_prefetch_config(uint64_t fields[TAHVENNO_COMMAND_WORDS]) {
    tahvenno_cmd(fields, TAHVENNO_CODE_PREFETCH_CONFIG);
}

static inline void tahvenno_cmd_prefetch_addr(uint64_t fields[TAHVENNO_COMMAND_WORDS]) {
    tahvenno_cmd(fields, TAHVENNO_CODE_PREFETCH_ADDR);
}

static inline void tahvenno_cmd_cfgi_ste(uint64_t fields[TAHVENNO_COMMAND_WORDS], uint64_t stream, bool leaf) {
    tahvenno_cmd(fields, TAHVENNO_CODE_CFGI_STE);
    fields[TAHVENNO_CMD_STREAM] = stream;
    fields[TAHVENNO_CMD_LEAF] = leaf;
}

/* The streams that are equal to this one above the lowest range + 1 bits. */
static inline void tahvenno_cmd_cfgi_ste_range(uint64_t fields[TAHVENNO_COMMAND_WORDS], uint64_t stream, uint64_t range) {
    tahvenno_cmd(fields, TAHVENNO_CODE_CFGI_STE_RANGE);
    fields[TAHVENNO_CMD_STREAM] = stream;
    fields[TAHVENNO_CMD_RANGE] = range;
}

static inline void tahvenno_cmd_cfgi_all(uint64_t fields[TAHVENNO_COMMAND_WORDS]) {
    tahvenno_cmd_cfgi_ste_range(fields, 0, TAHVENNO_EVERY_STREAM);
}

static inline void tahvenno_cmd_cfgi_cd(uint64_t fields[TAHVENNO_COMMAND_WORDS], uint64_t stream, uint64_t substream, bool leaf) {
    tahvenno_cmd(fields, TAHVENNO_CODE_CFGI_CD);
    fields[TAHVENNO_CMD_STREAM] = stream;
    fields[TAHVENNO_CMD_SUBSTREAM] = substream;
    fields[TAHVENNO_CMD_LEAF] = leaf;
}

static inline void tahvenno_cmd_cfgi_cd_all(uint64_t fields[TAHVENNO_COMMAND_WORDS], uint64_t stream) {
    tahvenno_cmd(fields, TAHVENNO_CODE_CFGI_CD_ALL);
    fields[TAHVENNO_CMD_STREAM] = stream;
}

static inline void tahvenno_cmd_tlbi_nh_all(uint64_t fields[TAHVENNO_COMMAND_WORDS], uint64_t vmid) {
    tahvenno_cmd(fields, TAHVENNO_CODE_TLBI_NH_ALL);
    fields[TAHVENNO_CMD_VMID] = vmid;
}

static inline void tahvenno_cmd_tlbi_nh_asid(uint64_t fields[TAHVENNO_COMMAND_WORDS], uint64_t vmid, uint64_t asid) {
    tahvenno_cmd(fields, TAHVENNO_CODE_TLBI_NH_ASID);
    fields[TAHVENNO_CMD_VMID] = vmid;
    fields[TAHVENNO_CMD_ASID] = asid;
}

static inline void tahvenno_cmd_tlbi_nh_va(uint64_t fields[TAHVENNO_COMMAND_WORDS], uint64_t vmid, uint64_t asid, uint64_t address,
                                           bool leaf) {
    tahvenno_cmd_at(fields, TAHVENNO_CODE_TLBI_NH_VA, address, leaf);
    fields[TAHVENNO_CMD_VMID] = vmid;
    fields[TAHVENNO_CMD_ASID] = asid;
}

static inline void tahvenno_cmd_tlbi_nh_vaa(uint64_t fields[TAHVENNO_COMMAND_WORDS], uint64_t vmid, uint64_t address, bool leaf) {
    tahvenno_cmd_at(fields, TAHVENNO_CODE_TLBI_NH_VAA, address, leaf);
    fields[TAHVENNO_CMD_VMID] = vmid;
}

static inline void tahvenno_cmd_tlbi_el2_all(uint64_t fields[TAHVENNO_COMMAND_WORDS]) {
    tahvenno_cmd(fields, TAHVENNO_CODE_TLBI_EL2_ALL);
}

static inline void tahvenno_cmd_tlbi_el2_asid(uint64_t fields[TAHVENNO_COMMAND_WORDS], uint64_t asid) {
    tahvenno_cmd(fields, TAHVENNO_CODE_TLBI_EL2_ASID);
    fields[TAHVENNO_CMD_ASID] = asid;
}

static inline void tahvenno_cmd_tlbi_el2_va(uint64_t fields[TAHVENNO_COMMAND_WORDS], uint64_t asid, uint64_t address, bool leaf) {
    tahvenno_cmd_at(fields, TAHVENNO_CODE_TLBI_EL2_VA, address, leaf);
    fields[TAHVENNO_CMD_ASID] = asid;
}

static inline void tahvenno_cmd_tlbi_el2_vaa(uint64_t fields[TAHVENNO_COMMAND_WORDS], uint64_t address, bool leaf) {
    tahvenno_cmd_at(fields, TAHVENNO_CODE_TLBI_EL2_VAA, address, leaf);
}

static inline void tahvenno_cmd_tlbi_s12_vmall(uint64_t fields[TAHVENNO_COMMAND_WORDS], uint64_t vmid) {
    tahvenno_cmd(fields, TAHVENNO_CODE_TLBI_S12_VMALL);
    fields[TAHVENNO_CMD_VMID] = vmid;
}

static inline void tahvenno_cmd_tlbi_s2_ipa(uint64_t fields[TAHVENNO_COMMAND_WORDS], uint64_t vmid, uint64_t address, bool leaf) {
    tahvenno_cmd_at(fields, TAHVENNO_CODE_TLBI_S2_IPA, address, leaf);
    fields[TAHVENNO_CMD_VMID] = vmid;
}

static inline void tahvenno_cmd_tlbi_nsnh_all(uint64_t fields[TAHVENNO_COMMAND_WORDS]) {
    tahvenno_cmd(fields, TAHVENNO_CODE_TLBI_NSNH_ALL);
}

/* cs: TAHVENNO_CS_IRQ to be interrupted when the commands before it are done. */
static inline void tahvenno_cmd_sync(uint64_t fields[TAHVENNO_COMMAND_WORDS], uint64_t cs) {
    tahvenno_cmd(fields, TAHVENNO_CODE_SYNC);
    fields[TAHVENNO_CMD_CS] = cs;
}

static inline void tahvenno_cmd_dpti_all(uint64_t fields[TAHVENNO_COMMAND_WORDS]) {
    tahvenno_cmd(fields, TAHVENNO_CODE_DPTI_ALL);
}

/* size: TAHVENNO_4KB to TAHVENNO_512GB. */
static inline void tahvenno_cmd_dpti_pa(uint64_t fields[TAHVENNO_COMMAND_WORDS], uint64_t address, uint64_t size, bool leaf) {
    tahvenno_cmd_at(fields, TAHVENNO_CODE_DPTI_PA, address, leaf);
    fields[TAHVENNO_CMD_SIZE] = size;
}

/* Makes a command by address one by range (RANGES in tahvenno.h): (num + 1) times 2^scale granules of tg, TAHVENNO_TG_4KB and so
 * on. And gives it the hint of a level, which a range of one granule needs. */
static inline void tahvenno_cmd_add_range(uint64_t fields[TAHVENNO_COMMAND_WORDS], uint64_t tg, uint64_t num, uint64_t scale) {
    fields[TAHVENNO_CMD_TG] = tg;
    fields[TAHVENNO_CMD_NUM] = num;
    fields[TAHVENNO_CMD_SCALE] = scale;
}

static inline void tahvenno_cmd_add_level(uint64_t fields[TAHVENNO_COMMAND_WORDS], uint64_t ttl, bool ttl128) {
    fields[TAHVENNO_CMD_TTL] = ttl;
    fields[TAHVENNO_CMD_TTL128] = ttl128;
}

/* NAMES of the numbers that come back, for a person; "unknown" for any other number. */

static inline const char *tahvenno_name(const char *const *names, size_t bytes, uint64_t number) {
    return number < bytes / sizeof *names ? names[number] : "unknown";
}

static inline const char *tahvenno_field_name(uint64_t field) {
    static const char *const names[] = {
        "none", "rows", "log2size", "n", "span", "stream", "substream", "config", "mark", "vmid", "asid", "global", "mtcfg",
        "memattr", "shcfg", "alloccfg", "instcfg", "privcfg", "input", "output", "sh", "hints", "size", "base", "event"};
    return tahvenno_name(names, sizeof names, field);
}

/* Of tahvenno_kind_of and tahvenno_region_kind_of. */
static inline const char *tahvenno_kind_name(uint64_t kind) {
    static const char *const names[] = {"STE", "CD", "stage 1", "stage 2", "region", "empty", "ill formed"};
    return tahvenno_name(names, sizeof names, kind);
}

/* How a run, a fill of either table and an event_write end. */
static inline const char *tahvenno_run_end_name(uint64_t end) {
    static const char *const names[] = {"off", "held", "empty", "raised", "cut"};
    return tahvenno_name(names, sizeof names, end);
}

static inline const char *tahvenno_fill_end_name(uint64_t end) {
    static const char *const names[] = {"filled", "cut"};
    return tahvenno_name(names, sizeof names, end);
}

static inline const char *tahvenno_event_end_name(uint64_t end) {
    static const char *const names[] = {"stored", "dropped", "cut"};
    return tahvenno_name(names, sizeof names, end);
}

/* What comes of a transaction. */
static inline const char *tahvenno_outcome_name(uint64_t outcome) {
    static const char *const names[] = {"an address",       "an abort",          "a miss of the STE",
                                        "a miss of the CD", "a miss of stage 1", "a miss of stage 2"};
    return tahvenno_name(names, sizeof names, outcome);
}

/* What check_batch tells. */
static inline const char *tahvenno_batch_name(uint64_t verdict) {
    static const char *const names[] = {"the same rows", "a command that does not qualify", "a row that differs"};
    return tahvenno_name(names, sizeof names, verdict);
}

/* Why a command is illegal, from 1. */
static inline const char *tahvenno_reason_name(uint64_t reason) {
    static const char *const names[] = {"unknown code", "feature absent", "Reserved bit set", "bad parameter"};
    return tahvenno_name(names, sizeof names, reason - 1);
}

/* Refusals, from 1. */
static inline const char *tahvenno_refusal_name(uint64_t refusal) {
    static const char *const names[] = {
        "the kept memory has no length of whole rows",
        "the control word is ill formed",
        "a row of the kept memory is ill formed",
        "the queue has another length than the control word says",
        "the doorbell's index does not fit the queue",
        "no error is active that could be acknowledged",
        "there is no row of that number",
        "the row is in use",
        "the words are no row that could be filled",
        "the attributes of the access are ill formed",
        "another row could answer the same access",
        "no interrupt is pending",
        "the second table has no length of whole rows",
        "a row of the second table is ill formed",
        "the recorder has no length of 2^n slots",
        "the recorder's index word is ill formed or for another length",
        "no record waits",
        "no overflow is outstanding",
        "the slot is not of 16 bytes",
        "a command needs a feature that is absent",
        "a command has a field that is not allowed",
        "the queue has too few free slots",
        "a batch is not of whole commands",
    };
    return tahvenno_name(names, sizeof names, refusal - 1);
}

#endif

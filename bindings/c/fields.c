/* Rows of each kind, as fields: by document 01's rules, with those of document 02, T-04, T-05 and T-11. Nothing here comes from the
 * header. What a row has no part for is not touched. */
#include "fields.h"

/* A MemAttr that is well formed, an SH, and hints that a MemAttr may have. */
static uint64_t any_memattr(void) {
    uint64_t memattr = below(16);
    return memattr > 3 && memattr % 4 == 0 ? memattr + 1 + below(3) : memattr;
}

static uint64_t any_sh(void) {
    static const uint64_t shs[] = {TAHVENNO_NSH, TAHVENNO_OSH, TAHVENNO_ISH};
    return shs[below(3)];
}

static uint64_t any_hints(uint64_t memattr) {
    uint64_t inner = up_to(7), outer = up_to(7);
    return (memattr > 3 && memattr % 4 > 1 ? inner : 0) + (memattr > 7 ? 8 * outer : 0);
}

/* An address below 2^52 that is a multiple of 2^span. */
static uint64_t any_address(uint64_t span) {
    return up_to(UINT64_MAX >> 12 >> span) << span;
}

void any_ste(union fields *fields, bool last_level) {
    struct tahvenno_ste *f = &fields->ste;
    f->last_level = last_level;
    f->span = last_level ? 0 : 6 + 2 * below(3);
    f->stream = up_to(UINT32_MAX >> f->span) << f->span;
    if (!last_level) return;
    f->config = below(2) ? 4 + below(4) : 0;
    f->vmid = up_to(0xFFFF);
    f->mtcfg = below(2);
    f->memattr = any_memattr();
    f->shcfg = below(4);
    f->alloccfg = below(16);
    f->instcfg = below(4);
    f->privcfg = below(4);
}

void any_cd(union fields *fields, bool last_level) {
    struct tahvenno_cd *f = &fields->cd;
    f->last_level = last_level;
    f->stream = up_to(UINT32_MAX);
    f->substream = last_level ? up_to(0xFFFFF) : 0;
    f->asid = last_level ? up_to(0xFFFF) : 0;
}

void any_stage1(union fields *fields, bool last_level) {
    struct tahvenno_stage1 *f = &fields->stage1;
    f->last_level = last_level;
    f->mark = below(3);
    f->vmid = f->mark ? 0 : up_to(0xFFFF);
    f->asid = f->mark == 1 ? 0 : up_to(0xFFFF);
    f->global = f->mark != 1 && below(2);
    f->span = 12 + up_to(36);
    f->input = any_address(f->span);
    if (below(2)) f->input |= UINT64_MAX << 52;
    if (!last_level) return;
    f->output = any_address(f->span);
    f->memattr = any_memattr();
    f->sh = any_sh();
    f->hints = any_hints(f->memattr);
}

void any_stage2(union fields *fields, bool last_level) {
    struct tahvenno_stage2 *f = &fields->stage2;
    f->last_level = last_level;
    f->vmid = up_to(0xFFFF);
    f->span = 12 + up_to(36);
    f->input = any_address(f->span);
    if (!last_level) return;
    f->output = any_address(f->span);
    f->memattr = any_memattr();
    f->sh = any_sh();
}

void any_region(union fields *fields, bool last_level) {
    static const unsigned spans[] = {12, 14, 16, 21, 25, 29, 30, 34, 36, 39};
    struct tahvenno_region *f = &fields->region;
    f->last_level = last_level;
    f->size = below(10);
    f->base = any_address(spans[f->size]);
}

bool ste_has(const union fields *fields, enum tahvenno_field field) {
    return field == TAHVENNO_FIELD_STREAM || fields->ste.last_level == (field != TAHVENNO_FIELD_SPAN);
}

bool cd_has(const union fields *fields, enum tahvenno_field field) {
    return field == TAHVENNO_FIELD_STREAM || fields->cd.last_level;
}

static bool is_payload(enum tahvenno_field field) {
    return field == TAHVENNO_FIELD_OUTPUT || field == TAHVENNO_FIELD_MEMATTR || field == TAHVENNO_FIELD_SH ||
           field == TAHVENNO_FIELD_HINTS;
}

bool stage1_has(const union fields *fields, enum tahvenno_field field) {
    uint64_t mark = fields->stage1.mark;
    if (field == TAHVENNO_FIELD_VMID) return mark == TAHVENNO_UNMARKED;
    if (field == TAHVENNO_FIELD_ASID || field == TAHVENNO_FIELD_GLOBAL) return mark != TAHVENNO_MARKED_EL2;
    return fields->stage1.last_level || !is_payload(field);
}

bool stage2_has(const union fields *fields, enum tahvenno_field field) {
    return fields->stage2.last_level || !is_payload(field);
}

bool region_has(const union fields *fields, enum tahvenno_field field) {
    (void)fields, (void)field;
    return true;
}

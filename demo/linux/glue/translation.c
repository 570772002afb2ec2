/* A device's access is answered by the unit. On a miss QEMU walks the guest's tables, the row that was missed is filled with what
 * it found, and the unit is asked again. QEMU's own two caches are not asked. */
#include "parts.h"
#include "sysemu/dma.h"

/* Rows have no permissions, and QEMU has no memory attributes: so the permission of a page travels as the hints of its row, read
 * allocate for reading and write allocate for writing, and comes back with the address. An access under bypass keeps what it comes
 * with, and that is both. */
#define CACHED TAHVENNO_NORMAL(TAHVENNO_WB, TAHVENNO_WB)
#define MAY_READ TAHVENNO_INNER_RA
#define MAY_WRITE TAHVENNO_INNER_WA

enum { ANSWER_HINTS = 4, SMALLEST_PAGE = 0xfff, SHCFG_AS_IT_COMES = 1 };
enum { REFUSED_MEMORY = 3, REFUSED_DOUBLE = 11 }; /* up to 3 a refusal is about the memory, above it about the row */

static glue_walk *walk;

uint64_t ask(const uint64_t *kept, uint32_t sid, hwaddr addr, uint64_t answer[8]) {
    uint64_t refused = tahvenno_translate(kept, known.words, sid, 0, addr, 0, CACHED, TAHVENNO_ISH, MAY_READ | MAY_WRITE, answer);
    state_must(refused, "translate");
    return answer[0];
}

void glue_walked_config(const SMMUTransCfg *cfg) {
    if (!glue_on()) return;
    known.config = *cfg;
    known.has_config = true;
}

bool glue_walked_page(const SMMUTransCfg *cfg, SMMUTLBEntry *page) {
    static SMMUTLBEntry *owned; /* QEMU reads it until its walk ends */
    if (!glue_on()) return false;
    g_free(owned);
    owned = page;
    known.page = *page;
    known.page_asid = cfg->asid;
    known.has_page = true;
    return true;
}

static void build_ste(uint32_t sid, uint64_t row[]) {
    uint64_t config = known.config.aborted ? TAHVENNO_CONFIG_ABORT
                      : known.config.bypassed ? TAHVENNO_CONFIG_BYPASS : TAHVENNO_CONFIG_STAGE1;
    row[0] = TAHVENNO_ROW(TAHVENNO_STE) | TAHVENNO_LAST_LEVEL | TAHVENNO_PUT(TAHVENNO_SHCFG, SHCFG_AS_IT_COMES);
    row[1] = TAHVENNO_PUT(TAHVENNO_STREAM, sid) | TAHVENNO_PUT(TAHVENNO_CONFIG, config);
}

static void build_cd(uint32_t sid, uint64_t row[]) {
    row[0] = TAHVENNO_ROW(TAHVENNO_CD) | TAHVENNO_LAST_LEVEL | TAHVENNO_PUT(TAHVENNO_ASID, known.config.asid);
    row[1] = TAHVENNO_PUT(TAHVENNO_STREAM, sid);
}

static void build_page(uint64_t row[]) {
    const IOMMUTLBEntry *page = &known.page.entry;
    uint64_t may = (page->perm & IOMMU_RO ? MAY_READ : 0) | (page->perm & IOMMU_WO ? MAY_WRITE : 0);
    row[0] = TAHVENNO_ROW(TAHVENNO_STAGE1) | TAHVENNO_LAST_LEVEL | TAHVENNO_PUT(TAHVENNO_SPAN, ctpop64(page->addr_mask)) |
             TAHVENNO_PUT(TAHVENNO_ASID, known.page_asid) | TAHVENNO_PUT(TAHVENNO_MEMATTR, CACHED) |
             TAHVENNO_PUT(TAHVENNO_SH, TAHVENNO_ISH) | TAHVENNO_PUT(TAHVENNO_HINTS, may);
    row[2] = page->iova;
    row[3] = page->translated_addr;
}

/* Of a stream that the guest's table now aborts or lets pass QEMU reads no CD, though a row may still say stage 1. */
static bool has_cd(void) {
    return known.has_config && !known.config.aborted && !known.config.bypassed;
}

/* The row that was missed, if the walk found it. */
static bool build_missed(uint64_t miss, uint32_t sid, uint64_t row[]) {
    if (miss == TAHVENNO_MISS_STE && known.has_config)
        build_ste(sid, row);
    else if (miss == TAHVENNO_MISS_CD && has_cd())
        build_cd(sid, row);
    else if (miss == TAHVENNO_MISS_STAGE1 && known.has_page)
        build_page(row);
    else
        return false;
    return true;
}

static bool empty_row(uint64_t *row) {
    for (size_t i = 0; i < known.rows; i++) {
        *row = (known.next_row + i) % known.rows;
        if (known.kept[ROW_AT(*row)] == 0) return true;
    }
    return false;
}

/* Whether to ask again: the row was filled, or power went and everything is to be done anew. If there is no room, or the unit
 * refuses the row (as a double, say), the access is answered by the walk and nothing is filled. */
static bool fill(SMMUv3State *s, uint64_t miss, uint32_t sid) {
    uint64_t w[TAHVENNO_ROW_WORDS] = {0}, answer[TAHVENNO_ANSWER_WORDS], row, refused;
    if (!build_missed(miss, sid, w)) return false;
    if (!empty_row(&row)) {
        watch_count(NO_ROOM, 1);
        return false;
    }
    refused = tahvenno_fill(known.kept, known.words, row, w[0], w[1], w[2], w[3], cuts_allowance(TAHVENNO_ROW_WORDS), answer);
    if (refused > REFUSED_MEMORY) {
        watch_count(refused == REFUSED_DOUBLE ? DOUBLED : UNFIT, 1);
        return false;
    }
    state_must(refused, "a fill");
    if (answer[0] == TAHVENNO_FILLED) {
        watch_count(FILLED_STE + (miss - TAHVENNO_MISS_STE), 1);
        watch_count(FILLED_READ_ONLY, miss == TAHVENNO_MISS_STAGE1 && !(known.page.entry.perm & IOMMU_WO));
        twin_filled(row);
        known.next_row = row + 1;
    }
    watch_count(CUTS_OF_FILLS, answer[0] == TAHVENNO_FILL_CUT);
    if (answer[0] == TAHVENNO_FILL_CUT || cuts_after()) state_restart(s);
    return true;
}

static IOMMUTLBEntry entry_of(hwaddr addr, const uint64_t answer[8]) {
    IOMMUAccessFlags may = (answer[ANSWER_HINTS] & MAY_READ ? IOMMU_RO : 0) | (answer[ANSWER_HINTS] & MAY_WRITE ? IOMMU_WO : 0);
    return (IOMMUTLBEntry){
        .target_as = &address_space_memory,
        .iova = addr,
        .translated_addr = answer[1],
        .addr_mask = SMALLEST_PAGE,
        .perm = may,
    };
}

static IOMMUTLBEntry walk_quietly(IOMMUMemoryRegion *mr, hwaddr addr, IOMMUAccessFlags flag, int idx) {
    IOMMUTLBEntry entry;
    quiet = true;
    entry = walk(mr, addr, flag, idx);
    quiet = false;
    return entry;
}

/* What the guest's tables say now; all ones if they map nothing there. */
static hwaddr by_tables(IOMMUMemoryRegion *mr, hwaddr addr, IOMMUAccessFlags flag, int idx) {
    IOMMUTLBEntry entry = walk_quietly(mr, addr, flag, idx);
    return entry.perm == IOMMU_NONE ? ~(hwaddr)0 : entry.translated_addr;
}

/* An access may be walked for each of the rows that it misses, and is owed one record of its fault: a last walk makes it, when there
 * is nothing to fill any more. */
static IOMMUTLBEntry deny(IOMMUMemoryRegion *mr, hwaddr addr, IOMMUAccessFlags flag, int idx) {
    IOMMUTLBEntry entry = walk(mr, addr, flag, idx);
    watch_count(DENIED, entry.perm == IOMMU_NONE);
    return entry;
}

static IOMMUTLBEntry translate(IOMMUMemoryRegion *mr, hwaddr addr, IOMMUAccessFlags flag, int idx) {
    SMMUDevice *device = container_of(mr, SMMUDevice, iommu);
    SMMUv3State *s = device->smmu;
    uint64_t answer[TAHVENNO_ANSWER_WORDS], outcome;
    IOMMUTLBEntry entry;
    if (!smmu_enabled(s)) return walk(mr, addr, flag, idx);
    do {
        outcome = ask(known.kept, smmu_get_sid(device), addr, answer);
        entry = entry_of(addr, answer);
        if (outcome == TAHVENNO_ADDRESS && (entry.perm & flag) == flag) {
            watch_count(HITS, 1);
            if (watch_closely()) twin_hit(smmu_get_sid(device), addr, answer, by_tables(mr, addr, flag, idx));
            return entry;
        }
        if (outcome == TAHVENNO_ABORT) {
            watch_count(ABORTS, 1);
            entry.perm = IOMMU_NONE;
            return entry;
        }
        if (outcome >= TAHVENNO_MISS_STE) watch_count(MISSES_STE + (outcome - TAHVENNO_MISS_STE), 1);
        known.has_config = known.has_page = false;
        entry = walk_quietly(mr, addr, flag, idx);
    } while (fill(s, outcome, smmu_get_sid(device)));
    return entry.perm == IOMMU_NONE ? deny(mr, addr, flag, idx) : entry;
}

glue_walk *glue_translate(glue_walk *own) {
    walk = own;
    return glue_on() ? translate : own;
}

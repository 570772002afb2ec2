/* Commands: the writer takes what is set up, with the features that Arm asks for; the 16 bytes are those of the papers' layout; and
 * a run removes what the command names. */
#include <inttypes.h>
#include <string.h>

#include "check.h"

/* Rows that the commands meet, by their bit in what is removed; the last two are of the second table. */
enum { STE = 1, BLOCK = 2, CD = 4, OWN = 8, GLOBAL = 16, EL2 = 32, EL2_E2H = 64, IPA = 128, SMALL = 256, LARGE = 512 };
enum { ROWS = 8, WORDS = TAHVENNO_WORDS(ROWS), REGIONS = 2, TABLE_WORDS = TAHVENNO_TABLE_WORDS(REGIONS) };
enum { STREAM_ID = 0x100, SUBSTREAM_ID = 7, VM = 5, SPACE = 0x34, PAGE = 0x1000, NEXT_PAGE = 0x2000, LARGE_BASE = 0x200000 };

#define EVERYTHING (TAHVENNO_S1P | TAHVENNO_S2P | TAHVENNO_ASID16 | TAHVENNO_VMID16 | TAHVENNO_HYP | TAHVENNO_RIL | TAHVENNO_DPT)
#define HYPERVISOR (TAHVENNO_HYP | TAHVENNO_S1P)

static void lay_rows(uint64_t *kept, uint64_t *table) {
    const struct tahvenno_ste ste[] = {{.last_level = true, .stream = STREAM_ID}, {.span = 8, .stream = STREAM_ID}};
    const struct tahvenno_cd cd = {true, STREAM_ID, SUBSTREAM_ID, SPACE};
    const struct tahvenno_stage1 stage1[] = {
        {.last_level = true, .vmid = VM, .asid = SPACE, .span = 12, .input = PAGE},
        {.vmid = VM, .global = true, .span = 12, .input = NEXT_PAGE},
        {.last_level = true, .mark = TAHVENNO_MARKED_EL2, .span = 12, .input = PAGE},
        {.last_level = true, .mark = TAHVENNO_MARKED_EL2_E2H, .asid = SPACE, .span = 12, .input = PAGE}};
    const struct tahvenno_stage2 stage2 = {.last_level = true, .vmid = VM, .span = 12, .input = PAGE};
    const struct tahvenno_region regions[] = {{true, TAHVENNO_4KB, PAGE}, {false, TAHVENNO_2MB, LARGE_BASE}};
    bool bad = tahvenno_empty_kept(kept, ROWS, 0, true) || tahvenno_empty_table(table, REGIONS);
    for (size_t i = 0; i < 2; i++) bad |= tahvenno_build_ste(&ste[i], kept + TAHVENNO_ROW_AT(i)) != 0;
    bad |= tahvenno_build_cd(&cd, kept + TAHVENNO_ROW_AT(2)) != 0;
    for (size_t i = 0; i < 4; i++) bad |= tahvenno_build_stage1(&stage1[i], kept + TAHVENNO_ROW_AT(3 + i)) != 0;
    bad |= tahvenno_build_stage2(&stage2, kept + TAHVENNO_ROW_AT(7)) != 0;
    for (size_t i = 0; i < REGIONS; i++) bad |= tahvenno_build_region(&regions[i], table + TAHVENNO_REGION_AT(i)) != 0;
    if (bad) fail("the rows for the commands are not built");
}

/* The rows that are gone after a run of the queue's only slot. */
static unsigned run(const char *name, const uint8_t *slot, uint64_t features) {
    uint64_t kept[WORDS], table[TABLE_WORDS], answer[TAHVENNO_ANSWER_WORDS];
    unsigned gone = 0;
    lay_rows(kept, table);
    if (tahvenno_doorbell(kept, WORDS, 1, answer)) fail("%s: the doorbell is refused", name);
    if (tahvenno_run(kept, WORDS, table, TABLE_WORDS, slot, TAHVENNO_SLOT_BYTES, features, TAHVENNO_MAX_STORES, answer))
        fail("%s: the run is refused", name);
    if (answer[0] != TAHVENNO_EMPTY || answer[1] != 1) fail("%s: the run ends %s", name, tahvenno_run_end_name(answer[0]));
    for (unsigned i = 0; i < ROWS; i++) gone |= kept[TAHVENNO_ROW_AT(i)] ? 0 : 1u << i;
    for (unsigned i = 0; i < REGIONS; i++) gone |= table[TAHVENNO_REGION_AT(i)] ? 0 : 1u << (ROWS + i);
    return gone;
}

/* A command's words: the features it needs, its 16 bytes as two words, and the rows that it removes, without E2H. */
static void check(const char *name, const uint64_t *fields, uint64_t needs, uint64_t low, uint64_t high, unsigned gone) {
    uint8_t slot[TAHVENNO_SLOT_BYTES];
    uint64_t answer[TAHVENNO_ANSWER_WORDS], refused = tahvenno_write_command(slot, sizeof slot, fields, EVERYTHING, answer);
    if (refused) fail("%s: refused with %" PRIu64, name, refused);
    for (unsigned i = 0; i < TAHVENNO_SLOT_BYTES; i++)
        if (slot[i] != (uint8_t)((i < 8 ? low : high) >> 8 * (i % 8))) fail("%s: byte %u is %02x", name, i, (unsigned)slot[i]);
    unsigned removed = run(name, slot, EVERYTHING);
    if (removed != gone) fail("%s: removes %x, and should %x", name, removed, gone);
    for (uint64_t bit = 1; bit <= needs; bit <<= 1) { /* without any of what it needs it is refused with 20 */
        if (!(needs & bit)) continue;
        refused = tahvenno_write_command(slot, sizeof slot, fields, EVERYTHING & ~bit, answer);
        if (refused != 20) fail("%s: refused with %" PRIu64 " where a feature is absent", name, refused);
    }
    counts.commands++;
}

#define CHECK(name, arguments, needs, low, high, gone)           \
    do {                                                         \
        uint64_t fields[TAHVENNO_COMMAND_WORDS];                 \
        memset(fields, -1, sizeof fields);                       \
        tahvenno_cmd_##name arguments;                           \
        check(#name, fields, needs, UINT64_C(low), high, gone);  \
    } while (0)

static void check_configuration(void) {
    CHECK(prefetch_config, (fields), 0, 0x01, 0, 0);
    CHECK(prefetch_addr, (fields), 0, 0x02, 0, 0);
    CHECK(cfgi_ste, (fields, STREAM_ID, true), 0, 0x0000010000000003, 1, STE | CD);
    CHECK(cfgi_ste, (fields, STREAM_ID, false), 0, 0x0000010000000003, 0, STE | BLOCK | CD);
    CHECK(cfgi_ste, (fields, STREAM_ID + 1, false), 0, 0x0000010100000003, 0, BLOCK);
    CHECK(cfgi_ste_range, (fields, STREAM_ID + 7, 2), 0, 0x0000010700000004, 2, STE | BLOCK | CD);
    CHECK(cfgi_all, (fields), 0, 0x04, 0x1F, STE | BLOCK | CD);
    CHECK(cfgi_cd, (fields, STREAM_ID, SUBSTREAM_ID, true), TAHVENNO_S1P, 0x0000010000007005, 1, CD);
    CHECK(cfgi_cd, (fields, STREAM_ID, 0xFFFFF, false), TAHVENNO_S1P, 0x00000100FFFFF005, 0, 0);
    CHECK(cfgi_cd_all, (fields, STREAM_ID), TAHVENNO_S1P, 0x0000010000000006, 0, CD);
}

static void check_guests(void) {
    CHECK(tlbi_nh_all, (fields, VM), TAHVENNO_S1P, 0x0000000500000010, 0, OWN | GLOBAL);
    CHECK(tlbi_nh_asid, (fields, VM, SPACE), TAHVENNO_S1P, 0x0034000500000011, 0, OWN);
    CHECK(tlbi_nh_asid, (fields, VM, 0x1234), TAHVENNO_S1P, 0x1234000500000011, 0, 0);
    CHECK(tlbi_nh_va, (fields, VM, SPACE, PAGE + 0x234, true), TAHVENNO_S1P, 0x0034000500000012, 0x1001, OWN);
    CHECK(tlbi_nh_va, (fields, VM, SPACE, NEXT_PAGE, false), TAHVENNO_S1P, 0x0034000500000012, 0x2000, GLOBAL);
    CHECK(tlbi_nh_va, (fields, VM, SPACE, UINT64_MAX, false), TAHVENNO_S1P, 0x0034000500000012, ~UINT64_C(0xFFF), 0);
    CHECK(tlbi_nh_vaa, (fields, VM, PAGE, false), TAHVENNO_S1P, 0x0000000500000013, 0x1000, OWN);
    CHECK(tlbi_s12_vmall, (fields, VM), TAHVENNO_S2P, 0x0000000500000028, 0, OWN | GLOBAL | IPA);
    CHECK(tlbi_s2_ipa, (fields, VM, PAGE, true), TAHVENNO_S2P, 0x000000050000002A, 0x1001, IPA);
    CHECK(tlbi_nsnh_all, (fields), 0, 0x30, 0, OWN | GLOBAL | IPA);
}

static void check_others(void) {
    CHECK(tlbi_el2_all, (fields), HYPERVISOR, 0x20, 0, EL2 | EL2_E2H);
    CHECK(tlbi_el2_asid, (fields, SPACE), HYPERVISOR, 0x0034000000000021, 0, EL2_E2H);
    CHECK(tlbi_el2_va, (fields, SPACE, PAGE, true), HYPERVISOR, 0x0034000000000022, 0x1001, EL2);
    CHECK(tlbi_el2_vaa, (fields, PAGE, false), HYPERVISOR, 0x23, 0x1000, EL2);
    CHECK(sync, (fields, TAHVENNO_CS_NONE), 0, 0x0046, 0, 0);
    CHECK(sync, (fields, TAHVENNO_CS_IRQ), 0, 0x1046, 0, 0);
    CHECK(sync, (fields, TAHVENNO_CS_SEV), 0, 0x2046, 0, 0);
    CHECK(dpti_all, (fields), TAHVENNO_DPT, 0x70, 0, SMALL | LARGE);
    CHECK(dpti_pa, (fields, PAGE, TAHVENNO_4KB, true), TAHVENNO_DPT, 0x73, 0x1001, SMALL);
    CHECK(dpti_pa, (fields, LARGE_BASE, TAHVENNO_2MB, false), TAHVENNO_DPT, 0x73, 0x200300, LARGE);
}

static void check_ranges(void) {
    uint64_t fields[TAHVENNO_COMMAND_WORDS];
    tahvenno_cmd_tlbi_nh_va(fields, VM, SPACE, PAGE, false);
    tahvenno_cmd_add_range(fields, TAHVENNO_TG_4KB, 3, 1);
    check("a range", fields, TAHVENNO_S1P, UINT64_C(0x0034000500103012), 0x1400, OWN | GLOBAL);
    tahvenno_cmd_add_level(fields, 3, true);
    check("a range with a level", fields, TAHVENNO_S1P, UINT64_C(0x0034000500103012), 0x1780, OWN | GLOBAL);
    tahvenno_cmd_tlbi_s2_ipa(fields, VM, PAGE, true);
    tahvenno_cmd_add_range(fields, TAHVENNO_TG_64KB, 0, 0);
    tahvenno_cmd_add_level(fields, 1, false);
    check("a range of one granule", fields, TAHVENNO_S2P, UINT64_C(0x000000050000002A), 0x1D01, IPA);
    tahvenno_cmd_tlbi_el2_vaa(fields, PAGE, false);
    tahvenno_cmd_add_range(fields, TAHVENNO_TG_16KB, 31, 31);
    check("the longest range", fields, HYPERVISOR, UINT64_C(0x0000000001F1F023), 0x1800, EL2);
}

void check_commands(void) {
    check_configuration();
    check_guests();
    check_others();
    check_ranges();
}

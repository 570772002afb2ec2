/* No expression rolls twice but in a fixed order, so that every compiler makes the same inputs. */
#include "inputs.h"

#include <string.h>

uint64_t roll(struct dice *dice) {
    uint64_t mixed = dice->state += UINT64_C(0x9E3779B97F4A7C15);
    mixed = (mixed ^ mixed >> 30) * UINT64_C(0xBF58476D1CE4E5B9);
    mixed = (mixed ^ mixed >> 27) * UINT64_C(0x94D049BB133111EB);
    return mixed ^ mixed >> 31;
}

uint64_t below(struct dice *dice, uint64_t limit) {
    return roll(dice) % limit;
}

uint64_t any_width(struct dice *dice) {
    uint64_t shift = below(dice, 64);
    return roll(dice) >> shift;
}

#define PICK(dice, pool) ((pool)[below((dice), sizeof(pool) / sizeof(pool)[0])])

const struct size LARGEST = {MOST_LOG2SIZE, MOST_ROWS, MOST_REGIONS};
const struct size SMALL = {MOST_LOG2SIZE - 4, MOST_SLOTS / 16 / 2, 32}; /* a sixteenth of the slots, half as many rows */

static const uint64_t STREAMS[] = {0, 1, 5, 0x40, 0x41, 0x100, 0x107, 0x3FF, 0x400, 0xFFFFFFFF};
static const uint64_t SUBSTREAMS[] = {0, 1, 7, 0xFFFFF};
static const uint64_t VMIDS[] = {0, 0, 1, 5, 0x105, 0xFFFF};
static const uint64_t ASIDS[] = {0, 1, 0x34, 0x1234};
static const uint64_t SPANS[] = {12, 12, 13, 21, 30, 39, 48};
static const uint64_t PAGES[] = {0, 0x1000, 0x2000, 0x200000, 0x40000000, UINT64_C(0xFFFFFFFFFF000)};
static const uint64_t TYPES[] = {0, 1, 2, 3, 5, 6, 7, 9, 10, 11, 13, 14, 15};
static const uint64_t SHARES[] = {0, 2, 3};
static const uint64_t CONFIGS[] = {0, 4, 5, 5, 6, 7, 7, 7};

/* The sizes of regions by their code, as powers of two. */
static const uint64_t REGION_SIZES[] = {12, 14, 16, 21, 25, 29, 30, 34, 36, 39};

/* RA, WA and TR of the halves that are cacheable, the inner in bits 2:0. */
static uint64_t hints_of(struct dice *dice, uint64_t memattr) {
    uint64_t hints = below(dice, 64);
    if ((memattr & 3) < 2 || memattr < 4) hints &= 0x38;
    if (memattr >> 2 < 2) hints &= 7;
    return hints;
}

static void ste_row(struct dice *dice, int last, uint64_t row[4]) {
    static const uint64_t blocks[] = {6, 8, 10};
    uint64_t stream = PICK(dice, STREAMS), span = PICK(dice, blocks);
    if (last) {
        uint64_t take = below(dice, 2), memattr = PICK(dice, TYPES), others = below(dice, 1 << 10);
        row[0] |= 8 | (take | memattr << 1 | others << 5) << 48;
        row[0] |= PICK(dice, VMIDS) << 16;
        row[1] = stream | PICK(dice, CONFIGS) << 52;
    } else {
        row[0] |= span << 5;
        row[1] = stream >> span << span;
    }
}

static void cd_row(struct dice *dice, int last, uint64_t row[4]) {
    row[1] = PICK(dice, STREAMS);
    if (last) {
        row[0] |= 8 | PICK(dice, ASIDS) << 32;
        row[1] |= PICK(dice, SUBSTREAMS) << 32;
    }
}

/* A page of either half. */
static uint64_t any_page(struct dice *dice) {
    uint64_t page = PICK(dice, PAGES);
    return below(dice, 2) ? page | UPPER_HALF : page;
}

/* Whose a row of stage 1 is: a guest's, or with a mark the hypervisor's, which has no VMID, and for EL2 nothing else either. */
static uint64_t any_space(struct dice *dice) {
    static const uint64_t marks[] = {0, 0, 0, EL2_MARK, E2H_MARK, E2H_MARK};
    uint64_t mark = PICK(dice, marks), vmid = PICK(dice, VMIDS) << 16, global = below(dice, 2) << 4, asid = PICK(dice, ASIDS) << 32;
    if (mark == EL2_MARK) return mark;
    return mark ? mark | global | asid : vmid | global | asid;
}

static void stage_row(struct dice *dice, unsigned kind, int last, uint64_t row[4]) {
    uint64_t span = PICK(dice, SPANS), memattr = PICK(dice, TYPES);
    row[0] |= span << 5;
    row[0] |= kind == 2 ? any_space(dice) : PICK(dice, VMIDS) << 16;
    row[2] = (kind == 2 ? any_page(dice) : PICK(dice, PAGES)) >> span << span;
    if (last) {
        uint64_t hints = kind == 2 ? hints_of(dice, memattr) : 0;
        row[0] |= 8 | (memattr | PICK(dice, SHARES) << 4 | hints << 6) << 48;
        row[3] = (below(dice, 4) ? PICK(dice, PAGES) : roll(dice) >> 12) >> span << span;
    }
}

void some_row(struct dice *dice, uint64_t row[4]) {
    unsigned kind = (unsigned)below(dice, 4);
    int last = below(dice, 4) != 0;
    any_row(dice, kind, last, row);
}

void any_row(struct dice *dice, unsigned kind, int last, uint64_t row[4]) {
    memset(row, 0, 4 * sizeof row[0]);
    row[0] = 1 | (uint64_t)kind << 1;
    if (kind == 0) ste_row(dice, last, row);
    else if (kind == 1) cd_row(dice, last, row);
    else stage_row(dice, kind, last, row);
}

void any_region(struct dice *dice, uint64_t region[2]) {
    static const uint64_t usual[] = {0, 0, 1, 3, 6};
    uint64_t size = below(dice, 4) ? PICK(dice, usual) : below(dice, 10), last = below(dice, 3) ? 2 : 0;
    region[0] = 1 | last | size << 2;
    region[1] = PICK(dice, PAGES) >> REGION_SIZES[size] << REGION_SIZES[size];
}

/* The last address of a stage row; one past it may be 2^64. */
static uint64_t last_of(const uint64_t row[4]) {
    return row[2] | ((UINT64_C(1) << (row[0] >> 5 & 63)) - 1);
}

int doubles(const uint64_t one[4], const uint64_t other[4]) {
    uint64_t differ = one[0] ^ other[0], ids = one[1] ^ other[1], kind = one[0] >> 1 & 3;
    if ((one[0] & other[0] & 9) != 9 || differ & 6) return 0; /* valid and last-level, of one kind */
    if ((one[0] | other[0]) & MARKS) return 0;
    if (kind == 0) return (uint32_t)ids == 0;
    if (kind == 1) return ids << 12 == 0;
    if (differ >> 16 & 0xFFFF || one[2] > last_of(other) || other[2] > last_of(one)) return 0;
    return kind == 3 || (differ >> 32 & 0xFFFF) == 0 || (one[0] | other[0]) & 16;
}

void put_command(uint8_t slot[16], uint64_t low, uint64_t high) {
    for (int i = 0; i < 8; i++) {
        slot[i] = (uint8_t)(low >> 8 * i);
        slot[8 + i] = (uint8_t)(high >> 8 * i);
    }
}

static uint64_t word_at(const uint8_t *bytes) {
    uint64_t word = 0;
    for (int i = 8; i-- > 0;) word = word << 8 | bytes[i];
    return word;
}

static int by_address(uint64_t code) {
    return code == 0x12 || code == 0x13 || code == 0x22 || code == 0x23 || code == 0x2A;
}

uint64_t range_of(const uint8_t slot[16], uint64_t *first) {
    uint64_t low = word_at(slot), high = word_at(slot + 8), granule = high >> 10 & 3;
    if (!by_address(low & 0xFF) || granule == 0) return 0;
    granule = UINT64_C(1) << 2 * (granule - 1);
    *first = (high >> 12) & ~(granule - 1);
    return ((low >> 12 & 31) + 1) * granule << (low >> 20 & 31);
}

/* A command by address gets a range: mostly a short one, and one granule with a level. The dice are its own, so that what is rolled
 * after it stays as it was. */
static void add_range(uint64_t *low, uint64_t *high) {
    struct dice own = {*low ^ *high};
    static const uint64_t nums[] = {0, 0, 1, 3, 15, 31}, scales[] = {0, 0, 1, 4, 9, 18, 31};
    if (!by_address(*low & 0xFF) || below(&own, 2)) return;
    uint64_t num = PICK(&own, nums), scale = PICK(&own, scales), granule = 1 + below(&own, 3), level = below(&own, 4);
    if (num == 0 && scale == 0 && level < 2) level = 3;
    *low |= num << 12 | scale << 20;
    *high |= granule << 10 | level << 8 | (level ? below(&own, 2) << 7 : 0);
}

/* Address and SIZE of code 73: those of the lower half aligned to the size, the others as they are, with bits 55:52 set. */
static uint64_t region_of(uint64_t page, uint64_t size) {
    uint64_t shift = size < 10 ? REGION_SIZES[size] : 12;
    if (page >= UPPER_HALF) return (page << 8 >> 8) | size << 8;
    return page >> shift << shift | size << 8;
}

void any_command(struct dice *dice, uint64_t features, uint8_t slot[16]) {
    /* those that take few rows stand more often than the sweeping ones */
    static const uint64_t codes[] = {0x01, 0x02, 0x03, 0x03, 0x04, 0x05, 0x05, 0x06, 0x10, 0x11, 0x11, 0x11, 0x12, 0x12, 0x12, 0x13,
                                     0x13, 0x20, 0x21, 0x21, 0x22, 0x22, 0x23, 0x23, 0x28, 0x2A, 0x2A, 0x2A, 0x30, 0x46, 0x46,
                                     0x70, 0x73, 0x73, 0x73, 0x73};
    uint64_t code = PICK(dice, codes), low = 0, high = 0;
    uint64_t stream = PICK(dice, STREAMS) << 32, vmid = PICK(dice, VMIDS) << 32, asid = PICK(dice, ASIDS) << 48;
    uint64_t leaf = below(dice, 2), range = below(dice, 4) ? below(dice, 10) : below(dice, 32), page = any_page(dice);
    switch (code) {
    case 0x01: case 0x02: low = roll(dice) & ~UINT64_C(0x4FF); high = roll(dice); break;
    case 0x03: low = stream; high = leaf; break;
    case 0x04: low = stream; high = range; break;
    case 0x05: low = stream | PICK(dice, SUBSTREAMS) << 12; high = leaf; break;
    case 0x06: low = stream; break;
    case 0x10: case 0x28: low = vmid; break;
    case 0x11: low = vmid | asid; break;
    case 0x12: low = vmid | asid; high = page | leaf; break;
    case 0x13: low = vmid; high = page | leaf; break;
    case 0x21: low = asid; break;
    case 0x22: low = asid; high = page | leaf; break;
    case 0x23: high = page | leaf; break;
    case 0x2A: low = vmid; high = (page & ~UPPER_HALF) | leaf; break;
    case 0x73: high = region_of(page, range & 15) | leaf; break;
    case 0x46: low = below(dice, 3) << 12; high = roll(dice); break;
    }
    low |= code;
    if (features & RIL_FEATURE) add_range(&low, &high);
    put_command(slot, low, high);
}

static void flip_bit(struct dice *dice, uint8_t *byte) {
    *byte ^= (uint8_t)(1u << below(dice, 8));
}

void spoilt_command(struct dice *dice, uint64_t features, uint8_t slot[16]) {
    any_command(dice, features, slot);
    if (below(dice, 2)) slot[0] = (uint8_t)roll(dice);
    else flip_bit(dice, slot + below(dice, 16));
}

uint64_t control_word(uint64_t rd, uint64_t wr, uint64_t flags, uint64_t log2size) {
    return rd | wr << WR_SHIFT | flags | log2size << SIZE_SHIFT;
}

static uint64_t any_control(struct dice *dice, uint64_t log2size) {
    uint64_t slots = UINT64_C(1) << log2size, ring = 2 * slots, flags = 0;
    uint64_t rd = below(dice, 3) ? below(dice, ring) : ring - 1;
    uint64_t wait = below(dice, 2) ? slots : below(dice, slots + 1);
    int active = below(dice, 10) == 0;
    if (below(dice, 2)) flags |= GERROR | GERRORN;
    if (active) flags ^= GERROR;
    if (active || below(dice, 3) == 0) flags |= UINT64_C(1) << ERR_SHIFT;
    uint64_t both = roll(dice); /* one roll, so that those after it stay as they were without the pending bit */
    if (both % 10) flags |= CMDQEN;
    if (both >> 63) flags |= PENDING;
    return control_word(rd, (rd + wait) % ring, flags, log2size);
}

static void fill_queue(struct dice *dice, struct input *input, uint64_t slots, uint64_t rarity) {
    input->bytes = 16 * slots;
    for (uint64_t slot = 0; slot < slots; slot++) {
        if (below(dice, rarity)) any_command(dice, input->features, input->queue + 16 * slot);
        else spoilt_command(dice, input->features, input->queue + 16 * slot);
    }
}

/* So many rows of the second table, one in so many of them empty. The dice are its own, as for ranges. */
static void fill_table(struct input *input, uint64_t rows, uint64_t empty) {
    struct dice own = {~input->kept[0]};
    input->table_words = 2 * rows;
    for (uint64_t *row = input->kept + TABLE_AT; row < input->kept + TABLE_AT + 2 * rows; row += 2) {
        any_region(&own, row);
        if (below(&own, empty) == 0) row[0] = 0;
    }
}

void any_input(struct dice *dice, struct input *input, struct size most, uint64_t rarity) {
    uint64_t log2size = below(dice, below(dice, 8) ? 5 : most.log2size + 1);
    uint64_t rows = 1 + below(dice, below(dice, 8) ? 24 : most.rows);
    memset(input, 0, sizeof *input);
    input->kept[0] = any_control(dice, log2size);
    input->words = 1 + 4 * rows;
    for (uint64_t row = 0; row < rows; row++) {
        some_row(dice, input->kept + 1 + 4 * row);
        if (below(dice, 6) == 0) input->kept[1 + 4 * row] = 0; /* an empty row keeps what once stood in its other words */
    }
    input->features = below(dice, 2) ? 15 : below(dice, 16);
    if (below(dice, 8)) input->features |= HYP_FEATURE;
    uint64_t both = roll(dice); /* one roll, as in any_control */
    if (both % 2) input->features |= E2H_SETTING;
    if (both >> 63) input->features |= RIL_FEATURE;
    if (both >> 62 & 1) input->features |= DPT_FEATURE;
    fill_table(input, 1 + (both >> 32) % (both >> 61 & 1 ? 12 : most.regions), 5);
    fill_queue(dice, input, UINT64_C(1) << log2size, rarity);
}

/* A full queue and room for the rows; the index wraps after the first command. */
static void start_full(struct input *input, struct size size) {
    uint64_t slots = UINT64_C(1) << size.log2size;
    memset(input, 0, sizeof *input);
    input->kept[0] = control_word(2 * slots - 1, slots - 1, CMDQEN, size.log2size);
    input->words = 1 + 4 * size.rows;
    input->bytes = 16 * slots;
    input->features = 15 | HYP_FEATURE | RIL_FEATURE | DPT_FEATURE;
    fill_table(input, size.regions, UINT64_MAX);
}

void full_input(struct dice *dice, struct input *input, struct size size, uint64_t rarity) {
    start_full(input, size);
    if (below(dice, 2)) input->features |= E2H_SETTING;
    for (uint64_t row = 0; row < size.rows; row++)
        some_row(dice, input->kept + 1 + 4 * row);
    fill_queue(dice, input, UINT64_C(1) << size.log2size, rarity);
}

void spread_input(struct input *input) {
    start_full(input, LARGEST);
    for (uint64_t row = 0; row < MOST_ROWS; row++) /* stage 1, not last-level, a VMID each */
        input->kept[1 + 4 * row] = 5 | 12 << 5 | row << 16;
    for (uint64_t slot = 0; slot < MOST_SLOTS; slot++) {
        uint64_t vmid = slot / 4 * 7 % MOST_ROWS; /* each once, in another order than the rows' */
        put_command(input->queue + 16 * slot, slot % 4 ? 0x1046 : 0x10 | vmid << 32, 0);
    }
    for (uint64_t row = 0; row < MOST_REGIONS; row++) { /* a page each, in another order than the rows' too */
        input->kept[TABLE_AT + 2 * row] = 3;
        input->kept[TABLE_AT + 2 * row + 1] = row << 12;
        put_command(input->queue + 16 * (4 * (row * 31 % MOST_REGIONS) + 1), 0x73, row << 12);
    }
}

void damage(struct dice *dice, struct input *input) {
    uint64_t row = below(dice, (input->words - 1) / 4), at = 1 + 4 * row, word = below(dice, 4);
    uint64_t region = TABLE_AT + 2 * below(dice, input->table_words / 2);
    switch (below(dice, 14)) {
    case 0: input->words += 1 + below(dice, 6); break;
    case 1: input->words -= 1 + below(dice, 4); break;
    case 2: case 3: input->kept[0] ^= UINT64_C(1) << below(dice, 64); break;
    case 4: input->kept[at] ^= UINT64_C(1) << below(dice, 64); break;
    case 5: input->kept[at + word] = roll(dice); break;
    case 6: input->kept[at] = (input->kept[at] & ~UINT64_C(0x7E0)) | below(dice, 64) << 5; break;
    case 7: input->bytes += below(dice, 2) ? 16 : UINT64_C(0) - 1; break;
    case 8: input->kept[at + 2 + word % 2] ^= UPPER_HALF; break;
    case 9: input->kept[at] ^= word % 2 ? EL2_MARK : E2H_MARK; break;
    case 10: input->table_words = below(dice, 2) ? input->table_words - 1 : 2 * MOST_REGIONS + below(dice, 4); break;
    case 11: input->kept[region] ^= UINT64_C(1) << below(dice, 64); break;
    case 12: input->kept[region + 1] ^= UINT64_C(1) << below(dice, 64); break;
    case 13: input->kept[region] |= UINT64_C(10) << 2; break;
    }
}

void any_access(struct dice *dice, struct access *access) {
    access->stream = (uint32_t)PICK(dice, STREAMS);
    access->substream = (uint32_t)PICK(dice, SUBSTREAMS);
    if (below(dice, 16) == 0) access->substream = (uint32_t)roll(dice);
    access->address = any_page(dice);
    access->address += below(dice, 0x3000);
    if (below(dice, 16) == 0) access->address = roll(dice);
    access->how = below(dice, 8);
    access->memattr = PICK(dice, TYPES);
    access->sh = PICK(dice, SHARES);
    access->hints = hints_of(dice, access->memattr);
    switch (below(dice, 24)) { /* now and then refusal 10 */
    case 0: access->memattr = any_width(dice); break;
    case 1: access->sh = any_width(dice); break;
    case 2: access->hints = any_width(dice); break;
    }
}

void any_record(struct dice *dice, struct input *input) {
    input->bytes = RECORD_BYTES;
    for (size_t i = 0; i < RECORD_BYTES; i++) input->queue[i] = (uint8_t)roll(dice);
}

void ring_input(struct dice *dice, struct input *input, uint64_t n, uint64_t rd, uint64_t held, uint64_t flags) {
    uint64_t slots = UINT64_C(1) << n;
    input->words = 1 + 4 * slots;
    input->table_words = 0;
    input->kept[0] = rd | (rd + held) % (2 * slots) << WR_SHIFT | flags * OVERFLOW_FLAG | n << EVENTS_SHIFT;
    for (size_t i = 1; i < input->words; i++) input->kept[i] = roll(dice);
    any_record(dice, input);
}

void any_ring(struct dice *dice, struct input *input) {
    uint64_t n = below(dice, below(dice, 4) ? 4 : MOST_EVENTS + 1), slots = UINT64_C(1) << n;
    uint64_t rd = below(dice, 2 * slots), held = below(dice, 2) ? slots : below(dice, slots + 1), flags = below(dice, 4);
    ring_input(dice, input, n, rd, held, flags);
}

void damage_ring(struct dice *dice, struct input *input) {
    switch (below(dice, 6)) {
    case 0: input->words += 1 + below(dice, 6); break;
    case 1: input->words -= 1 + below(dice, 5); break;
    case 2: input->words = 1 + 4 * (UINT64_C(1) << below(dice, MOST_EVENTS + 2)); break;
    case 3: case 4: input->kept[0] ^= UINT64_C(1) << below(dice, 64); break;
    case 5: input->kept[0] = any_width(dice); break;
    }
}

/* As in inputs.c, the order of the rolls is fixed. */
#include "fields.h"

#include <string.h>

#define PICK(dice, pool) ((pool)[below((dice), sizeof(pool) / sizeof(pool)[0])])

enum { S1P = 1, S2P = 2 };
#define HYP (HYP_FEATURE | S1P)

#define BIT(field) (1u << (field))
#define RANGED (BIT(NUM) | BIT(SCALE) | BIT(TG) | BIT(TTL) | BIT(TTL128))
#define PAGED (BIT(LEAF) | BIT(ADDRESS) | RANGED)

/* A code, the features that it needs, and the fields that it has. */
static const struct format {
    uint64_t code, needs;
    unsigned has;
} FORMATS[CODES] = {
    {0x01, 0, 0},
    {0x02, 0, 0},
    {0x03, 0, BIT(STREAM_ID) | BIT(LEAF)},
    {0x04, 0, BIT(STREAM_ID) | BIT(RANGE)},
    {0x05, S1P, BIT(STREAM_ID) | BIT(SUBSTREAM_ID) | BIT(LEAF)},
    {0x06, S1P, BIT(STREAM_ID)},
    {0x10, S1P, BIT(VMID)},
    {0x11, S1P, BIT(VMID) | BIT(ASID)},
    {0x12, S1P, BIT(VMID) | BIT(ASID) | PAGED},
    {0x13, S1P, BIT(VMID) | PAGED},
    {0x20, HYP, 0},
    {0x21, HYP, BIT(ASID)},
    {0x22, HYP, BIT(ASID) | PAGED},
    {0x23, HYP, PAGED},
    {0x28, S2P, BIT(VMID)},
    {0x2A, S2P, BIT(VMID) | PAGED},
    {0x30, 0, 0},
    {0x46, 0, BIT(CS)},
    {0x70, DPT_FEATURE, 0},
    {0x73, DPT_FEATURE, BIT(LEAF) | BIT(ADDRESS) | BIT(SIZE)},
};

/* The lowest bit of each field in the command, and how many it has; an address has fewer in 2A and 73. */
static const unsigned PLACES[FIELDS] = {0, 32, 12, 64, 64, 32, 48, 76, 12, 12, 20, 74, 72, 71, 72, 0};
static const unsigned WIDTHS[FIELDS] = {8, 32, 20, 5, 1, 16, 16, 52, 2, 5, 5, 2, 2, 1, 4, 0};

static unsigned width_of(uint64_t code, unsigned field) {
    if (field != ADDRESS) return WIDTHS[field];
    return code == 0x2A ? 40 : code == 0x73 ? 44 : 52;
}

size_t code_place(uint64_t code) {
    size_t place = 0;
    while (place < CODES && FORMATS[place].code != code) place++;
    return place;
}

uint64_t features_for(size_t place) {
    return FORMATS[place].needs;
}

void put_fields(const uint64_t fields[FIELDS], uint8_t slot[16]) {
    uint64_t halves[2] = {0, 0};
    for (unsigned i = 0; i < FIELDS; i++) halves[PLACES[i] / 64] |= fields[i] << PLACES[i] % 64;
    put_command(slot, halves[0], halves[1]);
}

/* A number of so many bits, now and then the least or the largest. */
static uint64_t any_number(struct dice *dice, unsigned width) {
    uint64_t most = (UINT64_C(1) << width) - 1;
    switch (below(dice, 4)) {
    case 0: return 0;
    case 1: return most;
    default: return roll(dice) & most;
    }
}

/* A range or none: fields that each fit get a granule, a level, and what else they need to be legal together. */
static void mend_range(struct dice *dice, uint64_t features, uint64_t *fields) {
    uint64_t granule = below(dice, 4);
    fields[TG] = features & RIL_FEATURE ? granule : 0;
    if (!fields[TG]) fields[NUM] = fields[SCALE] = fields[TTL] = 0;
    if (!fields[TTL]) fields[TTL128] = 0;
    int no_level = fields[TTL] == 0 || (fields[TG] == 2 && fields[TTL] == 1);
    if (fields[TG] && !fields[NUM] && !fields[SCALE] && no_level) fields[SCALE] = 1;
}

void legal_fields(struct dice *dice, uint64_t features, size_t place, uint64_t fields[FIELDS]) {
    const struct format *format = &FORMATS[place];
    memset(fields, 0, FIELDS * sizeof fields[0]);
    fields[CODE] = format->code;
    for (unsigned i = 1; i < FIELDS; i++)
        if (format->has & BIT(i)) fields[i] = any_number(dice, width_of(format->code, i));
    if (fields[CS] == 3) fields[CS] = 1;
    if (!(features & S2P)) fields[VMID] = 0; /* it is Reserved then */
    if (format->has & BIT(TG)) mend_range(dice, features, fields);
}

void any_fields(struct dice *dice, uint64_t features, uint64_t fields[FIELDS]) {
    size_t place = below(dice, CODES);
    while (FORMATS[place].needs & ~features) place = (place + 1) % CODES;
    legal_fields(dice, features, place, fields);
}

uint64_t absent_fields(struct dice *dice, uint64_t features, uint64_t fields[FIELDS]) {
    size_t place = below(dice, CODES), tries = 0;
    while (!(FORMATS[place].needs & ~features) && tries++ < CODES) place = (place + 1) % CODES;
    if (tries > CODES) return spoilt_fields(dice, features, fields);
    legal_fields(dice, ~UINT64_C(0), place, fields);
    uint64_t field = below(dice, 2 * FIELDS), value = roll(dice);
    if (field && field < FIELDS) fields[field] = value; /* the feature is asked for first */
    return 20;
}

/* Fields of a range that make any command illegal: those that have none, and those that have one. */
static void spoil_range(struct dice *dice, uint64_t *fields) {
    static const uint64_t wrong[][5] = {{1, 0, 0, 0, 0}, {0, 1, 0, 0, 0}, {0, 0, 0, 1, 0}, {0, 0, 0, 0, 1}, {1, 1, 1, 0, 1},
                                        {0, 0, 1, 0, 0}, {0, 0, 2, 0, 0}, {0, 0, 3, 0, 0}, {0, 0, 2, 1, 0}, {0, 0, 2, 1, 1}};
    memcpy(fields + NUM, PICK(dice, wrong), sizeof wrong[0]);
}

uint64_t spoilt_fields(struct dice *dice, uint64_t features, uint64_t fields[FIELDS]) {
    static const uint64_t unknown[] = {0x00, 0x07, 0x0F, 0x14, 0x18, 0x24, 0x29, 0x2B,
                                       0x31, 0x40, 0x41, 0x45, 0x47, 0x71, 0x74, 0xFF};
    any_fields(dice, features, fields);
    uint64_t kind = below(dice, 7), field = 1 + below(dice, FIELDS - 1);
    const struct format *format = &FORMATS[code_place(fields[CODE])];
    switch (kind) {
    case 0: case 1: /* too wide, or a field that it does not have */
        if (format->has & BIT(field)) fields[field] |= UINT64_C(1) << (width_of(fields[CODE], (unsigned)field) + below(dice, 12));
        else fields[field] = below(dice, 2) ? 1 : roll(dice) | 1;
        break;
    case 2: fields[CODE] = PICK(dice, unknown); break;
    case 3: fields[CODE] |= UINT64_C(0x100) << below(dice, 56); break;
    case 4: fields[NOTHING] = roll(dice) | 1; break;
    case 5: spoil_range(dice, fields); break;
    case 6: /* 46 with CS 3, or 10 to 13 with a VMID that is Reserved */
        legal_fields(dice, features, code_place(features & S1P && !(features & S2P) ? 0x11 : 0x46), fields);
        fields[fields[CODE] == 0x46 ? CS : VMID] = 3;
        break;
    }
    return 21;
}

/* Batches for the check of document 02, T-12: an original and one that is proposed for it, which is often made from it. */
#include <string.h>

#include "call.h"

enum { SLOT = 16, TRIES = 8, FEW = 12 };

/* An invalidation that the features have, more often than not. */
static void any_invalidation(struct dice *dice, uint64_t features, uint8_t slot[SLOT]) {
    for (int i = 0; i < TRIES; i++) {
        any_command(dice, features, slot);
        uint64_t needs = features_for(code_place(slot[0]));
        if (slot[0] != 0x01 && slot[0] != 0x02 && slot[0] != 0x46 && (features & needs) == needs) return;
    }
    put_command(slot, 0x30, 0);
}

/* One that does not qualify, or may not. */
static void any_other(struct dice *dice, uint64_t features, uint8_t slot[SLOT]) {
    if (below(dice, 2)) spoilt_command(dice, features, slot);
    else any_command(dice, features, slot);
}

static void any_batch(struct dice *dice, uint64_t features, uint64_t count, uint8_t *batch) {
    uint64_t rarity = below(dice, 3) ? UINT64_MAX : 4;
    for (uint64_t i = 0; i < count; i++) {
        if (below(dice, rarity)) any_invalidation(dice, features, batch + SLOT * i);
        else any_other(dice, features, batch + SLOT * i);
    }
}

static void swap(uint8_t *one, uint8_t *other) {
    uint8_t held[SLOT];
    if (one == other) return;
    memcpy(held, one, SLOT);
    memcpy(one, other, SLOT);
    memcpy(other, held, SLOT);
}

/* Changes a proposal of so many commands, of which there may be one more then; gives how many there are. */
static uint64_t change(struct dice *dice, uint64_t features, uint64_t count, uint8_t *batch) {
    uint64_t way = below(dice, 7), place = below(dice, count + 1), other = below(dice, count + 1);
    uint8_t *end = batch + SLOT * count, *at = batch + SLOT * place;
    if (place == count) { /* one more, an old one or a new one */
        if (count && way < 3) memcpy(end, batch + SLOT * (other % count), SLOT);
        else any_invalidation(dice, features, end);
        return count + 1;
    }
    switch (way) {
    case 0: case 1: swap(at, batch + SLOT * (other % count)); return count;
    case 2: case 3: memmove(at, at + SLOT, (size_t)(end - at) - SLOT); return count - 1;
    case 4: any_invalidation(dice, features, at); return count;
    case 5: any_other(dice, features, at); return count;
    default: at[8] ^= 1; return count; /* Leaf, where there is one */
    }
}

void any_batches(struct dice *dice, const struct input *input, uint64_t most, struct call *call) {
    static uint64_t commands[COMMANDS_ROOM];
    uint8_t *bytes = (uint8_t *)commands;
    uint64_t count = below(dice, (below(dice, 16) ? FEW : most) + 1), proposed = count;
    uint64_t whole = below(dice, 8), changes = below(dice, 4);
    call->row = below(dice, 8); /* either stands anywhere */
    uint8_t *first = bytes + call->row, *second;
    any_batch(dice, input->features, count, first);
    call->argument = call->row + SLOT * count + below(dice, 8);
    second = bytes + call->argument;
    memcpy(second, first, SLOT * count);
    for (uint64_t i = 0; i < changes; i++) proposed = change(dice, input->features, proposed, second);
    if (whole == 0) any_batch(dice, input->features, proposed, second);
    if (whole == 1) proposed = 0;
    call->w[0] = SLOT * count;
    call->w[1] = SLOT * proposed;
    uint64_t part = below(dice, 16), over = below(dice, SLOT); /* bytes of one that is not whole, in either or both */
    if (part == 0 || part == 1) call->w[0] += over;
    if (part == 1 || part == 2) call->w[1] += over;
    call->commands = commands;
    call->command_words = (call->argument + SLOT * (proposed + 2)) / 8;
}

/* The calls, and random arguments for them; as in inputs.c, the order of the rolls is fixed. */
#include "call.h"

#include <string.h>

#include "tahvenno.h"

enum { MOST_CHECKED = 256 }; /* commands of a batch that is checked */

const char *const CALL_NAMES[CALLS] = {"run",           "fill",        "doorbell",   "acknowledge",      "enable",
                                       "clear_pending", "translate",   "state",      "table_fill",       "write_command",
                                       "write_batch",   "check_batch", "event_write", "event_read",      "event_acknowledge"};

void make_call(const struct call *call, const struct input *input, uint64_t *kept, const uint8_t *queue, struct outcome *outcome) {
    const struct access *access = &call->access;
    size_t words = input->words, table_words = input->table_words;
    uint64_t *table = kept + TABLE_AT;
    const uint8_t *batches = (const uint8_t *)call->commands;
    uint64_t *answer = outcome->answer, returned = 0;
    switch (call->which) {
    case RUN:
        returned = tahvenno_run(kept, words, table, table_words, queue, input->bytes, input->features, call->allowance, answer);
        break;
    case FILL:
        returned = tahvenno_fill(kept, words, call->row, call->w[0], call->w[1], call->w[2], call->w[3], call->allowance, answer);
        break;
    case DOORBELL: returned = tahvenno_doorbell(kept, words, call->argument, answer); break;
    case ACKNOWLEDGE: returned = tahvenno_acknowledge(kept, words, answer); break;
    case ENABLE: returned = tahvenno_enable(kept, words, call->argument, answer); break;
    case CLEAR_PENDING: returned = tahvenno_clear_pending(kept, words, answer); break;
    case TRANSLATE:
        returned = tahvenno_translate(kept, words, access->stream, access->substream, access->address, access->how,
                                      access->memattr, access->sh, access->hints, answer);
        break;
    case STATE: returned = tahvenno_state(kept, words, answer); break;
    case TABLE_FILL:
        returned = tahvenno_table_fill(kept, words, table, table_words, call->row, call->w[0], call->w[1], call->allowance, answer);
        break;
    case WRITE_COMMAND:
        returned = tahvenno_write_command((uint8_t *)queue + 16 * call->row, call->argument, call->commands, input->features,
                                          answer);
        break;
    case WRITE_BATCH:
        returned = tahvenno_write_batch(kept, words, (uint8_t *)queue, input->bytes, call->commands, call->command_words,
                                        input->features, answer);
        break;
    case CHECK_BATCH:
        returned = tahvenno_check_batch(kept, words, table, table_words, batches + call->row, call->w[0], batches + call->argument,
                                        call->w[1], input->features, answer);
        break;
    case EVENT_WRITE: returned = tahvenno_event_write(kept, words, queue, call->allowance, answer); break;
    case EVENT_READ: returned = tahvenno_event_read(kept, words, answer); break;
    case EVENT_ACKNOWLEDGE: returned = tahvenno_event_acknowledge(kept, words, answer); break;
    case CALLS: break;
    }
    outcome->returned = returned;
}

static uint64_t any_allowance(struct dice *dice) {
    switch (below(dice, 4)) {
    case 0: return below(dice, 6);
    case 1: return below(dice, 60);
    case 2: return roll(dice) << 32;
    default: return UINT64_MAX;
    }
}

/* Often a place where WR may go, else anywhere. */
static uint64_t any_index(struct dice *dice, uint64_t control) {
    uint64_t ring = UINT64_C(2) << (control >> SIZE_SHIFT & 15), wr = control >> WR_SHIFT & RD_BITS;
    switch (below(dice, 4)) {
    case 0: return wr;
    case 1: return (wr + 1) % ring;
    case 2: return below(dice, ring + 2);
    default: return any_width(dice);
    }
}

/* Aims an access at last-level rows of the image: an STE row's stream, a CD row of that stream, a stage row's address. */
static void aim(struct dice *dice, const struct input *input, struct access *access) {
    uint64_t rows = (input->words - 1) / 4, first = below(dice, rows + 1);
    unsigned found = 0;
    for (uint64_t i = 0; i < 3 * rows; i++) {
        const uint64_t *row = input->kept + 1 + 4 * ((first + i) % rows);
        unsigned kind = row[0] >> 1 & 3;
        if ((row[0] & 9) != 9 || found >> kind & 1 || (kind == 1 && (uint32_t)row[1] != access->stream)) continue;
        if (kind == 0) access->stream = (uint32_t)row[1];
        else if (kind == 1) access->substream = row[1] >> 32 & 0xFFFFF;
        else access->address = row[2] + (access->address & 0xFFF);
        found |= kind < 2 ? 1u << kind : 12;
    }
}

/* The row of a fill of the second table: an empty one, if there is one, more often than not; and its words. */
static void any_table_fill(struct dice *dice, const struct input *input, struct call *call) {
    uint64_t rows = input->table_words / 2;
    call->row = below(dice, rows + 1);
    for (uint64_t tries = 0; tries < rows && below(dice, 8); tries++) {
        if (call->row < rows && input->kept[TABLE_AT + 2 * call->row] == 0) break;
        call->row = (call->row + 1) % (rows + 1);
    }
    any_region(dice, call->w);
    uint64_t spoil = below(dice, 8), bit = below(dice, 64);
    if (spoil < 2) call->w[spoil] ^= UINT64_C(1) << bit;
    if (spoil == 2) call->w[0] = 0;
}

void any_commands(struct dice *dice, uint64_t features, uint64_t count, uint64_t rarity, uint64_t *commands) {
    for (uint64_t *command = commands; command < commands + COMMAND_WORDS * count; command += COMMAND_WORDS) {
        uint64_t fate = rarity ? below(dice, 2 * rarity) : 2;
        if (fate == 0) absent_fields(dice, features, command);
        else if (fate == 1) spoilt_fields(dice, features, command);
        else any_fields(dice, features, command);
    }
}

/* What a writer is to write: few commands more often than many, now and then more than there are slots, or a part of one. */
static void any_write(struct dice *dice, const struct input *input, struct call *call) {
    static uint64_t commands[COMMANDS_ROOM];
    uint64_t slots = UINT64_C(1) << (input->kept[0] >> SIZE_SHIFT & 15), most = slots < MOST_SLOTS ? slots : MOST_SLOTS;
    uint64_t few = below(dice, 4), count = below(dice, most + 2);
    if (call->which == WRITE_COMMAND) count = 1;
    else if (few && count > 6) count %= 6;
    any_commands(dice, input->features, count, call->which == WRITE_COMMAND ? 2 : 2 * count + 1, commands);
    uint64_t part = below(dice, 16), length = below(dice, 48), whole = input->bytes / 16; /* the only slot may be damaged */
    call->commands = commands;
    call->command_words = COMMAND_WORDS * count + (part ? 0 : length % COMMAND_WORDS);
    call->row = below(dice, whole ? whole : 1);
    call->argument = !whole ? input->bytes : below(dice, 8) ? 16 : length;
}

void any_call(struct dice *dice, const struct input *input, enum which which, struct call *call) {
    uint64_t rows = (input->words - 1) / 4;
    memset(call, 0, sizeof *call);
    call->which = which;
    call->allowance = any_allowance(dice);
    if (which == TABLE_FILL) {
        any_table_fill(dice, input, call);
        return;
    }
    if (which == WRITE_COMMAND || which == WRITE_BATCH) {
        any_write(dice, input, call);
        return;
    }
    if (which == CHECK_BATCH) {
        any_batches(dice, input, MOST_CHECKED, call);
        return;
    }
    call->row = below(dice, rows + 1);
    for (uint64_t tries = 0; tries < rows && below(dice, 8); tries++) { /* an empty row, if there is one */
        if (call->row < rows && input->kept[1 + 4 * call->row] == 0) break;
        call->row = (call->row + 1) % (rows + 1);
    }
    some_row(dice, call->w);
    uint64_t spoil = below(dice, 8), word = below(dice, 4), bit = below(dice, 64);
    if (spoil == 0) call->w[word] ^= UINT64_C(1) << bit;
    if (spoil == 1) call->w[2 + word % 2] ^= UPPER_HALF;
    if (spoil == 2) call->w[0] ^= word % 2 ? EL2_MARK : E2H_MARK;
    if (below(dice, 32) == 0) call->w[0] = 0;
    if (which != ENABLE) call->argument = any_index(dice, input->kept[0]);
    else if (below(dice, 2)) call->argument = roll(dice);
    any_access(dice, &call->access);
    if (below(dice, 4)) aim(dice, input, &call->access);
}

void any_event(struct dice *dice, enum which which, struct call *call) {
    memset(call, 0, sizeof *call);
    call->which = which;
    call->allowance = any_allowance(dice);
}

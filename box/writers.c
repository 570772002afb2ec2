/* The writers of commands (document 02, T-10), watched like the other calls (stores.c).
 *
 * A command's 16 bytes come by 16 stores of one byte each, from the first byte on, and the commands of a batch in their order. All of
 * them come before the one store of the control word, and that one is plain and of 64 bits, also where no command is given. In the
 * end the slots hold the commands' bytes, which are put together here by the layout of the papers, and every other byte and word is
 * as it was. A call that is refused stores nothing. */
#include <inttypes.h>
#include <stdio.h>
#include <string.h>

#include "stores.h"
#include "tahvenno.h"

#define HELD(field, name) _Static_assert((int)(field) == (int)TAHVENNO_CMD_##name, "the header has the fields in other places")
HELD(CODE, CODE);
HELD(STREAM_ID, STREAM);
HELD(SUBSTREAM_ID, SUBSTREAM);
HELD(RANGE, RANGE);
HELD(LEAF, LEAF);
HELD(VMID, VMID);
HELD(ASID, ASID);
HELD(ADDRESS, ADDRESS);
HELD(CS, CS);
HELD(NUM, NUM);
HELD(SCALE, SCALE);
HELD(TG, TG);
HELD(TTL, TTL);
HELD(TTL128, TTL128);
HELD(SIZE, SIZE);
_Static_assert(FIELDS == TAHVENNO_COMMAND_WORDS && COMMAND_WORDS == TAHVENNO_COMMAND_WORDS, "the header has other commands");

enum { SLOT = 16, WRITER_REFUSALS = 3, BATCH_REFUSALS = 7 };

/* What the two calls can be refused with. */
static const uint64_t WRITER_NUMBERS[WRITER_REFUSALS] = {19, 20, 21}, BATCH_NUMBERS[BATCH_REFUSALS] = {1, 2, 3, 4, 20, 21, 22};

static struct {
    uint64_t commands, batches, queue_stores;
    uint64_t empty, full, round, several, largest, late, part;
    uint64_t codes[CODES], batch_codes[CODES];
    uint64_t refused[WRITER_REFUSALS], batch_refused[BATCH_REFUSALS];
} seen;

/* What is to come of a call: the outcome, the queue, and the slots that are written, from the first on and going round; of a batch
 * that is carried out also the store that rings. */
struct due {
    struct outcome outcome;
    uint8_t queue[QUEUE_ROOM];
    size_t first, written, slots;
    int rings;
    struct store ring;
};

/* Whether bytes of the queue lie in slots that are to be written. */
static int in_slots(const struct due *due, const struct queue_store *store) {
    if (store->at < 0 || (size_t)store->at + store->size > SLOT * due->slots) return 0;
    for (size_t slot = (size_t)store->at / SLOT; SLOT * slot < (size_t)store->at + store->size; slot++)
        if ((slot + due->slots - due->first) % due->slots >= due->written) return 0;
    return 1;
}

/* The byte of the queue that its store i is due to go to. */
static size_t byte_due(const struct due *due, size_t i) {
    return SLOT * ((due->first + i / SLOT) % due->slots) + i % SLOT;
}

static void compare_queue_stores(const char *name, const struct trace *trace, const struct due *due) {
    size_t count = due->outcome.returned ? 0 : SLOT * due->written;
    for (size_t i = 0; i < trace->queue_count; i++) {
        const struct queue_store *store = &trace->queue_stores[i];
        if (due->outcome.returned) fail("%s: a store to the queue, byte %td, though it is refused", name, store->at);
        if (!in_slots(due, store))
            fail("%s: a store of %zu bytes to byte %td of the queue, in no slot that is due", name, store->size, store->at);
        if (store->after) fail("%s: a store to the queue, byte %td, after %zu to kept memory", name, store->at, store->after);
        if (i < count && (store->size != 1 || (size_t)store->at != byte_due(due, i)))
            fail("%s: store %zu to the queue is of %zu bytes to byte %td, and should be of 1 to byte %zu", name, i + 1, store->size,
                 store->at, byte_due(due, i));
    }
    if (trace->queue_count != count) fail("%s: %zu stores to the queue, and should be %zu", name, trace->queue_count, count);
    seen.queue_stores += trace->queue_count;
}

/* What a call left, on watched memory or on other. */
static void compare_left(const char *name, const struct input *input, const struct due *due, const struct outcome *outcome,
                         const uint64_t *kept, const uint8_t *queue) {
    if (outcome->returned != due->outcome.returned)
        fail("%s: returned %" PRIu64 ", and should %" PRIu64, name, outcome->returned, due->outcome.returned);
    if (memcmp(outcome, &due->outcome, sizeof *outcome))
        fail("%s: another answer, which begins %" PRIu64, name, outcome->answer[0]);
    for (size_t i = 0; i < input->bytes; i++)
        if (queue[i] != due->queue[i])
            fail("%s: byte %zu of the queue is %02x, and should be %02x", name, i, (unsigned)queue[i], (unsigned)due->queue[i]);
    if (due->rings ? kept[0] != due->ring.value : kept[0] != input->kept[0]) fail("%s: another control word", name);
    if (memcmp(kept + 1, input->kept + 1, 8 * (input->words - 1))) fail("%s: other rows", name);
    if (memcmp(kept + TABLE_AT, input->kept + TABLE_AT, 8 * input->table_words)) fail("%s: another second table", name);
}

/* Makes a call on watched memory, at both alignments, and then on plain memory: first where what a wrong one does is seen. */
static void check_write(const struct input *input, const struct call *call, const struct due *due) {
    const char *name = CALL_NAMES[call->which];
    static uint64_t plain[BOTH];
    static uint8_t queue[QUEUE_ROOM];
    struct outcome outcome;
    for (size_t shift = 0; shift < 2; shift++) {
        struct watched_call watched = {.call = call, .input = input};
        watch_load(input, shift);
        watch_lend(call->commands, call->command_words);
        const struct trace *trace = watch(make_watched, &watched);
        compare_queue_stores(name, trace, due);
        compare_stores(name, trace, &due->ring, (size_t)due->rings);
        compare_left(name, input, due, &watched.outcome, watch_kept(), watch_queue());
        watched_calls++;
        watched_stores += trace->count;
    }
    memcpy(plain, input->kept, sizeof plain);
    memcpy(queue, input->queue, sizeof queue);
    make_call(call, input, plain, queue, &outcome);
    compare_left(name, input, due, &outcome, plain, queue);
    refused_calls[call->which] += outcome.returned != 0;
    done_calls[call->which] += outcome.returned == 0;
}

/* Counts a refusal, which has to be one of those. */
static void count_refusal(enum which which, uint64_t number, const uint64_t *numbers, uint64_t *counts, size_t many) {
    for (size_t i = 0; i < many; i++)
        if (numbers[i] == number) {
            counts[i]++;
            return;
        }
    fail("%s: no such refusal: %" PRIu64, CALL_NAMES[which], number);
}

/* One command into a slot of a queue that is full of anything, with this length and this number as its refusal, or 0. */
static void check_command(struct input *input, const uint64_t fields[FIELDS], uint64_t slot, uint64_t length, uint64_t number) {
    static struct due due;
    struct call call = {.which = WRITE_COMMAND, .row = slot, .argument = length, .commands = fields, .command_words = FIELDS};
    memset(&due, 0, sizeof due);
    due.outcome.returned = number;
    due.slots = input->bytes / SLOT;
    due.first = slot;
    due.written = 1;
    memcpy(due.queue, input->queue, input->bytes);
    if (number) {
        count_refusal(WRITE_COMMAND, number, WRITER_NUMBERS, seen.refused, WRITER_REFUSALS);
    } else {
        put_fields(fields, due.queue + SLOT * slot);
        seen.codes[code_place(fields[CODE])]++;
        seen.commands++;
    }
    check_write(input, &call, &due);
}

/* An accepted image with so many commands that wait from `rd` on, and anything in the queue. */
static void batch_input(struct dice *dice, struct input *input, uint64_t log2size, uint64_t rd, uint64_t wait) {
    uint64_t slots = UINT64_C(1) << log2size;
    any_input(dice, input, SMALL, 8);
    uint64_t flags = input->kept[0] & ~(RD_BITS | RD_BITS << WR_SHIFT | SIZE_BITS << SIZE_SHIFT);
    input->kept[0] = control_word(rd, (rd + wait) % (2 * slots), flags, log2size);
    input->bytes = SLOT * slots;
    for (size_t at = 0; at <= input->bytes; at += SLOT) {
        uint64_t low = roll(dice), high = roll(dice);
        put_command(input->queue + at, low, high);
    }
    uint64_t above = roll(dice); /* bits of no feature, which are not looked at */
    if (above % 2) input->features |= above << 8;
}

/* Each code, with the features that it needs and others; then a length that is wrong, fields that are, and a feature too few. */
static void check_commands(struct dice *dice, int rounds) {
    static const uint64_t lengths[] = {0, 1, 8, 15, 17, 31, 32, 4096, SIZE_MAX, SIZE_MAX - 15};
    static struct input input;
    uint64_t fields[FIELDS];
    for (uint64_t i = 0; i < 200 * (uint64_t)rounds; i++) {
        uint64_t slot = below(dice, UINT64_C(1) << i % 4), without = below(dice, 2) << 1, number; /* all, or all but S2P */
        size_t place = i % CODES;
        batch_input(dice, &input, i % 4, 0, 0);
        if (i / CODES % 2) input.features = 0xFF ^ without;
        input.features |= features_for(place);
        legal_fields(dice, input.features, place, fields);
        check_command(&input, fields, slot, SLOT, 0);
        check_command(&input, fields, slot, lengths[i % 10], 19);
        number = spoilt_fields(dice, input.features, fields);
        check_command(&input, fields, slot, SLOT, number);
        check_command(&input, fields, slot, lengths[i / 2 % 10], 19);
        input.features &= below(dice, 256);
        number = absent_fields(dice, input.features, fields);
        check_command(&input, fields, slot, SLOT, number);
    }
}

/* What is to come of a batch of legal commands, on an accepted image: it fits, or gets 22. */
static void batch_due(const struct input *input, const uint64_t *commands, uint64_t count, struct due *due) {
    uint64_t control = input->kept[0], slots = input->bytes / SLOT, rd = control & RD_BITS, wr = control >> WR_SHIFT & RD_BITS;
    uint64_t wait = (wr + 2 * slots - rd) % (2 * slots), moved = (wr + count) % (2 * slots);
    memset(due, 0, sizeof *due);
    memcpy(due->queue, input->queue, sizeof due->queue);
    due->slots = slots;
    due->first = wr % slots;
    due->written = count;
    due->outcome.returned = count > slots - wait ? 22 : 0;
    due->rings = !due->outcome.returned;
    due->ring = (struct store){0, (control & ~(RD_BITS << WR_SHIFT)) | moved << WR_SHIFT};
    if (!due->rings) return;
    for (uint64_t i = 0; i < count; i++) {
        put_fields(commands + FIELDS * i, due->queue + SLOT * ((wr + i) % slots));
        seen.batch_codes[code_place(commands[FIELDS * i])]++;
    }
    seen.batches++;
    seen.empty += count == 0;
    seen.several += count > 1;
    seen.full += count > 0 && count == slots - wait;
    seen.round += due->first + count > slots;
    seen.largest += count == MOST_SLOTS;
}

/* A batch of legal commands. */
static void check_batch(const struct input *input, const uint64_t *commands, uint64_t count) {
    static struct due due;
    struct call call = {.which = WRITE_BATCH, .commands = commands, .command_words = FIELDS * count};
    batch_due(input, commands, count, &due);
    if (due.outcome.returned) count_refusal(WRITE_BATCH, 22, BATCH_NUMBERS, seen.batch_refused, BATCH_REFUSALS);
    check_write(input, &call, &due);
}

/* A batch that is refused with this number, and answer. */
static void check_refused(const struct input *input, const struct call *call, const struct outcome *outcome) {
    static struct due due;
    memset(&due, 0, sizeof due);
    due.outcome = *outcome;
    memcpy(due.queue, input->queue, sizeof due.queue);
    count_refusal(WRITE_BATCH, outcome->returned, BATCH_NUMBERS, seen.batch_refused, BATCH_REFUSALS);
    check_write(input, call, &due);
}

/* Batches of none, one, a few, all but one and all of the free slots, and one more, into queues of this size with none, one, half,
 * all but one and all of the slots waiting; WR stands anywhere, so that many go round. */
static void check_sizes(struct dice *dice, uint64_t log2size) {
    static struct input input;
    static uint64_t commands[COMMANDS_ROOM];
    uint64_t slots = UINT64_C(1) << log2size, waits[] = {0, 1, slots / 2, slots - 1, slots};
    for (size_t w = 0; w < 5; w++) {
        uint64_t room = slots - waits[w], counts[] = {0, 1, 2, room / 2, room ? room - 1 : 0, room, room + 1, room + 7};
        for (size_t c = 0; c < 8; c++) {
            uint64_t rd = below(dice, 3) ? below(dice, 2 * slots) : 2 * slots - 1;
            batch_input(dice, &input, log2size, rd, waits[w]);
            if (below(dice, 2)) input.features |= 0xFF;
            any_commands(dice, input.features, counts[c], 0, commands);
            check_batch(&input, commands, counts[c]);
        }
    }
}

void check_largest_batches(struct dice *dice, int rounds) {
    static struct input input;
    static uint64_t commands[COMMANDS_ROOM];
    for (int i = 0; i < 2 * rounds; i++) {
        uint64_t more = (uint64_t)i % 2, rd = 1 + below(dice, MOST_SLOTS - 1);
        batch_input(dice, &input, MOST_LOG2SIZE, rd, 0);
        any_commands(dice, input.features, MOST_SLOTS + more, 0, commands);
        check_batch(&input, commands, MOST_SLOTS + more);
    }
}

/* A bad command among legal ones, others behind it that are bad too, or the last one in part; they fit or they do not. */
static void check_bad(struct dice *dice) {
    static struct input input;
    static uint64_t commands[COMMANDS_ROOM];
    uint64_t log2size = below(dice, 5), slots = UINT64_C(1) << log2size, rd = below(dice, 2 * slots), wait = below(dice, slots + 1);
    uint64_t count = 1 + below(dice, 8), bad = below(dice, count), kind = below(dice, 5);
    batch_input(dice, &input, log2size, rd, wait);
    any_commands(dice, input.features, bad, 0, commands);
    any_commands(dice, input.features, count - bad, 1, commands + FIELDS * bad);
    struct outcome outcome = {21, {bad}};
    struct call call = {.which = WRITE_BATCH, .commands = commands, .command_words = FIELDS * count};
    if (kind < 2) outcome.returned = absent_fields(dice, input.features, commands + FIELDS * bad);
    else if (kind < 4) outcome.returned = spoilt_fields(dice, input.features, commands + FIELDS * bad);
    else call.command_words = FIELDS * bad + 1 + below(dice, FIELDS - 1); /* the one that is bad is the last, and not whole */
    seen.late += bad > 0;
    seen.part += kind == 4;
    check_refused(&input, &call, &outcome);
}

/* Images and lengths that are refused, or only look as if they were, with legal commands or a bad one. */
static void check_damaged(struct dice *dice) {
    static struct input input;
    static uint64_t commands[COMMANDS_ROOM], plain[BOTH];
    static uint8_t queue[QUEUE_ROOM];
    struct outcome outcome;
    uint64_t log2size = below(dice, 5), slots = UINT64_C(1) << log2size, rd = below(dice, 2 * slots), count = below(dice, 4);
    batch_input(dice, &input, log2size, rd, 0);
    damage(dice, &input);
    any_commands(dice, input.features, count, below(dice, 2) ? 0 : 2, commands);
    struct call call = {.which = WRITE_BATCH, .commands = commands, .command_words = FIELDS * count};
    memcpy(plain, input.kept, sizeof plain);
    memcpy(queue, input.queue, sizeof queue);
    make_call(&call, &input, plain, queue, &outcome);
    if (outcome.returned) check_refused(&input, &call, &outcome);
    else check_batch(&input, commands, count);
}

void check_writers(struct dice *dice, int rounds) {
    check_commands(dice, rounds);
    for (int i = 0; i < rounds; i++)
        for (uint64_t log2size = 0; log2size < 8; log2size++) check_sizes(dice, log2size);
    for (int i = 0; i < 150 * rounds; i++) {
        check_bad(dice);
        check_damaged(dice);
    }
}

void report_writers(void) {
    printf("stores: %" PRIu64 " commands and %" PRIu64 " batches written, by %" PRIu64
           " stores to the queue of a byte each, in order and before the control word\n",
           seen.commands, seen.batches, seen.queue_stores);
    printf("stores: of the batches %" PRIu64 " are empty, %" PRIu64 " of several commands, %" PRIu64 " fill the queue, %" PRIu64
           " of the largest; %" PRIu64 " go round its end; %" PRIu64 " are refused behind a legal command, %" PRIu64
           " for a part of one\n",
           seen.empty, seen.several, seen.full, seen.largest, seen.round, seen.late, seen.part);
    printf("stores: write_command refused with");
    for (size_t i = 0; i < WRITER_REFUSALS; i++) printf(" %" PRIu64 ": %" PRIu64, WRITER_NUMBERS[i], seen.refused[i]);
    printf("; write_batch with");
    for (size_t i = 0; i < BATCH_REFUSALS; i++) printf(" %" PRIu64 ": %" PRIu64, BATCH_NUMBERS[i], seen.batch_refused[i]);
    printf("\n");
    all_came_up("writers", (const uint64_t *)&seen, sizeof seen / sizeof(uint64_t));
}

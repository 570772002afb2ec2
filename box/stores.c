/* stores [SEED [ROUNDS]]: the stores of the compiled unit, one by one, against the order that document 01 gives, over both tables.
 *
 * What a run has to store is read from what it leaves at allowance 0, 1, 2 and so on: one word differs each time, since clearing
 * a used row, moving RD and flipping GERROR all change the word. At the limits, where that takes too long, it is read from calls
 * of one store each. What either fill, a control call and the calls of the recorder have to store is in their words.
 * Every call is then made on watched memory, and word, value, order and number of the stores that are seen have to be those; a
 * call that is refused, a transaction and the state have to store nothing. The writers are watched in writers.c, and the check of a
 * batch, which stores nothing, in checks.c. Ends with 1 at the first difference, and where a kind of store never came up. */
#include <inttypes.h>
#include <stdarg.h>
#include <stdio.h>
#include <stdlib.h>
#include <string.h>

#include "stores.h"
#include "tahvenno.h"

_Static_assert(MOST_EVENTS == TAHVENNO_MAX_EVENT_N && RECORD_BYTES == TAHVENNO_RECORD_BYTES, "the header has other limits");
_Static_assert(MOST_ROWS == TAHVENNO_MAX_ROWS && MOST_LOG2SIZE == TAHVENNO_MAX_LOG2SIZE, "the header has other limits");

_Static_assert(EL2_MARK == TAHVENNO_EL2 && E2H_MARK == TAHVENNO_EL2_E2H, "the header has other marks");
_Static_assert(HYP_FEATURE == TAHVENNO_HYP && E2H_SETTING == TAHVENNO_E2H, "the header has other features");
_Static_assert(RIL_FEATURE == TAHVENNO_RIL, "the header has another feature for ranges");
_Static_assert(DPT_FEATURE == TAHVENNO_DPT && MOST_REGIONS == TAHVENNO_MAX_REGIONS, "the header has other regions");

/* At how many places a run at the limits is cut. */
enum { PLACES = 1000 };

uint64_t watched_calls, watched_stores, refused_calls[CALLS], done_calls[CALLS];

static uint64_t seed = 1;

static struct {
    uint64_t runs, cut, removed, consumed, raised, several, off, held, empty;
    uint64_t made_pending, left_pending, raised_pending;
    uint64_t fills, cut_fills, same_words, same_controls;
    uint64_t upper_fills, upper_removed, doubled;
    uint64_t el2_fills, e2h_fills, marked_beside, el2_removed, e2h_removed;
    uint64_t ranges, ranges_removed, ranges_several, ranges_of_two;
    uint64_t regions_removed, regions_several, regions_all, regions_by_size, regions_none;
    uint64_t table_fills, cut_table_fills, same_bases;
    uint64_t records, cut_records, same_records, flips, cut_flips, drops;
} seen;

void fail(const char *what, ...) {
    va_list rest;
    va_start(rest, what);
    printf("stores: ");
    vprintf(what, rest);
    printf(" (seed %" PRIu64 ")\n", seed);
    va_end(rest);
    exit(1);
}

void make_watched(void *given) {
    struct watched_call *watched = given;
    struct call call = *watched->call;
    call.commands = watch_commands();
    make_call(&call, watched->input, watch_kept(), watch_queue(), &watched->outcome);
}

void compare_stores(const char *name, const struct trace *trace, const struct store *expected, size_t count) {
    for (size_t i = 0; i < trace->count && i < count; i++) {
        const struct store *is = &trace->stores[i];
        if (is->word != expected[i].word || is->value != expected[i].value)
            fail("%s: store %zu puts %" PRIx64 " in word %zu, and should put %" PRIx64 " in word %zu", name, i + 1, is->value,
                 is->word, expected[i].value, expected[i].word);
    }
    if (trace->complaint[0]) fail("%s: after %zu stores: %s", name, trace->count, trace->complaint);
    if (trace->count != count) fail("%s: %zu stores, and should be %zu", name, trace->count, count);
}

/* Makes a call on plain memory and on watched memory, at both alignments to 16 bytes: the same outcome, the same memory, and the
 * expected stores. */
static void check_call(const struct input *input, const struct call *call, const struct store *expected, size_t count) {
    const char *name = CALL_NAMES[call->which];
    uint64_t plain[BOTH];
    struct outcome outcome;
    memcpy(plain, input->kept, sizeof plain);
    make_call(call, input, plain, input->queue, &outcome);
    for (size_t shift = 0; shift < 2; shift++) {
        struct watched_call watched = {.call = call, .input = input};
        watch_load(input, shift);
        const struct trace *trace = watch(make_watched, &watched);
        compare_stores(name, trace, expected, count);
        if (memcmp(&watched.outcome, &outcome, sizeof outcome)) fail("%s: another outcome on watched memory", name);
        if (memcmp(watch_kept(), plain, 8 * input->words)) fail("%s: other memory where it is watched", name);
        if (memcmp(watch_kept() + TABLE_AT, plain + TABLE_AT, 8 * input->table_words))
            fail("%s: another second table where it is watched", name);
        watched_calls++;
        watched_stores += trace->count;
    }
}

/* How many words a run changed; the last of them, and what is in it now, is the store. */
static size_t changed(const struct input *input, const uint64_t *before, const uint64_t *after, const struct outcome *outcome,
                      struct store *store) {
    size_t differ = 0;
    if (outcome->returned) fail("run: refusal %" PRIu64 " of an image that is well formed", outcome->returned);
    for (size_t i = 0; i < TABLE_AT + input->table_words; i++)
        if (before[i] != after[i]) differ++, *store = (struct store){i, after[i]};
    return differ;
}

/* The stores that a run has to make, from the memory at each allowance. */
static size_t run_stores(const struct input *input, struct store *expected, struct outcome *last) {
    struct call call = {.which = RUN};
    uint64_t before[BOTH], after[BOTH];
    size_t count = 0;
    memcpy(before, input->kept, sizeof before);
    for (call.allowance = 0;; call.allowance++) {
        memcpy(after, input->kept, sizeof after);
        make_call(&call, input, after, input->queue, last);
        size_t differ = changed(input, before, after, last, &expected[count]);
        if (differ != (call.allowance != 0 && count < last->answer[2]))
            fail("run: %zu words differ at allowance %" PRIu64, differ, call.allowance);
        count += differ;
        if (count != last->answer[2]) fail("run: %zu stores, reported %" PRIu64, count, last->answer[2]);
        if (last->answer[0] != TAHVENNO_CUT) return count;
        if (count + 1 == MOST_STORES) fail("run: no end");
        memcpy(before, after, sizeof before);
    }
}

/* The same from calls of one store, each of which goes on where the last was cut. */
static size_t stores_one_by_one(const struct input *input, struct store *expected, struct outcome *last) {
    struct call call = {.which = RUN, .allowance = 1};
    uint64_t before[BOTH], after[BOTH];
    size_t count = 0;
    memcpy(after, input->kept, sizeof after);
    do {
        memcpy(before, after, sizeof before);
        make_call(&call, input, after, input->queue, last);
        size_t differ = changed(input, before, after, last, &expected[count]);
        if (differ != 1 || last->answer[2] != 1) fail("run: %zu words differ at allowance 1", differ);
        count++;
        if (count + 1 == MOST_STORES) fail("run: no end");
    } while (last->answer[0] == TAHVENNO_CUT);
    return count;
}

/* The command at RD. */
static const uint8_t *command_at(const struct input *input, uint64_t control) {
    uint64_t slots = UINT64_C(1) << (control >> SIZE_SHIFT & SIZE_BITS);
    return input->queue + 16 * ((control & RD_BITS) % slots);
}

/* Whether the command at RD asks for an interrupt: CMD_SYNC with CS 1. */
static int signals(const struct input *input, uint64_t control) {
    const uint8_t *slot = command_at(input, control);
    return slot[0] == 0x46 && (slot[1] >> 4 & 3) == 1;
}

/* The rows that the command at RD removed, if it has a range (document 02, T-07); and whether that was of more than a page. */
static void count_range(const struct input *input, uint64_t control, size_t rows) {
    uint64_t first, pages = range_of(command_at(input, control), &first);
    if (!pages) return;
    seen.ranges++;
    seen.ranges_removed += rows;
    seen.ranges_several += rows > 1;
    seen.ranges_of_two += rows > 0 && pages > 1;
}

/* A row of either table is cleared: whether it is a row in use. */
static int clears(const struct store *store, const uint64_t *kept) {
    size_t place = store->word < TABLE_AT ? (store->word - 1) % 4 : (store->word - TABLE_AT) % 2;
    return place == 0 && store->value == 0 && kept[store->word] != 0;
}

/* The rows of the second table that the command at RD removed, beside so many of the kept memory: 70 and 73 alone remove any, and
 * then none of the latter (document 02, T-11). */
static void count_regions(const struct input *input, uint64_t control, size_t rows, size_t regions) {
    uint8_t code = command_at(input, control)[0];
    if ((code == 0x70 || code == 0x73) ? rows : regions) fail("run: code %02x removes rows of the other table", code);
    seen.regions_removed += regions;
    seen.regions_several += regions > 1;
    seen.regions_all += code == 0x70 && regions > 0;
    seen.regions_by_size += code == 0x73 && regions > 0;
    seen.regions_none += code == 0x73 && regions == 0;
}

/* Document 01's order, with no look at what rows a command is about: rows from the lowest up are cleared, first those of the kept
 * memory and then those of the second table, then RD goes forward by one; or the error is raised, and that is the last. The store
 * that moves RD also sets the pending bit if the command asks for an interrupt, and no store of a run clears it (document 02,
 * T-08). */
static void check_order(const struct input *input, const struct store *stores, size_t count, uint64_t end) {
    uint64_t kept[BOTH], control, ring, moved, raised, pending;
    size_t lowest = 1, rows = 0, regions = 0;
    memcpy(kept, input->kept, sizeof kept);
    for (size_t i = 0; i < count; i++) {
        const struct store *store = &stores[i];
        control = kept[0];
        ring = UINT64_C(2) << (control >> SIZE_SHIFT & SIZE_BITS);
        pending = signals(input, control) ? PENDING : 0;
        moved = (control & ~RD_BITS) | ((control & RD_BITS) + 1) % ring | pending;
        raised = (control ^ GERROR) | UINT64_C(1) << ERR_SHIFT;
        if (store->word) {
            if (!clears(store, kept) || store->word < lowest)
                fail("run: store %zu is no clearing of a higher row: word %zu", i + 1, store->word);
            lowest = store->word + 1;
            if (store->word >= TABLE_AT) {
                kept[store->word] = 0;
                regions++;
                continue;
            }
            seen.upper_removed += kept[store->word + 2] >= UPPER_HALF;
            seen.el2_removed += kept[store->word] & EL2_MARK ? 1 : 0;
            seen.e2h_removed += kept[store->word] & E2H_MARK ? 1 : 0;
            rows++;
        } else if (store->value == moved) {
            seen.several += rows > 1;
            count_range(input, control, rows);
            count_regions(input, control, rows, regions);
            seen.removed += rows + regions;
            seen.consumed++;
            seen.made_pending += moved & ~control & PENDING ? 1 : 0;
            seen.left_pending += control & PENDING && !pending;
            rows = regions = 0, lowest = 1;
        } else if (store->value != raised || rows + regions || i + 1 != count || end != TAHVENNO_RAISED) {
            fail("run: store %zu puts %" PRIx64 " over control word %" PRIx64, i + 1, store->value, control);
        } else {
            seen.raised_pending += control & PENDING ? 1 : 0;
        }
        kept[store->word] = store->value;
    }
    if (rows + regions) fail("run: rows were cleared and RD did not move");
}

/* A run at the limits: whole, one store short of it, and cut at places all along it, each call going on where the last was cut. */
static void check_long_run(struct input *input) {
    static struct store expected[MOST_STORES];
    struct outcome last;
    struct call call = {.which = RUN, .allowance = UINT64_MAX};
    size_t count = stores_one_by_one(input, expected, &last), made = 0;
    check_order(input, expected, count, last.answer[0]);
    check_call(input, &call, expected, count);
    call.allowance = count - 1;
    check_call(input, &call, expected, count - 1);
    for (size_t place = 1; place <= PLACES; place++) {
        size_t next = count * place / (PLACES + 1);
        call.allowance = next - made;
        check_call(input, &call, expected + made, next - made);
        for (; made < next; made++) input->kept[expected[made].word] = expected[made].value;
    }
    call.allowance = UINT64_MAX;
    check_call(input, &call, expected + made, count - made);
    seen.cut += PLACES + 1;
    seen.runs++;
}

/* A run at every allowance up to one more than it needs, and at the largest. */
static void check_run(const struct input *input) {
    static struct store expected[MOST_STORES];
    struct outcome last;
    struct call call = {.which = RUN};
    size_t count = run_stores(input, expected, &last);
    check_order(input, expected, count, last.answer[0]);
    for (call.allowance = 0; call.allowance < count; call.allowance++) check_call(input, &call, expected, call.allowance);
    seen.cut += count;
    check_call(input, &call, expected, count);
    call.allowance++;
    check_call(input, &call, expected, count);
    call.allowance = UINT64_MAX;
    check_call(input, &call, expected, count);
    seen.runs++;
    seen.off += last.answer[0] == TAHVENNO_OFF;
    seen.held += last.answer[0] == TAHVENNO_HELD;
    seen.empty += last.answer[0] == TAHVENNO_EMPTY;
    seen.raised += last.answer[0] == TAHVENNO_RAISED;
}

static void check_runs(struct dice *dice, int full, int random) {
    static struct input input;
    for (int i = 0; i < full; i++) {
        full_input(dice, &input, SMALL, 1000);
        check_run(&input);
    }
    full_input(dice, &input, SMALL, 1000); /* only moves of RD, which a compiler might gather */
    for (size_t at = 0; at < input.bytes; at += 16) put_command(input.queue + at, 0x1046, 0);
    check_run(&input);
    input.words = 5;
    check_run(&input);
    for (uint64_t code = 0x20; code <= 0x30; code += 0x10) { /* one command, the first: it takes marked stage rows, or the others */
        full_input(dice, &input, SMALL, 1000);
        put_command(input.queue + input.bytes - 16, code, 0);
        check_run(&input);
    }
    static const uint64_t ranged[] = {0x13, 0x23, 0x2A}; /* likewise the longest range, from either half's first address on */
    for (size_t i = 0; i < 2 * sizeof ranged / sizeof ranged[0]; i++) {
        uint64_t code = ranged[i / 2], first = i % 2 && code != 0x2A ? UPPER_HALF : 0;
        full_input(dice, &input, SMALL, 1000);
        put_command(input.queue + input.bytes - 16, code | UINT64_C(31) << 12 | UINT64_C(31) << 20, first | 3 << 10);
        check_run(&input);
    }
    for (uint64_t size = 0; size < 12; size++) { /* likewise 70, and 73 of each size from 0 on; every row is last-level or none is */
        full_input(dice, &input, SMALL, 1000);
        for (size_t at = TABLE_AT; at < TABLE_AT + input.table_words; at += 2) input.kept[at] ^= (input.kept[at] ^ size << 1) & 2;
        put_command(input.queue + input.bytes - 16, size < 10 ? 0x73 : 0x70, size < 10 ? size << 8 | (size & 1) : 0);
        check_run(&input);
    }
    for (int i = 0; i < random; i++) {
        any_input(dice, &input, SMALL, 1 + below(dice, 64));
        check_run(&input);
    }
    full_input(dice, &input, LARGEST, UINT64_MAX);
    check_long_run(&input);
    spread_input(&input);
    check_long_run(&input);
}

/* Whether a row could answer the same lookup, if neither had a mark. */
static int doubles_unmarked(const uint64_t one[4], const uint64_t other[4]) {
    const uint64_t new[4] = {one[0] & ~MARKS, one[1], one[2], one[3]};
    const uint64_t old[4] = {other[0] & ~MARKS, other[1], other[2], other[3]};
    return doubles(new, old);
}

/* A fill at each allowance, into a row whose other words hold some of the new ones already. Rows that it would double are emptied
 * first. */
static void check_fill(struct dice *dice, struct input *input, const uint64_t new[4], unsigned same) {
    static const uint64_t allowances[] = {0, 1, 2, 3, 4, 5, UINT64_MAX};
    struct call call = {.which = FILL, .row = below(dice, (input->words - 1) / 4)};
    uint64_t *row = input->kept + 1 + 4 * call.row;
    struct store expected[4];
    memcpy(call.w, new, sizeof call.w);
    row[0] = 0;
    for (uint64_t *old = input->kept + 1; old < input->kept + input->words; old += 4) {
        if (doubles(call.w, old)) old[0] = 0;
        seen.marked_beside += doubles_unmarked(call.w, old);
    }
    for (size_t i = 1; i < 4; i++) row[i] = same >> i & 1 ? call.w[i] : ~call.w[i];
    for (size_t i = 0; i < 4; i++) expected[i] = (struct store){1 + 4 * call.row + (i + 1) % 4, call.w[(i + 1) % 4]};
    for (size_t i = 0; i < sizeof allowances / sizeof allowances[0]; i++) {
        call.allowance = allowances[i];
        size_t count = call.allowance < 4 ? call.allowance : 4;
        check_call(input, &call, expected, count);
        for (size_t store = 0; store < count; store++) seen.same_words += same >> (store + 1) % 4 & 1;
        seen.fills++;
        seen.upper_fills += call.w[2] >= UPPER_HALF;
        seen.el2_fills += call.w[0] & EL2_MARK ? 1 : 0;
        seen.e2h_fills += call.w[0] & E2H_MARK ? 1 : 0;
        seen.cut_fills += count < 4;
    }
}

/* A marked row beside rows that are equal to it, and a guest's row beside them: none is doubled (document 02, T-05). */
static void check_marked(struct dice *dice, uint64_t mark) {
    static struct input input;
    uint64_t new[4];
    do any_row(dice, 2, 1, new);
    while (!(new[0] & mark));
    for (int guest = 0; guest < 2; guest++) {
        any_input(dice, &input, LARGEST, 8);
        for (size_t at = 1; at < input.words; at += 4) memcpy(input.kept + at, new, sizeof new);
        if (guest) new[0] &= ~MARKS;
        check_fill(dice, &input, new, 0);
    }
}

static void check_fills(struct dice *dice, int rounds) {
    static struct input input;
    uint64_t new[4];
    for (int i = 0; i < rounds; i++) {
        for (unsigned kind = 0; kind < 4; kind++)
            for (unsigned same = 0; same < 16; same += 2) {
                any_input(dice, &input, LARGEST, 8);
                any_row(dice, kind, i % 2, new);
                check_fill(dice, &input, new, same);
            }
        check_marked(dice, EL2_MARK);
        check_marked(dice, E2H_MARK);
    }
}

/* A fill of the second table at each allowance, into a row whose base is there already, or is not. */
static void check_table_fill(struct dice *dice, struct input *input, int same) {
    static const uint64_t allowances[] = {0, 1, 2, 3, UINT64_MAX};
    struct call call = {.which = TABLE_FILL, .row = below(dice, input->table_words / 2)};
    size_t at = TABLE_AT + 2 * call.row;
    any_region(dice, call.w);
    input->kept[at] = 0;
    input->kept[at + 1] = same ? call.w[1] : ~call.w[1];
    struct store expected[2] = {{at + 1, call.w[1]}, {at, call.w[0]}};
    for (size_t i = 0; i < sizeof allowances / sizeof allowances[0]; i++) {
        call.allowance = allowances[i];
        size_t count = call.allowance < 2 ? call.allowance : 2;
        check_call(input, &call, expected, count);
        seen.table_fills++;
        seen.cut_table_fills += count < 2;
        seen.same_bases += same && count > 0;
    }
    done_calls[TABLE_FILL]++;
}

static void check_table_fills(struct dice *dice, int rounds) {
    static struct input input;
    for (int i = 0; i < 50 * rounds; i++) {
        any_input(dice, &input, LARGEST, 8);
        check_table_fill(dice, &input, i % 2);
    }
}

/* The control word that a control call has to store. */
static uint64_t control_after(const struct call *call, uint64_t control) {
    if (call->which == DOORBELL) return (control & ~(RD_BITS << WR_SHIFT)) | call->argument << WR_SHIFT;
    if (call->which == ACKNOWLEDGE) return (control & ~GERRORN) | (control & GERROR) << 1;
    if (call->which == CLEAR_PENDING) return control & ~PENDING;
    return call->argument ? control | CMDQEN : control & ~CMDQEN;
}

/* Every call but runs, fills of either table, writers and checks, of accepted images: one control store if it is carried out, none if
 * it is refused or only reads. */
static void check_others(struct dice *dice, int rounds) {
    static struct input input;
    struct call call;
    struct outcome outcome;
    uint64_t plain[BOTH];
    for (int i = 0; i < rounds; i++) {
        enum which which = (enum which)(i % WRITE_COMMAND);
        any_input(dice, &input, LARGEST, 8);
        any_call(dice, &input, which, &call);
        if (below(dice, 3) == 0) damage(dice, &input);
        memcpy(plain, input.kept, sizeof plain);
        make_call(&call, &input, plain, input.queue, &outcome);
        if (!outcome.returned && (which <= FILL || which == TABLE_FILL)) continue;
        struct store store = {0, control_after(&call, input.kept[0])};
        int stores = !outcome.returned && which <= CLEAR_PENDING;
        check_call(&input, &call, &store, (size_t)stores);
        refused_calls[which] += outcome.returned != 0;
        seen.doubled += outcome.returned == 11;
        done_calls[which] += outcome.returned == 0;
        seen.same_controls += stores && store.value == input.kept[0];
    }
}

/* The stores that a write of the record has to make: its words, then WR moves; or the flag of a full ring flips, if no overflow is
 * outstanding (document 02, T-01). */
static size_t record_stores(const struct input *input, struct store expected[RECORD_STORES]) {
    uint64_t index = input->kept[0], slots = (input->words - 1) / 4, rd = index & RD_BITS, wr = index >> WR_SHIFT & RD_BITS;
    size_t slot = 1 + 4 * (wr % slots);
    if ((rd ^ wr) == slots) {
        expected[0] = (struct store){0, index ^ OVERFLOW_FLAG};
        return ((index & SEEN_FLAG) >> 1) == (index & OVERFLOW_FLAG);
    }
    for (size_t i = 0; i < 4; i++) {
        expected[i] = (struct store){slot + i, 0};
        for (size_t byte = 8; byte-- > 0;) expected[i].value = expected[i].value << 8 | input->queue[8 * i + byte];
    }
    expected[4] = (struct store){0, (index & ~(RD_BITS << WR_SHIFT)) | (wr + 1) % (2 * slots) << WR_SHIFT};
    return RECORD_STORES;
}

/* A write at each allowance, into a slot that holds some of the record's words already. */
static void check_record(struct dice *dice, struct input *input) {
    static const uint64_t allowances[] = {0, 1, 2, 3, 4, 5, 6, UINT64_MAX};
    struct store expected[RECORD_STORES];
    struct call call = {.which = EVENT_WRITE};
    size_t due = record_stores(input, expected);
    uint64_t same = below(dice, 16);
    for (size_t i = 0; i < 4 && due == RECORD_STORES; i++)
        if (same >> i & 1) input->kept[expected[i].word] = expected[i].value;
    for (size_t i = 0; i < sizeof allowances / sizeof allowances[0]; i++) {
        call.allowance = allowances[i];
        size_t count = call.allowance < due ? call.allowance : due;
        check_call(input, &call, expected, count);
        for (size_t store = 0; store < count && store < 4 && due == RECORD_STORES; store++) seen.same_records += same >> store & 1;
        seen.records += due == RECORD_STORES && count == due;
        seen.cut_records += due == RECORD_STORES && count < due;
        seen.flips += due == 1 && count == 1;
        seen.cut_flips += due == 1 && count == 0;
        seen.drops += due == 0;
    }
    done_calls[EVENT_WRITE]++;
}

/* The index word that reading and acknowledging have to store. */
static uint64_t index_after(enum which which, const struct input *input) {
    uint64_t index = input->kept[0], ring = 2 * ((input->words - 1) / 4);
    if (which == EVENT_READ) return (index & ~RD_BITS) | ((index & RD_BITS) + 1) % ring;
    return (index & ~SEEN_FLAG) | (index & OVERFLOW_FLAG) << 1;
}

/* A call of the recorder that stores the index word, or nothing if it is refused. */
static void check_event(const struct input *input, const struct call *call) {
    struct outcome outcome;
    uint64_t plain[BOTH];
    memcpy(plain, input->kept, sizeof plain);
    make_call(call, input, plain, input->queue, &outcome);
    if (call->which == EVENT_WRITE && !outcome.returned) return;
    struct store store = {0, outcome.returned ? 0 : index_after(call->which, input)};
    check_call(input, call, &store, !outcome.returned);
    refused_calls[call->which] += outcome.returned != 0;
    done_calls[call->which] += outcome.returned == 0;
}

/* Rings of every size, with none, one, nearly all and all slots in use, and every value of the flags; then damaged ones. */
static void check_events(struct dice *dice, int rounds) {
    static struct input input;
    struct call call;
    for (uint64_t i = 0; i < 128 * (uint64_t)rounds; i++) {
        uint64_t n = i % 8, slots = UINT64_C(1) << n, held[] = {0, 1, slots - 1, slots}, rd = below(dice, 2 * slots);
        ring_input(dice, &input, n, rd, held[i / 8 % 4], i / 32 % 4);
        check_record(dice, &input);
        for (enum which which = EVENT_READ; which < CALLS; which++) check_event(&input, &(struct call){.which = which});
    }
    for (int i = 0; i < 200 * rounds; i++) {
        any_ring(dice, &input);
        damage_ring(dice, &input);
        any_event(dice, EVENT_WRITE + (enum which)(i % (CALLS - EVENT_WRITE)), &call);
        check_event(&input, &call);
    }
}

void all_came_up(const char *of, const uint64_t *counts, size_t count) {
    for (size_t i = 0; i < count; i++)
        if (counts[i] == 0) fail("a kind of store or end never came up: %s, counter %zu", of, i);
}

static void report(void) {
    printf("stores: %" PRIu64 " watched calls, %" PRIu64 " stores, each where and when it is due\n", watched_calls, watched_stores);
    printf("stores: %" PRIu64 " runs (%" PRIu64 " off, %" PRIu64 " held, %" PRIu64 " empty, %" PRIu64 " raised) at %" PRIu64
           " allowances that cut: %" PRIu64 " rows removed, %" PRIu64 " commands consumed, %" PRIu64 " of them with several rows\n",
           seen.runs, seen.off, seen.held, seen.empty, seen.raised, seen.cut, seen.removed, seen.consumed, seen.several);
    printf("stores: the pending bit is set by %" PRIu64 " stores that move RD, and left as it is by %" PRIu64 " and by %" PRIu64
           " that raise\n",
           seen.made_pending, seen.left_pending, seen.raised_pending);
    printf("stores: %" PRIu64 " of the commands have a range and remove %" PRIu64 " rows: %" PRIu64 " of them several, %" PRIu64
           " of more than a page some\n",
           seen.ranges, seen.ranges_removed, seen.ranges_several, seen.ranges_of_two);
    printf("stores: %" PRIu64 " fills, %" PRIu64 " of them cut, with %" PRIu64 " words that were there already\n", seen.fills,
           seen.cut_fills, seen.same_words);
    printf("stores: %" PRIu64 " of the rows removed are of the second table, by %" PRIu64 " commands 70 and %" PRIu64
           " 73 (%" PRIu64 " with several), and %" PRIu64 " more 73 remove none; %" PRIu64 " fills of it, %" PRIu64 " of them cut, with %" PRIu64
           " bases that were there already\n",
           seen.regions_removed, seen.regions_all, seen.regions_by_size, seen.regions_several, seen.regions_none, seen.table_fills,
           seen.cut_table_fills, seen.same_bases);
    printf("stores: %" PRIu64 " of the fills and %" PRIu64 " of the rows removed have an address of the upper half\n",
           seen.upper_fills, seen.upper_removed);
    printf("stores: %" PRIu64 " fills are refused since they would double a row\n", seen.doubled);
    printf("stores: %" PRIu64 " and %" PRIu64 " of the fills are of EL2 and of EL2-E2H rows, and %" PRIu64
           " rows would be doubled but for a mark; %" PRIu64 " and %" PRIu64 " such rows are removed\n",
           seen.el2_fills, seen.e2h_fills, seen.marked_beside, seen.el2_removed, seen.e2h_removed);
    for (enum which which = RUN; which < CALLS; which++) {
        if (which > FILL) printf("stores: %s: %" PRIu64 " carried out, ", CALL_NAMES[which], done_calls[which]);
        else done_calls[which] = 1, printf("stores: %s: ", CALL_NAMES[which]);
        printf("%" PRIu64 " refused\n", refused_calls[which]);
    }
    printf("stores: %" PRIu64 " control calls stored what was there already\n", seen.same_controls);
    printf("stores: %" PRIu64 " records stored, %" PRIu64 " cut, with %" PRIu64 " words that were there already; %" PRIu64
           " dropped with a flip, %" PRIu64 " cut before it, %" PRIu64 " dropped without\n",
           seen.records, seen.cut_records, seen.same_records, seen.flips, seen.cut_flips, seen.drops);
    all_came_up("refused calls", refused_calls, CALLS);
    all_came_up("calls carried out", done_calls, CALLS);
    all_came_up("stores", (const uint64_t *)&seen, sizeof seen / sizeof(uint64_t));
}

int main(int argc, char **argv) {
    struct dice dice, own, table, writers, checks;
    int rounds = argc > 2 ? atoi(argv[2]) : 8;
    if (argc > 1) seed = strtoull(argv[1], NULL, 0);
    dice.state = seed;
    own.state = ~seed; /* so that the other inputs stay as they were without the recorder, the second table, the writers, the check */
    table.state = seed << 32;
    writers.state = ~seed << 32;
    checks.state = seed << 48;
    watch_start();
    check_writers(&writers, rounds);
    check_checks(&checks, rounds);
    check_events(&own, rounds);
    check_table_fills(&table, rounds);
    check_fills(&dice, rounds);
    check_others(&dice, 2000 * rounds);
    check_runs(&dice, rounds, 80 * rounds);
    check_largest_batches(&writers, rounds);
    report();
    report_writers();
    report_checks();
    return 0;
}

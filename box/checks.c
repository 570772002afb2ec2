/* The check of a batch (document 02, T-12), watched like the other calls (stores.c): whatever it says, and whatever it is refused
 * with, it stores nothing at all, neither to kept memory nor to the second table nor to a batch, not even what is there already.
 * What it says is the same on watched memory and on other; that it is right is not looked at here. */
#include <inttypes.h>
#include <stdio.h>
#include <string.h>

#include "stores.h"
#include "tahvenno.h"

enum { REFUSALS = 6 };

static const uint64_t NUMBERS[REFUSALS] = {1, 2, 3, 13, 14, 23};

static struct {
    uint64_t yes, original, proposed, rows, regions; /* what was said, and whose row differs */
    uint64_t empty, same, shorter, longer, largest;  /* batches: none at all, the same bytes, proposals of another length */
    uint64_t off, held;                              /* the queue, which has no part in it */
    uint64_t refused[REFUSALS];
} seen;

static void count_refusal(uint64_t number) {
    for (size_t i = 0; i < REFUSALS; i++)
        if (NUMBERS[i] == number) {
            seen.refused[i]++;
            return;
        }
    fail("check_batch: no such refusal: %" PRIu64, number);
}

static void count(const struct input *input, const struct call *call, const struct outcome *outcome) {
    const uint8_t *bytes = (const uint8_t *)call->commands;
    uint64_t one = call->w[0], other = call->w[1], control = input->kept[0], says = outcome->answer[0];
    refused_calls[CHECK_BATCH] += outcome->returned != 0;
    done_calls[CHECK_BATCH] += outcome->returned == 0;
    if (outcome->returned) {
        count_refusal(outcome->returned);
        return;
    }
    if (says > 2) fail("check_batch: no such answer: %" PRIu64, says);
    seen.yes += says == 0;
    seen.original += says == 1 && outcome->answer[1] == 0;
    seen.proposed += says == 1 && outcome->answer[1] == 1;
    seen.rows += says == 2 && outcome->answer[1] < (input->words - 1) / 4;
    seen.regions += says == 2 && outcome->answer[1] >= (input->words - 1) / 4;
    seen.empty += one + other == 0;
    seen.same += one && one == other && !memcmp(bytes + call->row, bytes + call->argument, one);
    seen.shorter += other < one;
    seen.longer += other > one;
    seen.largest += one >= 16 * MOST_SLOTS / 2;
    seen.off += !(control & CMDQEN);
    seen.held += (control & GERROR) >> 47 != (control & GERRORN) >> 48;
}

/* Makes a check on watched memory, at both alignments, and then on plain memory. */
static void check_check(const struct input *input, const struct call *call) {
    static uint64_t plain[BOTH], commands[COMMANDS_ROOM];
    struct outcome outcome;
    memcpy(plain, input->kept, sizeof plain);
    memcpy(commands, call->commands, 8 * call->command_words);
    for (size_t shift = 0; shift < 2; shift++) {
        struct watched_call watched = {.call = call, .input = input};
        watch_load(input, shift);
        watch_lend(call->commands, call->command_words);
        const struct trace *trace = watch(make_watched, &watched);
        compare_stores("check_batch", trace, NULL, 0);
        if (trace->queue_count) fail("check_batch: a store to the queue, byte %td", trace->queue_stores[0].at);
        if (memcmp(watch_kept(), plain, 8 * input->words)) fail("check_batch: other memory where it is watched");
        if (memcmp(watch_kept() + TABLE_AT, plain + TABLE_AT, 8 * input->table_words)) fail("check_batch: another second table");
        if (memcmp(watch_commands(), commands, 8 * call->command_words)) fail("check_batch: other batches");
        if (shift && memcmp(&watched.outcome, &outcome, sizeof outcome)) fail("check_batch: another outcome at another place");
        outcome = watched.outcome;
        watched_calls++;
    }
    struct outcome again;
    make_call(call, input, plain, input->queue, &again);
    if (memcmp(&again, &outcome, sizeof again)) fail("check_batch: another outcome on watched memory");
    if (memcmp(plain, input->kept, sizeof plain)) fail("check_batch: other memory");
    if (memcmp(commands, call->commands, 8 * call->command_words)) fail("check_batch: other batches");
    count(input, call, &outcome);
}

void check_checks(struct dice *dice, int rounds) {
    static struct input input;
    for (int i = 0; i < 300 * rounds; i++) {
        struct call call = {.which = CHECK_BATCH};
        any_input(dice, &input, i % 8 ? SMALL : LARGEST, 8);
        if (below(dice, 2)) input.features |= 0x7F;
        any_batches(dice, &input, i % 16 ? 64 : MOST_SLOTS, &call);
        if (below(dice, 4) == 0) damage(dice, &input);
        check_check(&input, &call);
    }
}

void report_checks(void) {
    printf("stores: of %" PRIu64 " checks of batches none stores anything: %" PRIu64 " say yes, %" PRIu64 " and %" PRIu64
           " name a command of the original and of the proposal, %" PRIu64 " a row, %" PRIu64 " a row of the second table\n",
           done_calls[CHECK_BATCH], seen.yes, seen.original, seen.proposed, seen.rows, seen.regions);
    printf("stores: %" PRIu64 " of them without commands, %" PRIu64 " of a batch beside itself, %" PRIu64 " and %" PRIu64
           " with a shorter and a longer proposal; refused with",
           seen.empty, seen.same, seen.shorter, seen.longer);
    for (size_t i = 0; i < REFUSALS; i++) printf(" %" PRIu64 ": %" PRIu64, NUMBERS[i], seen.refused[i]);
    printf("\n");
    all_came_up("checks", (const uint64_t *)&seen, sizeof seen / sizeof(uint64_t));
}

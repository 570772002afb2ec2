#define _GNU_SOURCE
#include "watch.h"

#include <setjmp.h>
#include <signal.h>
#include <stdio.h>
#include <stdlib.h>
#include <string.h>
#include <sys/mman.h>
#include <unistd.h>

/* Kept memory begins on the second page; what lies before and after it and the second table is watched too. Then come the pages of
 * the queue, and of the commands. */
enum { PAGE = 4096, KEPT_AT = PAGE, KEPT_PAGES = 8 * BOTH / PAGE + 2, QUEUE_PAGES = QUEUE_ROOM / PAGE + 1 };
enum { QUEUE_AT = KEPT_AT + KEPT_PAGES * PAGE, COMMANDS_AT = QUEUE_AT + QUEUE_PAGES * PAGE };
enum { WHOLE = COMMANDS_AT + (8 * COMMANDS_ROOM / PAGE + 1) * PAGE };

static unsigned char *lent, *written; /* the same memory, read-only and writable */
static size_t kept_at, kept_words, table_words, queue_at;
static int queue_lent; /* to be written */
static struct trace trace;
static sigjmp_buf leave;
static volatile sig_atomic_t watching;

static void give_up(const char *what) {
    perror(what);
    exit(2);
}

static void complain(const char *why, size_t offset, const unsigned char *code) {
    int at = snprintf(trace.complaint, sizeof trace.complaint, "%s, byte %zd of kept memory, instruction", why,
                      (ptrdiff_t)(offset - kept_at));
    for (int i = 0; i < 8; i++) at += snprintf(trace.complaint + at, sizeof trace.complaint - (size_t)at, " %02x", code[i]);
    siglongjmp(leave, 1);
}

/* Whether a word is one that was lent: of kept memory, or of the second table. */
static int is_lent(size_t word) {
    return word < kept_words || (word >= TABLE_AT && word < TABLE_AT + table_words);
}

/* A store to kept memory or to the second table. */
static void take_word(size_t offset, const struct decoded *store, const unsigned char *code) {
    if (offset < kept_at || (offset - kept_at) % 8 || !is_lent((offset - kept_at) / 8))
        complain("not a word of kept memory", offset, code);
    if (trace.count == MOST_STORES) complain("stores without end", offset, code);
    trace.stores[trace.count] = (struct store){.word = (offset - kept_at) / 8};
    memcpy(&trace.stores[trace.count++].value, store->bytes, 8);
}

/* A store to the queue, or beside it. */
static void take_bytes(size_t offset, const struct decoded *store, const unsigned char *code) {
    size_t most = sizeof trace.queue_stores / sizeof trace.queue_stores[0];
    if (offset + store->size > COMMANDS_AT) complain("a store to the commands", offset, code);
    if (trace.queue_count == most) complain("stores without end", offset, code);
    trace.queue_stores[trace.queue_count++] = (struct queue_store){(ptrdiff_t)(offset - queue_at), store->size, trace.count};
}

static void on_fault(int signal_number, siginfo_t *info, void *context) {
    size_t offset = (size_t)((unsigned char *)info->si_addr - lent);
    const unsigned char *code = instruction_at(context);
    struct decoded store;
    if (!watching || offset >= WHOLE) { /* no business of this handler: the fault comes again and ends the process */
        signal(signal_number, SIG_DFL);
        return;
    }
    if (offset >= COMMANDS_AT) complain("a store to the commands", offset, code);
    int to_queue = offset >= QUEUE_AT;
    if (to_queue && !queue_lent) complain("a store to the queue", offset, code);
    if (!decode_store(context, &store)) complain(to_queue ? "not a known store" : "not a plain 64-bit store", offset, code);
    if (!to_queue && !store.plain) complain("not a plain 64-bit store", offset, code);
    if ((uintptr_t)info->si_addr - store.address >= (to_queue ? store.size : 1))
        complain("decoded and faulting address differ", offset, code);
    offset = store.address - (uintptr_t)lent;
    if (to_queue) take_bytes(offset, &store, code);
    else take_word(offset, &store, code);
    memcpy(written + offset, store.bytes, store.size);
}

void watch_start(void) {
    struct sigaction action = {.sa_sigaction = on_fault, .sa_flags = SA_SIGINFO};
    int memory = memfd_create("kept", 0);
    if (memory < 0 || ftruncate(memory, WHOLE)) give_up("memfd");
    lent = mmap(NULL, WHOLE, PROT_READ, MAP_SHARED, memory, 0);
    written = mmap(NULL, WHOLE, PROT_READ | PROT_WRITE, MAP_SHARED, memory, 0);
    if (lent == MAP_FAILED || written == MAP_FAILED) give_up("mmap");
    if (sigaction(SIGSEGV, &action, NULL)) give_up("sigaction");
}

void watch_load(const struct input *input, size_t shift) {
    kept_at = KEPT_AT + 8 * shift;
    queue_at = QUEUE_AT + shift;
    queue_lent = 0;
    kept_words = input->words;
    table_words = input->table_words;
    memcpy(written + kept_at, input->kept, 8 * input->words);
    memcpy(written + kept_at + 8 * TABLE_AT, input->kept + TABLE_AT, 8 * input->table_words);
    memcpy(written + queue_at, input->queue, input->bytes);
}

void watch_lend(const uint64_t *commands, size_t command_words) {
    queue_lent = 1;
    memcpy(written + COMMANDS_AT, commands, 8 * command_words);
}

uint64_t *watch_kept(void) {
    return (uint64_t *)(void *)(lent + kept_at);
}

const uint8_t *watch_queue(void) {
    return lent + queue_at;
}

const uint64_t *watch_commands(void) {
    return (const uint64_t *)(const void *)(lent + COMMANDS_AT);
}

const struct trace *watch(void (*call)(void *), void *argument) {
    trace.count = trace.queue_count = 0;
    trace.complaint[0] = 0;
    if (!sigsetjmp(leave, 1)) {
        watching = 1;
        call(argument);
    }
    watching = 0;
    return &trace;
}

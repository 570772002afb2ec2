/* Writers of commands whose stores are wrong (wrong.c). */
#include <string.h>

#include "tahvenno.h"
#include "wrong.h"

enum { SLOT = 16 };

/* How a slot's bytes are stored: one by one, as they are due; by two, four or eight; all at once, from a pair of registers where
 * there is one, or a vector; the last byte first; and the last one twice. */
enum way { DUE, BY_TWO, BY_FOUR, BY_EIGHT, PAIRED, WHOLE, BACKWARDS, AGAIN };

typedef uint16_t loose16 __attribute__((aligned(1), may_alias));
typedef uint32_t loose32 __attribute__((aligned(1), may_alias));
typedef uint64_t loose64 __attribute__((aligned(1), may_alias));

static enum way command_way(void) {
    if (fault("command-by-two")) return BY_TWO;
    if (fault("command-by-four")) return BY_FOUR;
    if (fault("command-by-eight")) return BY_EIGHT;
    if (fault("command-paired")) return PAIRED;
    if (fault("command-whole")) return WHOLE;
    if (fault("command-backwards")) return BACKWARDS;
    return fault("command-again") ? AGAIN : DUE;
}

static enum way batch_way(void) {
    if (fault("batch-by-two")) return BY_TWO;
    if (fault("batch-by-four")) return BY_FOUR;
    if (fault("batch-by-eight")) return BY_EIGHT;
    if (fault("batch-paired")) return PAIRED;
    if (fault("batch-whole")) return WHOLE;
    if (fault("batch-backwards")) return BACKWARDS;
    return fault("batch-again") ? AGAIN : DUE;
}

/* A slot's bytes from `at` on, by one store of this width. */
static void put_at(uint8_t *slot, const uint8_t *bytes, size_t at, size_t width) {
    uint64_t value = 0;
    memcpy(&value, bytes + at, width);
    if (width == 1) *(volatile uint8_t *)(slot + at) = (uint8_t)value;
    else if (width == 2) *(volatile loose16 *)(void *)(slot + at) = (uint16_t)value;
    else if (width == 4) *(volatile loose32 *)(void *)(slot + at) = (uint32_t)value;
    else *(volatile loose64 *)(void *)(slot + at) = value;
}

static void put_whole(uint8_t *slot, const uint8_t *bytes, int paired) {
    uint64_t halves[2];
    memcpy(halves, bytes, SLOT);
#ifdef __aarch64__
    if (paired) {
        __asm__ volatile("stp %0, %1, [%2]" : : "r"(halves[0]), "r"(halves[1]), "r"(slot) : "memory");
        return;
    }
#endif
    (void)paired;
    both((uint64_t *)(void *)slot, 0, halves[0], halves[1]);
}

static void put_slot(uint8_t *slot, const uint8_t *bytes, enum way way) {
    size_t width = way <= BY_EIGHT ? (size_t)1 << way : 1;
    if (way == PAIRED || way == WHOLE) {
        put_whole(slot, bytes, way == PAIRED);
        return;
    }
    for (size_t at = 0; at < SLOT; at += width) put_at(slot, bytes, way == BACKWARDS ? SLOT - 1 - at : at, width);
    if (way == AGAIN) put_at(slot, bytes, SLOT - 1, 1);
}

static void put_swapped(uint8_t *slot, const uint8_t *bytes) {
    uint8_t turned[SLOT];
    memcpy(turned, bytes + SLOT / 2, SLOT / 2);
    memcpy(turned + SLOT / 2, bytes, SLOT / 2);
    put_slot(slot, turned, DUE);
}

/* Only the bytes that are not 0, as into a slot that was cleared. */
static void put_sparing(uint8_t *slot, const uint8_t *bytes) {
    for (size_t i = 0; i < SLOT; i++)
        if (bytes[i]) *(volatile uint8_t *)(slot + i) = bytes[i];
}

static void put_but_last(uint8_t *slot, const uint8_t *bytes) {
    for (size_t i = 0; i + 1 < SLOT; i++) *(volatile uint8_t *)(slot + i) = bytes[i];
}

/* A byte once more, as it is. */
static void touch(const uint8_t *byte) {
    *(volatile uint8_t *)(uintptr_t)byte = *byte;
}

uint64_t __real_tahvenno_write_command(uint8_t *, size_t, const uint64_t *, uint64_t, uint64_t *);
uint64_t __wrap_tahvenno_write_command(uint8_t *slot, size_t bytes, const uint64_t fields[16], uint64_t features,
                                       uint64_t answer[8]) {
    uint8_t copy[SLOT];
    uint64_t returned = __real_tahvenno_write_command(copy, bytes, fields, features, answer);
    if (returned == 19 && bytes > SLOT && fault("command-any-length")) touch(slot);
    if (returned > 19 && fault("command-refused")) touch(slot);
    if (returned) return returned;
    if (fault("command-sparing")) put_sparing(slot, copy);
    else if (fault("command-swapped")) put_swapped(slot, copy);
    else put_slot(slot, copy, command_way());
    if (fault("command-beyond")) touch(slot + SLOT);
    if (fault("command-fields")) *(volatile uint64_t *)(uintptr_t)fields = fields[0];
    return 0;
}

/* A batch that is to be written, from its first slot on; `bytes` are the queue after it, and `ring` the control word. */
struct batch {
    uint64_t *kept;
    size_t words;
    uint8_t *queue;
    const uint8_t *bytes;
    size_t slots, first, count;
    uint64_t ring;
};

static struct batch batch_of(uint64_t *kept, size_t words, uint8_t *queue, const uint8_t *bytes, size_t count, uint64_t ring) {
    size_t slots = (size_t)1 << (kept[0] >> SIZE_SHIFT & SIZE_BITS);
    return (struct batch){kept, words, queue, bytes, slots, (kept[0] >> WR_SHIFT & RD_BITS) % slots, count, ring};
}

/* WR is in three bytes of the control word, which a compiler might store alone. */
static void store_ring(const struct batch *batch) {
    if (fault("batch-ring-spared") && batch->kept[0] == batch->ring) return;
    if (fault("batch-ring-in-halves")) in_halves(batch->kept, 0, batch->ring);
    else if (fault("batch-ring-narrow")) *(volatile uint32_t *)(void *)batch->kept = (uint32_t)batch->ring;
    else if (fault("batch-ring-forgets")) store(batch->kept, 0, batch->ring & ~PENDING);
    else store(batch->kept, 0, batch->ring);
}

/* The control word after the first so many commands. */
static void ring_part(const struct batch *batch, size_t count) {
    uint64_t wr = batch->kept[0] >> WR_SHIFT & RD_BITS, moved = (wr + count) % (2 * batch->slots);
    store(batch->kept, 0, (batch->kept[0] & ~(RD_BITS << WR_SHIFT)) | moved << WR_SHIFT);
}

static void put_batch(const struct batch *batch, size_t count) {
    for (size_t i = 0; i < count; i++) {
        size_t next = batch->first + (fault("batch-last-first") ? count - 1 - i : i), slot = next % batch->slots, from = slot;
        if (fault("batch-swapped") && count > 1 && i < 2) from = (batch->first + 1 - i) % batch->slots;
        uint8_t *to = batch->queue + SLOT * (fault("batch-not-round") ? next : slot);
        const uint8_t *bytes = batch->bytes + SLOT * from;
        if (fault("batch-rings-between") && i > 0 && i + 1 == count) store_ring(batch);
        if (fault("batch-sparing")) put_sparing(to, bytes);
        else if (fault("batch-last-byte") && i + 1 == count) put_but_last(to, bytes);
        else put_slot(to, bytes, batch_way());
        if (fault("batch-rings-each")) ring_part(batch, 1);
    }
}

/* As a unit would that works on a copy of everything: what is not of the batch is stored as it was. */
static void write_back(const struct batch *batch) {
    if (fault("batch-queue-back"))
        for (size_t slot = batch->first + batch->count; slot < batch->first + batch->slots; slot++)
            put_slot(batch->queue + SLOT * (slot % batch->slots), batch->bytes + SLOT * (slot % batch->slots), DUE);
    if (fault("batch-rows-back"))
        for (size_t at = 1; at < batch->words; at++) store(batch->kept, at, batch->kept[at]);
}

static void store_batch(const struct batch *batch, const uint64_t *commands) {
    size_t last = SLOT * ((batch->first + batch->count + batch->slots - 1) % batch->slots) + SLOT - 1;
    if (fault("batch-rings-first")) store_ring(batch);
    put_batch(batch, batch->count);
    write_back(batch);
    if (fault("batch-next-slot") && batch->count < batch->slots)
        touch(batch->queue + SLOT * ((batch->first + batch->count) % batch->slots));
    if (fault("batch-beyond")) *(volatile uint8_t *)(batch->queue + SLOT * batch->slots) = 0;
    if (fault("batch-row")) store(batch->kept, batch->words - 1, batch->kept[batch->words - 1]);
    if (fault("batch-commands")) *(volatile uint64_t *)(uintptr_t)commands = commands[0];
    if (fault("batch-rings-first") || (fault("batch-rings-each") && batch->count)) return;
    store_ring(batch);
    if (fault("batch-rings-twice")) store_ring(batch);
    if (fault("batch-row-behind")) store(batch->kept, 1, batch->kept[1]);
    if (fault("batch-byte-behind") && batch->count) touch(batch->queue + last);
    if (fault("batch-last-byte") && batch->count) *(volatile uint8_t *)(batch->queue + last) = batch->bytes[last];
}

uint64_t __real_tahvenno_write_batch(uint64_t *, size_t, uint8_t *, size_t, const uint64_t *, size_t, uint64_t, uint64_t *);

/* A refused batch: what a unit might write of it all the same, those before the bad command or those that fit. */
static void store_refused(uint64_t *kept, size_t words, uint8_t *queue, size_t bytes, const uint64_t *commands, uint64_t features,
                          uint64_t returned, uint64_t bad) {
    static uint64_t copy[BOTH];
    static uint8_t after[QUEUE_ROOM];
    uint64_t answer[8], slots = bytes / SLOT, wait = (kept[0] >> WR_SHIFT) - kept[0];
    size_t count = returned == 22 ? slots - wait % (2 * slots) : bad;
    if (returned == 22 && fault("batch-rings-refused")) store(kept, 0, kept[0]);
    if (!(returned == 22 ? fault("batch-what-fits") : fault("batch-until-bad")) || !count) return;
    memcpy(copy, kept, 8 * words);
    memcpy(after, queue, bytes);
    if (__real_tahvenno_write_batch(copy, words, after, bytes, commands, TAHVENNO_COMMAND_WORDS * count, features, answer)) return;
    struct batch batch = batch_of(kept, words, queue, after, count, copy[0]);
    put_batch(&batch, count);
}

uint64_t __wrap_tahvenno_write_batch(uint64_t *kept, size_t words, uint8_t *queue, size_t bytes, const uint64_t *commands,
                                     size_t command_words, uint64_t features, uint64_t answer[8]) {
    static uint64_t copy[BOTH];
    static uint8_t after[QUEUE_ROOM];
    memcpy(copy, kept, 8 * words);
    memcpy(after, queue, bytes);
    uint64_t returned = __real_tahvenno_write_batch(copy, words, after, bytes, commands, command_words, features, answer);
    if (returned >= 20) store_refused(kept, words, queue, bytes, commands, features, returned, answer[0]);
    if (returned == 4 && fault("batch-refused")) touch(queue);
    if (returned) return returned;
    struct batch batch = batch_of(kept, words, queue, after, command_words / TAHVENNO_COMMAND_WORDS, copy[0]);
    store_batch(&batch, commands);
    return 0;
}

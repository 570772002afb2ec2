/* Faults. Each is recorded by the unit first, in the mapped file, and then read out into the guest's event queue. */
#include "parts.h"
#include "hw/irq.h"
#include "sysemu/dma.h"

#define WORDS TAHVENNO_EVENT_WORDS(EVENTS_N)
enum { OVERFLOW_BIT = 31, RECORD_WORDS = TAHVENNO_RECORD_BYTES / 8 };

bool quiet;

static uint64_t index_of(uint64_t part) {
    return TAHVENNO_GET(part, known.events[0]);
}

/* The oldest record goes to the guest before it leaves the recorder: if power goes between the two it comes once more, and is never
 * lost. */
static bool read_one(SMMUv3State *s) {
    uint64_t oldest = index_of(TAHVENNO_EVENT_RD) & TAHVENNO_BITS(EVENTS_N, 0) >> 1;
    const uint64_t *slot = known.events + 1 + RECORD_WORDS * oldest; /* behind the index word */
    uint64_t answer[TAHVENNO_ANSWER_WORDS], words[RECORD_WORDS];
    MemTxResult result;
    for (int i = 0; i < RECORD_WORDS; i++) words[i] = cpu_to_le64(slot[i]);
    result = dma_memory_write(&address_space_memory, Q_PROD_ENTRY(&s->eventq), words, sizeof words, MEMTXATTRS_UNSPECIFIED);
    if (result == MEMTX_OK) queue_prod_incr(&s->eventq);
    state_must(tahvenno_event_read(known.events, WORDS, answer), "an event read");
    watch_count(EVENTS_READ, 1);
    return result == MEMTX_OK;
}

/* As far as the guest's queue has room; false if the guest's memory does not take them. */
bool recorder_read_out(SMMUv3State *s) {
    bool any = false, taken = true;
    while (index_of(TAHVENNO_EVENT_RD) != index_of(TAHVENNO_EVENT_WR) && smmuv3_eventq_enabled(s) && !smmuv3_q_full(&s->eventq)) {
        taken &= read_one(s);
        any = true;
    }
    s->eventq.prod = deposit32(s->eventq.prod, OVERFLOW_BIT, 1, index_of(TAHVENNO_EVENT_OVERFLOW));
    if (any && smmuv3_eventq_irq_enabled(s)) qemu_irq_pulse(s->irq[SMMU_IRQ_EVTQ]);
    return taken;
}

bool glue_event(SMMUv3State *s, const struct Evt *evt) {
    uint8_t record[TAHVENNO_RECORD_BYTES];
    uint64_t answer[TAHVENNO_ANSWER_WORDS];
    bool cut;
    if (quiet) return true;
    watch_count(FAULTS, 1);
    for (int i = 0; i < ARRAY_SIZE(evt->word); i++) stl_le_p(record + 4 * i, evt->word[i]);
    do { /* a record that may be there already is written again: twice is better than never */
        uint64_t allowance = cuts_allowance(TAHVENNO_RECORD_STORES);
        state_must(tahvenno_event_write(known.events, WORDS, record, allowance, answer), "an event write");
        cut = answer[0] == TAHVENNO_EVENT_CUT;
        watch_count(CUTS_OF_EVENTS, cut);
        watch_count(EVENTS, answer[0] == TAHVENNO_EVENT_STORED);
        watch_count(EVENTS_DROPPED, answer[0] == TAHVENNO_EVENT_DROPPED);
        cut = cut || cuts_after();
        if (cut) state_restart(s);
    } while (cut);
    return recorder_read_out(s);
}

/* The guest wrote EVENTQ_CONS: it has read, and may have seen that records were dropped. */
void glue_event_room(SMMUv3State *s) {
    static uint32_t before; /* for the count alone */
    uint64_t answer[TAHVENNO_ANSWER_WORDS];
    if (!glue_on()) return;
    watch_count(EVENTS_TAKEN, (s->eventq.cons - before) & WRAP_INDEX_MASK(&s->eventq));
    before = s->eventq.cons;
    if (index_of(TAHVENNO_EVENT_OVERFLOW) != index_of(TAHVENNO_EVENT_ACKNOWLEDGED) &&
        extract32(s->eventq.cons, OVERFLOW_BIT, 1) == index_of(TAHVENNO_EVENT_OVERFLOW))
        state_must(tahvenno_event_acknowledge(known.events, WORDS, answer), "an event acknowledge");
    recorder_read_out(s);
}

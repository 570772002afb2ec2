/* The command queue. Every command is consumed by a run of the unit, on a private copy of the guest's queue. The kept control
 * word is the truth; QEMU's registers are what the guest asks for, and once the unit has done it say what the control word says. */
#include "parts.h"
#include "qemu/log.h"
#include "hw/irq.h"
#include "exec/address-spaces.h"
#include "sysemu/dma.h"

#define INDEX(s) TAHVENNO_BITS((s)->cmdq.log2size, 0) /* slot and wrap bit */
#define MSI_ADDRESS TAHVENNO_BITS(55, 2)              /* where a CMD_SYNC has it, in its upper half */
#define IDR0_MSI 13                                   /* for which QEMU has no name */
#define QUEUE_BYTES TAHVENNO_QUEUE_BYTES(control(TAHVENNO_LOG2SIZE))
#define TABLE_WORDS TAHVENNO_TABLE_WORDS(REGIONS)

/* A message may land in the SMMU's own registers. No run may come before what is owed is told, so these writes start none. */
static bool telling;

static bool error_active(void) {
    return control(TAHVENNO_GERROR) != control(TAHVENNO_GERRORN);
}

static uint8_t *slot_of(uint64_t index) {
    return known.queue + TAHVENNO_SLOT_BYTES * (index & TAHVENNO_BITS(control(TAHVENNO_LOG2SIZE), 0) >> 1);
}

static uint64_t next_index(uint64_t index) {
    return (index + 1) & TAHVENNO_BITS(control(TAHVENNO_LOG2SIZE), 0);
}

/* TAHVENNO_ILLEGAL: the CMD_SYNC of that number is copied with CS 3, which is illegal, so that the guest meets an error. */
static void spoil(uint8_t *slot) {
    static uint64_t syncs;
    const char *which = getenv("TAHVENNO_ILLEGAL");
    if (which && slot[0] == SMMU_CMD_SYNC && ++syncs == strtoull(which, NULL, 10)) slot[1] |= 0x30;
}

/* The slots from RD up to the guest's PROD. Where the guest's memory does not answer a slot is all zero, which is no command: the
 * unit has no CERROR_ABT. */
static void copy_slots(SMMUv3State *s) {
    uint64_t i = control(TAHVENNO_RD), end = s->cmdq.prod & INDEX(s);
    uint64_t waiting = (end - i) & INDEX(s);
    if (waiting > TAHVENNO_BITS(s->cmdq.log2size, 0) / 2 + 1) return; /* the doorbell will be refused */
    for (; waiting; waiting--, i = next_index(i)) {
        uint8_t *slot = slot_of(i);
        hwaddr from = Q_BASE(&s->cmdq) + (slot - known.queue);
        if (dma_memory_read(&address_space_memory, from, slot, TAHVENNO_SLOT_BYTES, MEMTXATTRS_UNSPECIFIED) != MEMTX_OK)
            memset(slot, 0, TAHVENNO_SLOT_BYTES);
        spoil(slot);
    }
}

/* One call; false if power went in it. */
bool queue_run(SMMUv3State *s) {
    uint64_t answer[TAHVENNO_ANSWER_WORDS];
    uint64_t allowance = cuts_allowance(TAHVENNO_MAX_STORES), refused;
    bool cut;
    watch_before_run();
    refused = (getenv("TAHVENNO_ORDER") ? wrong_run : tahvenno_run)(known.kept, known.words, known.table, TABLE_WORDS, known.queue,
                                                                    QUEUE_BYTES, FEATURES, allowance, answer);
    state_must(refused, "a run");
    cut = answer[0] == TAHVENNO_CUT;
    watch_count(CUTS_OF_RUNS, cut);
    watch_count(REMOVED, answer[3]);
    watch_count(RAISED, answer[0] == TAHVENNO_RAISED);
    watch_after_run(cut);
    if (cut || cuts_after()) return false;
    if (answer[0] == TAHVENNO_RAISED) queue_show_error(s);
    return true;
}

/* GERROR shows the error to the guest. After a restart it may be shown once more: the run that raised it may not have returned. */
void queue_show_error(SMMUv3State *s) {
    if (!error_active()) return;
    queue_mirror(s);
    if (smmuv3_gerror_irq_enabled(s)) qemu_irq_pulse(s->irq[SMMU_IRQ_GERROR]);
}

/* The message of a CMD_SYNC, if messages are offered and it names an address. Zero in the whole of the field is none; the message
 * goes to what the offered size of addresses leaves of it. */
static void send_message(SMMUv3State *s, const Cmd *cmd, const uint8_t *slot) {
    uint64_t field = ((uint64_t)cmd->word[3] << 32 | cmd->word[2]) & MSI_ADDRESS;
    hwaddr address = field & MAKE_64BIT_MASK(0, oas2bits(FIELD_EX32(s->idr[5], IDR5, OAS)));
    if (!extract32(s->idr[0], IDR0_MSI, 1) || !field) return;
    watch_count(MSIS, 1);
    watch_count(MSIS_TO_SLOT, address == Q_BASE(&s->cmdq) + (slot - known.queue));
    address_space_stl_le(&address_space_memory, address, cmd->word[1], MEMTXATTRS_UNSPECIFIED, NULL);
}

/* What a consumed CMD_SYNC with CS 1 asks for: its message, and the interrupt by wire whether there is one or not. */
static void answer_sync(SMMUv3State *s, const uint8_t *slot) {
    Cmd cmd;
    for (int i = 0; i < ARRAY_SIZE(cmd.word); i++) cmd.word[i] = ldl_le_p(slot + 4 * i);
    if (CMD_TYPE(&cmd) != SMMU_CMD_SYNC || CMD_SYNC_CS(&cmd) != CMD_SYNC_SIG_IRQ) return;
    send_message(s, &cmd, slot);
    watch_count(WIRED, 1);
    qemu_irq_pulse(s->irq[SMMU_IRQ_CMD_SYNC]);
}

/* PENDING says that something is owed, `told` from which command on. Answered first, then noted, then cleared, no run between. */
void queue_tell(SMMUv3State *s) {
    uint64_t answer[TAHVENNO_ANSWER_WORDS];
    if (telling) return;
    telling = true;
    if (control(TAHVENNO_PENDING)) {
        for (uint64_t i = *known.told; i != control(TAHVENNO_RD); i = next_index(i)) answer_sync(s, slot_of(i));
    }
    *known.told = control(TAHVENNO_RD);
    if (control(TAHVENNO_PENDING)) state_must(tahvenno_clear_pending(known.kept, known.words, answer), "clear pending");
    telling = false;
}

/* The registers say what the control word says. While the queue is off its indexes are the guest's to write. */
void queue_mirror(SMMUv3State *s) {
    s->gerror = FIELD_DP32(s->gerror, GERROR, CMDQ_ERR, control(TAHVENNO_GERROR));
    s->gerrorn = FIELD_DP32(s->gerrorn, GERROR, CMDQ_ERR, control(TAHVENNO_GERRORN));
    if (!control(TAHVENNO_CMDQEN)) return;
    s->cmdq.prod = control(TAHVENNO_WR);
    s->cmdq.cons = FIELD_DP32(control(TAHVENNO_RD), CMDQ_CONS, ERR, control(TAHVENNO_ERR));
}

/* The guest enabled the queue. If it is another one than before the rows are dropped, which is always right, before the control
 * word says so; an error stays as it was. */
static void begin_queue(SMMUv3State *s) {
    volatile uint64_t *kept = known.kept;
    uint64_t others = ~(TAHVENNO_RD | TAHVENNO_WR | TAHVENNO_LOG2SIZE), word;
    s->cmdq.log2size = MIN(s->cmdq.log2size, TAHVENNO_MAX_LOG2SIZE);
    word = (known.kept[0] & others) | TAHVENNO_PUT(TAHVENNO_LOG2SIZE, s->cmdq.log2size) |
           TAHVENNO_PUT(TAHVENNO_RD, s->cmdq.cons & INDEX(s)) | TAHVENNO_PUT(TAHVENNO_WR, s->cmdq.cons & INDEX(s));
    if (word == known.kept[0]) return;
    for (size_t row = 0; row < known.rows; row++) kept[ROW_AT(row)] = 0;
    kept[0] = word;
    *known.told = control(TAHVENNO_RD);
    watch_begin();
}

static void enable(SMMUv3State *s) {
    uint64_t answer[TAHVENNO_ANSWER_WORDS];
    bool on = smmuv3_cmdq_enabled(s);
    if (on == control(TAHVENNO_CMDQEN)) return;
    if (on) begin_queue(s);
    state_must(tahvenno_enable(known.kept, known.words, on, answer), "enable");
}

static void acknowledge(SMMUv3State *s) {
    uint64_t answer[TAHVENNO_ANSWER_WORDS];
    if (!error_active() || FIELD_EX32(s->gerrorn, GERROR, CMDQ_ERR) == control(TAHVENNO_GERRORN)) return;
    state_must(tahvenno_acknowledge(known.kept, known.words, answer), "acknowledge");
    watch_count(ACKNOWLEDGED, 1);
}

/* A PROD that the unit refuses is the guest's fault: the write is ignored, and PROD reads as it was. */
static void ring(SMMUv3State *s) {
    uint64_t answer[TAHVENNO_ANSWER_WORDS];
    if (!control(TAHVENNO_CMDQEN)) return;
    copy_slots(s);
    if (tahvenno_doorbell(known.kept, known.words, s->cmdq.prod & INDEX(s), answer) == 0) return;
    qemu_log_mask(LOG_GUEST_ERROR, "tahvenno: CMDQ_PROD 0x%x is ignored\n", s->cmdq.prod);
    watch_count(REFUSED_BELLS, 1);
}

/* A write that a message makes is not carried out here: PROD and GERRORN are then as the control word has them, and CR0 counts from
 * the guest's next write on. */
void glue_consume(SMMUv3State *s) {
    if (telling) return;
    enable(s);
    acknowledge(s);
    ring(s);
    if (!queue_run(s)) {
        state_restart(s);
        return;
    }
    queue_tell(s);
    queue_mirror(s);
    recorder_read_out(s); /* CR0 may have enabled the guest's event queue again */
}

void glue_reset(SMMUv3State *s) {
    if (!glue_on()) return;
    s->idr[0] = deposit32(s->idr[0], IDR0_MSI, 1, getenv("TAHVENNO_MSI") != NULL);
    s->idr[1] = FIELD_DP32(s->idr[1], IDR1, CMDQS, TAHVENNO_MAX_LOG2SIZE);
    s->idr[1] = FIELD_DP32(s->idr[1], IDR1, EVENTQS, EVENTS_N);
    s->cmdq.base = deposit64(s->cmdq.base, 0, 5, TAHVENNO_MAX_LOG2SIZE);
    s->eventq.base = deposit64(s->eventq.base, 0, 5, EVENTS_N);
    state_create();
}

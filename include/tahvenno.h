/*
 * Tahvenno: the command queue, the cached rows, the cached regions of a device permission table and the translation of an emulated
 * Arm SMMUv3, and a recorder of its events. tahvenno_rows.h builds the words that are lent from named fields, and takes them apart.
 *
 * MEMORY. The caller owns everything. `kept` points to the kept memory, `words` 64-bit words: one control word, then rows of four
 * words, 1 to TAHVENNO_MAX_ROWS of them; their layout is below. `table` points to the second table, `table_words` words: rows of
 * two words, 1 to TAHVENNO_MAX_REGIONS of them (REGIONS, below). `queue` points to the guest's command queue, `bytes` bytes of 16 a
 * slot, and `slot` to one of its slots; only the writers write there (WRITERS, below). `fields` points to the 16 words of one
 * command, `commands` to those of several, `command_words` words; `original` and `proposed` to batches as a queue has them. `events` points to the recorder's words, which are no part of the
 * kept memory, and `record` to 32 bytes (THE RECORDER, below). `answer` points to eight words that the call fills, those not named
 * below with zero. The unit keeps no pointer and no state of its own between calls, allocates nothing, and needs no function of a C
 * library.
 *
 * The caller sees to this, since the proof takes it for granted:
 *
 *   - No pointer is null, also where a length is 0. What is lent to one call does not overlap, but for `original` and `proposed`.
 *   - kept, table, events, fields, commands and answer are aligned to 8 bytes. The queue, a slot, a batch and a record may stand anywhere in
 *     Normal memory; where a load or store that is not aligned faults (Device memory, alignment checking), align them to 8 bytes
 *     too: compiled code loads several of their bytes at once.
 *   - Until a call returns nobody else writes to what is lent to it. So lend a run a private copy of the guest's queue, or stop the
 *     guest: bytes that change during a call are outside the proof.
 *   - One call at a time on one kept memory and its second table, and on one recorder. docs/BOX.md has the rules for an agent that
 *     reads rows or records by itself.
 *
 * WHAT COMES BACK. Each call returns 0 if it was carried out, else the number of its refusal, and then not one word of kept
 * memory, of the second table or of the recorder has changed, nor a byte of a queue or slot. Whatever the words and bytes are, a
 * call ends and gives one of these:
 *
 *    1  the length is not 1 + 4 N words, N from 1 to TAHVENNO_MAX_ROWS
 *    2  the control word is ill formed
 *    3  a row is ill formed; answer[0] is the lowest such row, counted from 0
 *    4  run, write_batch: the queue's length is not 16 times 2^LOG2SIZE bytes
 *    5  doorbell: wr is 2^(LOG2SIZE + 1) or more; or more commands would wait than the queue has slots; or fewer than wait now
 *    6  acknowledge: no error is active
 *    7  fill, table_fill: no such row
 *    8  fill, table_fill: the row is in use
 *    9  fill, table_fill: the words are ill formed or empty
 *   10  translate: MemAttr, SH or hints are ill formed or too wide
 *   11  fill: the new row and one that is there could answer the same access
 *   12  clear_pending: no interrupt is pending
 *   13  run, table_fill, check_batch: the second table's length is not 2 N words, N from 1 to TAHVENNO_MAX_REGIONS
 *   14  the same three: a row of the second table is ill formed; answer[0] is the lowest such row, counted from 0
 *   15  event_write, event_read, event_acknowledge: the length is not 1 + 4 x 2^n words, n from 0 to TAHVENNO_MAX_EVENT_N
 *   16  the recorder's three: the index word is ill formed, or its n is not that of the length
 *   17  event_read: no record waits
 *   18  event_acknowledge: no overflow is outstanding
 *   19  write_command: the slot is not 16 bytes
 *   20  write_command, write_batch: a command needs a feature that is absent; of a batch answer[0] is the command, counted from 0
 *   21  the same two: the code is unknown, or a field is too wide, or not 0 though the command does not have it, or would make the
 *       command illegal, or a batch's last command has fewer than 16 words; of a batch answer[0] is the command, counted from 0
 *   22  write_batch: more commands than the queue has free slots
 *   23  check_batch: the length of a batch is not a multiple of 16 bytes
 *
 * 1, 2 and 3 are tried first, by every call on kept memory, then 13 and 14 by the calls that are lent the second table, then the
 * others in this order; but a batch gets the 20 or 21 of its first bad command, whichever of the two that is. The calls on the
 * recorder give 15 to 18 only, in this order, and write_command 19 to 21.
 *
 * ALLOWANCES. A run and a fill store single 64-bit words, in an order that does not depend on the allowance, and make at most
 * `allowance` of them: a call with allowance k leaves what a power cut after its k-th store leaves. A fill makes 4 stores, a
 * table_fill 2; a run makes one for each row that it removes, of either table, and each command that it consumes, and one if it
 * raises, so never more than there are used rows and waiting commands (TAHVENNO_MAX_STORES at most). For each command the rows of
 * the kept memory come first, then those of the second table, then the control word. An allowance of 0 makes no store: where one is
 * due the call ends Cut, and called so again it never gets further. An event_write has an allowance in the same sense. The other
 * calls store one word or none of kept memory, second table and recorder, and the writers bytes of a queue (WRITERS, below).
 *
 * A run that ended Cut goes on when it is called again, with the same second table. A fill does not, nor a table_fill: it starts
 * from its first store every time, and until its last store the row is empty. Repeated after it has finished, either is refused
 * with 8, an acknowledge with 6 and a clear_pending with 12, a run that raised ends Held, and a doorbell, an enable or a disable
 * stores the same word again.
 *
 * The stores to kept memory, second table, recorder, queue and slot are volatile: the code makes each of them by itself and in this
 * order. There is no barrier between them. docs/BOX.md says what the memory, or the caller, has to do so that they arrive in it.
 *
 * WALK AND FILL. No run may come between the first read of a walk of the guest's tables and the last store of its fill, cut or
 * no cut: the run may consume the command for a change that the walk did not see, and the fill would then make the old mapping
 * valid again. If one came, walk again. The same holds for a table_fill of what was found in the device permission table.
 *
 * DOUBLES. Of two rows that could answer one access the lower would, whichever of them is right. So a fill gets 11 if its words
 * and a row in use are both last-level and of the same kind, and have the same STREAM (STE), the same STREAM and SUBSTREAM (CD), or
 * a common input address and the same VMID (stage 2, and stage 1 if also ASID is the same or either is GLOBAL). Then the
 * row is there already, or it is stale and has to be removed first, or the walk went wrong; docs/BOX.md has what to do. 11 names
 * no row. Rows that are not last-level double nothing, nor does what a cut fill left. Marked rows (below) are neither refused with
 * 11 nor a reason for it. A kept memory that holds doubles already is accepted.
 *
 * THE HYPERVISOR'S ROWS are rows of stage 1 with a mark: EL2 for mappings without ASIDs, EL2_E2H for those with them. They are kept
 * in the same table as the guests', and only these commands remove them (codes in hexadecimal):
 *
 *   20  every marked row, whatever E2H is
 *   21  EL2_E2H rows of the ASID that are not GLOBAL, whatever E2H is
 *   22  by address: where E2H is set, EL2_E2H rows of the ASID and GLOBAL ones; else EL2 rows, and the ASID is not compared
 *   23  by address: where E2H is set, EL2_E2H rows of any ASID; else EL2 rows
 *
 * Each of them is illegal (TAHVENNO_FEATURE_ABSENT) unless `features` has both TAHVENNO_HYP and TAHVENNO_S1P. Bits 47:32 are
 * Reserved in all four, bits 63:48 in 20 and 23; ASID, Leaf and Address stand where 11, 12 and 13 have them, Leaf spares rows that
 * are not last-level, and an ASID of more than 8 bits without TAHVENNO_ASID16 makes 21 and 22 remove nothing. 10 to 13, 28 and 30
 * leave marked rows alone, with TAHVENNO_HYP or without, and translate does not see them. That a marked row is well formed does
 * not depend on the features. docs/BOX.md says what that leaves to the caller.
 *
 * RANGES. With TAHVENNO_RIL the commands by address (12, 13, 22, 23 and 2A) may name a range: TG, bits 75:74, is its granule, 1 for
 * 4 KiB, 2 for 16 KiB and 3 for 64 KiB. The range is (NUM + 1) times 2^SCALE granules, NUM in bits 16:12 and SCALE in bits 24:20,
 * from Address rounded down to a granule, and ends with the 64-bit space if it would pass that. The command then removes the
 * rows whose span has an address in the range, and else goes by what it goes by without one: VMID, ASID, E2H, Leaf. TG 0 is the
 * single address. TTL, bits 73:72, and TTL128, bit 71, say at which level the guest's tables hold the entry; they narrow nothing.
 *
 * Illegal by TAHVENNO_BAD_PARAMETER: TG not 0 with NUM 0, SCALE 0 and TTL 0; with TG 2 also NUM 0, SCALE 0 and TTL 1, since that is
 * no level of a 16 KiB granule. Illegal by TAHVENNO_RESERVED_BIT: NUM, SCALE, TTL or TTL128 with TG 0, TTL128 with TTL 0, and bit
 * 25, since SCALE has five bits here. Without TAHVENNO_RIL all five fields are Reserved.
 *
 * REGIONS. The second table holds what is cached of the guest's device permission table: each row a region of one of ten sizes,
 * from 4KB to 512GB. It is lent to every run, of one row at least, also where TAHVENNO_DPT is absent; a table that is not used is
 * one empty row. With TAHVENNO_DPT there are two more commands, and only these remove rows of it (codes in hexadecimal):
 *
 *   70  every row of the second table
 *   73  the rows within the region of length SIZE from Address on; with Leaf, bit 64, only last-level ones
 *
 * Address[55:12] stands in bits 119:76 and SIZE in bits 75:72; every other bit is Reserved, and 70 has no fields. Bits 55:52 of
 * Address count as 0. A row that is larger than SIZE stays, even if it holds the address. A SIZE of 10 to 15, or an Address
 * that is not a multiple of the size, is consumed and takes no row. Neither code takes a row of the kept memory, and no other code
 * takes one of the second table. Without TAHVENNO_DPT both are illegal (TAHVENNO_FEATURE_ABSENT). The counts of a run have the
 * second table's rows in them. No transaction looks at it, and table_fill knows no doubles: it never gives 11.
 *
 * BATCHES. check_batch tells whether a shorter batch of invalidations may stand for a longer one: `original` and `proposed` point
 * to commands of 16 bytes each, as a queue has them, none or more; both are only read, and may be one. A command qualifies if it is
 * legal with these features and an invalidation (codes 03 to 30, 70 and 73; not 01, 02 and 46), whether or not it would remove a
 * row. The call tells the first that does not, looking through the whole of the original first. If all qualify, it compares what
 * each batch would leave of these rows, of both tables, whatever the control word lets a run do: it says yes, or names the lowest
 * row that would differ. Nothing is stored. The answer is about these rows and features: after a fill or a table_fill, or where
 * E2H is changed, ask again. A yes is still one after a run has removed rows.
 *
 * THE INTERRUPT. A guest asks by CMD_SYNC with CS 1 to be interrupted once the commands before it are done. The store that moves
 * RD past such a command also sets PENDING in the control word, and nothing but clear_pending takes it away. So whenever PENDING
 * is set after a run, raise the guest's interrupt, then call clear_pending, with no run between the two: a CMD_SYNC that a run
 * consumed there would be cleared and never raised. If power goes between the two, the interrupt is raised once more after the
 * restart: each request is answered by at least one interrupt, and none is lost. tahvenno_state does not tell PENDING; it is read
 * in kept[0].
 *
 * WRITERS. They are for the one who owns a queue, such as the caller's own guest; a guest that writes its queue itself rings by
 * doorbell. write_command writes the 16 bytes of one command into a slot. write_batch writes any number of commands into the free
 * slots from WR on, going round behind the last slot, and then rings: one store of the control word moves WR past them. A command
 * is 16 words, its code and its fields as numbers (TAHVENNO_CMD_CODE and so on; codes in hexadecimal):
 *
 *   word  field        bits  the codes that have it
 *      0  code            8  01 to 06, 10 to 13, 20 to 23, 28, 2A, 30, 46, 70 and 73
 *      1  StreamID       32  03, 04, 05, 06
 *      2  SubstreamID    20  05
 *      3  Range           5  04
 *      4  Leaf            1  03, 05, 12, 13, 22, 23, 2A, 73
 *      5  VMID           16  10 to 13, where it has to be 0 without TAHVENNO_S2P; 28, 2A
 *      6  ASID           16  11, 12, 21, 22
 *      7  Address        52  12, 13, 22, 23; 2A, of 40 bits; 73, of 44 bits: the address without its low 12 bits
 *      8  CS              2  46, and not 3
 *      9  NUM             5  12, 13, 22, 23, 2A, with TAHVENNO_RIL (RANGES, above)
 *     10  SCALE           5  the same
 *     11  TG              2  the same
 *     12  TTL             2  the same
 *     13  TTL128          1  the same
 *     14  SIZE            4  73
 *     15  none; it is 0
 *
 * What a code has no field for has to be 0. The features are those that the queue's runs are passed: 05, 06 and 10 to 13 need
 * TAHVENNO_S1P, 28 and 2A TAHVENNO_S2P, 20 to 23 TAHVENNO_HYP and TAHVENNO_S1P, 70 and 73 TAHVENNO_DPT. So what is written is legal
 * for a run with the same features. That goes for an ASID or VMID of more than 8 bits without TAHVENNO_ASID16 or TAHVENNO_VMID16
 * too: it is written, and removes nothing. Bits that a run does not look at are written as 0.
 *
 * write_batch has no allowance. It stores every byte of its commands before the control word, by one store each, the first one
 * first, and to no other slot. So if power goes inside it and WR has not moved, the queue, where it survives, holds a part of them
 * in free slots, of which no run knows; call it again from the start. If WR has moved, the batch was sent, and called again it is
 * there twice, or is refused with 22. docs/BOX.md has what to do where the bytes could arrive after the control word. A batch that
 * was refused has written nothing. A batch of no commands stores the control word as it is.
 *
 * THE RECORDER is a ring of records of 32 bytes, in words of its own; no call takes both these and the kept memory. event_write
 * makes 5 stores: the record's four words, the first one first, to the slot at WR, then the index word with WR one further. Until
 * that last store the record is not in the ring, whatever its slot holds; with it the whole record is. So no cut shows a part of
 * it. Each call starts from its first store: where there is room, an allowance below 5 ends Cut however often it is given.
 *
 * If every slot holds a record that nobody has read, the new one is dropped: the call returns 0 and ends TAHVENNO_EVENT_DROPPED.
 * The first one dropped flips OVERFLOW, by one store; at allowance 0 it ends Cut instead. From then on, until event_acknowledge, an
 * overflow is outstanding and further drops store nothing. An overflow does not keep records out: each read makes room for one.
 *
 * event_read takes the oldest record out of the ring, and event_acknowledge ends the overflow. Each is one store of the index word.
 * Repeated after it has finished, an event_write stores its record once more or drops it, an event_read takes the next one out or
 * is refused with 17, and an event_acknowledge is refused with 18.
 *
 * AFTER A RESTART, in this order:
 *
 *   1. Look at RD, ERR and active by tahvenno_state, and tell the guest what it was not told.
 *   2. Drop the fill that was under way, of either table, and whatever was walked before the cut.
 *   3. Call run, with the same second table, queue and features (E2H is one of them), until it does not end Cut. Memory and second
 *      table are then those of a run that was never cut.
 *   4. If PENDING is set, raise the interrupt, then call clear_pending; no run comes between the two.
 *   5. Walk the guest's tables again for what is missing, and fill.
 *
 * The recorder needs none of this. A write that power cut is made again or given up; made again it may be there twice, since the
 * cut may have come after its last store. docs/BOX.md says more.
 *
 * To 1: a call that power cut returned nothing, and its counts are lost. The counts of calls that return, cut by their
 * allowance, add up to those of a run that was never cut; those of the call that power cut are in no sum. So, before the first
 * run: if an error is active, signal it, since the run that raised it may not have returned, and a run after it answers Held
 * and not Raised. An acknowledge that was under way is repeated now or not at all: after a run it can take away an error that
 * nobody has seen.
 *
 * To 2: do not repeat the fill instead. After the run it can make a stale row valid: the command that should have removed the
 * row was consumed while the row was still empty. Before the run it can bring back a row that a command has removed: the fill
 * had finished, and a run removed its row and was cut.
 *
 * To 4: the lost counts may have had CMD_SYNCs in them. PENDING stands for these, whichever call consumed them, so that nothing
 * has to be guessed from where RD is. If it is clear, no interrupt is owed. It does not say how many there were, nor whether the
 * interrupt was raised before the cut.
 *
 * NOT PROVED: the order in which C passes the parameters. A contract names them and would be the same in any order. What pins
 * the order is compare/, which declares the calls as they stand here and compares what they do with a second implementation.
 */
#ifndef TAHVENNO_H
#define TAHVENNO_H

#include <stddef.h>
#include <stdint.h>

/* The version: MAJOR changes when a caller has to change something, MINOR when something came, PATCH when neither did. */
#define TAHVENNO_VERSION_MAJOR 1
#define TAHVENNO_VERSION_MINOR 0
#define TAHVENNO_VERSION_PATCH 0
#define TAHVENNO_VERSION "1.0.0"

#ifdef __cplusplus
extern "C" {
#endif

/* Sizes: of the kept memory and of the second table in words, of the queue in bytes. A fill makes as many stores as a row has
 * words, a table_fill likewise, a run at most TAHVENNO_MAX_STORES. */
#define TAHVENNO_MAX_ROWS 1000
#define TAHVENNO_ROW_WORDS 4
#define TAHVENNO_WORDS(rows) (1 + TAHVENNO_ROW_WORDS * (rows))
#define TAHVENNO_ROW_AT(row) TAHVENNO_WORDS(row) /* where a row, counted from 0, has its word 0 */
#define TAHVENNO_MAX_LOG2SIZE 12
#define TAHVENNO_MAX_REGIONS 128
#define TAHVENNO_REGION_WORDS 2
#define TAHVENNO_TABLE_WORDS(rows) (TAHVENNO_REGION_WORDS * (rows))
#define TAHVENNO_REGION_AT(row) TAHVENNO_TABLE_WORDS(row)
#define TAHVENNO_MAX_STORES (TAHVENNO_MAX_ROWS + TAHVENNO_MAX_REGIONS + (1 << TAHVENNO_MAX_LOG2SIZE))
#define TAHVENNO_SLOT_BYTES 16
#define TAHVENNO_QUEUE_BYTES(log2size) ((size_t)TAHVENNO_SLOT_BYTES << (log2size))
#define TAHVENNO_COMMAND_WORDS 16
#define TAHVENNO_ANSWER_WORDS 8

/* Of the recorder in words, of a record in bytes; the stores of an event_write. */
#define TAHVENNO_MAX_EVENT_N 7
#define TAHVENNO_EVENT_WORDS(n) (1 + ((size_t)4 << (n)))
#define TAHVENNO_RECORD_BYTES 32
#define TAHVENNO_RECORD_STORES 5

/* Bits high:low of a word; a number put there, without what is too wide; the number that is there. */
#define TAHVENNO_BITS(high, low) ((UINT64_MAX >> (63 - (high))) & (UINT64_MAX << (low)))
#define TAHVENNO_LOWEST(bits) ((bits) & (~(bits) + 1))
#define TAHVENNO_PUT(bits, n) (((uint64_t)(n) * TAHVENNO_LOWEST(bits)) & (bits))
#define TAHVENNO_GET(bits, w) (((uint64_t)(w) & (bits)) / TAHVENNO_LOWEST(bits))

/*
 * The control word, kept[0]. RD is the index of the first command that waits, WR the one behind the last. An index has
 * LOG2SIZE + 1 bits: the low LOG2SIZE are the slot, the one above them is the wrap bit, which changes whenever the index passes
 * the last slot, as in SMMU_CMDQ_PROD and SMMU_CMDQ_CONS. RD equal to WR is an empty queue; the same slot with the other wrap
 * bit is a full one.
 *
 * Well formed: LOG2SIZE at most TAHVENNO_MAX_LOG2SIZE; both indexes below 2^(LOG2SIZE + 1); WR less RD, modulo that, at most
 * 2^LOG2SIZE; ERR 0 or 1 (CERROR_ILL); ERR 1 while the error is active, which it is if GERROR differs from GERRORN; bits 63:56
 * all 0. PENDING may be 0 or 1 whatever the others are.
 *
 * An empty kept memory: first 0 in word 0 of every row (their other words are free), then in the control word
 * TAHVENNO_PUT(TAHVENNO_LOG2SIZE, n), with TAHVENNO_CMDQEN if the queue is enabled. In this order a cut never leaves an old row
 * without the commands that wait for it. Between calls the caller may also empty a single row, by one 64-bit store of 0 to its
 * word 0.
 */
#define TAHVENNO_RD TAHVENNO_BITS(19, 0)
#define TAHVENNO_WR TAHVENNO_BITS(39, 20)
#define TAHVENNO_ERR TAHVENNO_BITS(46, 40)
#define TAHVENNO_GERROR TAHVENNO_BITS(47, 47)
#define TAHVENNO_GERRORN TAHVENNO_BITS(48, 48)
#define TAHVENNO_CMDQEN TAHVENNO_BITS(49, 49)
#define TAHVENNO_LOG2SIZE TAHVENNO_BITS(54, 50)
#define TAHVENNO_PENDING TAHVENNO_BITS(55, 55)

/*
 * The index word of the recorder, events[0]; behind it stand 2^N slots of four words. RD is the index of the oldest record, WR the
 * one behind the newest; an index has N + 1 bits, as those of the queue have LOG2SIZE + 1. An overflow is outstanding if OVERFLOW
 * differs from ACKNOWLEDGED (OVFLG in SMMU_EVENTQ_PROD and OVACKFLG in SMMU_EVENTQ_CONS are such a pair).
 *
 * Well formed: N at most TAHVENNO_MAX_EVENT_N, and the length TAHVENNO_EVENT_WORDS(N); both indexes below 2^(N + 1); WR less RD,
 * modulo that, at most 2^N; bits 63:47 all 0. The flags may be 0 or 1 each, whatever the indexes are, and slots may hold anything.
 *
 * An empty recorder: TAHVENNO_PUT(TAHVENNO_EVENT_N, n), which is n << 42, in the index word. The slots need not be set.
 */
#define TAHVENNO_EVENT_RD TAHVENNO_BITS(19, 0)
#define TAHVENNO_EVENT_WR TAHVENNO_BITS(39, 20)
#define TAHVENNO_EVENT_OVERFLOW TAHVENNO_BITS(40, 40)
#define TAHVENNO_EVENT_ACKNOWLEDGED TAHVENNO_BITS(41, 41)
#define TAHVENNO_EVENT_N TAHVENNO_BITS(46, 42)

/* The first word of a record, as IHI 0070 has it: the event's number and the StreamID. The unit does not look at records. */
#define TAHVENNO_RECORD_EVENT TAHVENNO_BITS(7, 0)
#define TAHVENNO_RECORD_STREAM TAHVENNO_BITS(63, 32)

/*
 * A row. It is empty if word 0 is 0, whatever the other words are. Else valid is 1, and every part not named here is 0:
 *
 *   STE, last-level      VMID, MTCFG, STE_MEMATTR, SHCFG, ALLOCCFG, INSTCFG, PRIVCFG; STREAM, CONFIG (0, 4, 5, 6 or 7)
 *   STE, not last-level  SPAN (6, 8 or 10); STREAM, a multiple of 2^SPAN: a block of that many streams
 *   CD, last-level       ASID; STREAM, SUBSTREAM
 *   CD, not last-level   STREAM
 *   stage 1              VMID, ASID, GLOBAL, SPAN (12 to 48); word 2, the input address, a multiple of 2^SPAN whose bits 63:52
 *                        are all 0 or all 1; if last-level also word 3, the output address, a multiple of 2^SPAN below 2^52,
 *                        and MEMATTR, SH, HINTS
 *   stage 1, marked      EL2: as stage 1, without VMID, ASID and GLOBAL. EL2_E2H: as stage 1, without VMID. Never both marks
 *   stage 2              as stage 1, without ASID, GLOBAL and HINTS, and with word 2 below 2^52
 *
 * So the input addresses of stage 1 have a lower half, below 2^52, and an upper one, the last 2^52 of the 64-bit space; a span lies
 * in one of them, and an address in neither is covered by no row. What comes out of either stage is below 2^52.
 *
 * Only last-level rows without a mark answer a transaction, and of several the lowest. The payload of an STE row overrides what
 * comes in: MTCFG 1 takes STE_MEMATTR. SHCFG 0 NSH, 1 as it comes, 2 OSH, 3 ISH. ALLOCCFG, if its bit 3 is set, puts its bits 2, 1,
 * 0 as RA, WA, TR into both halves that are cacheable. INSTCFG 2 makes it data, 3 an instruction, 0 and 1 leave it; a write is data
 * whatever it says. PRIVCFG likewise, 2 unprivileged, 3 privileged.
 */
/* word 0 */
#define TAHVENNO_VALID TAHVENNO_BITS(0, 0)
#define TAHVENNO_KIND TAHVENNO_BITS(2, 1)
#define TAHVENNO_LAST_LEVEL TAHVENNO_BITS(3, 3)
#define TAHVENNO_GLOBAL TAHVENNO_BITS(4, 4)
#define TAHVENNO_SPAN TAHVENNO_BITS(10, 5)
#define TAHVENNO_EL2 TAHVENNO_BITS(11, 11)
#define TAHVENNO_EL2_E2H TAHVENNO_BITS(12, 12)
#define TAHVENNO_MARK (TAHVENNO_EL2 | TAHVENNO_EL2_E2H) /* as one number: 0 none, 1 EL2, 2 EL2_E2H */
#define TAHVENNO_VMID TAHVENNO_BITS(31, 16)
#define TAHVENNO_ASID TAHVENNO_BITS(47, 32)
/* word 0, the payload of a last-level STE row */
#define TAHVENNO_MTCFG TAHVENNO_BITS(48, 48)
#define TAHVENNO_STE_MEMATTR TAHVENNO_BITS(52, 49)
#define TAHVENNO_SHCFG TAHVENNO_BITS(54, 53)
#define TAHVENNO_ALLOCCFG TAHVENNO_BITS(58, 55)
#define TAHVENNO_INSTCFG TAHVENNO_BITS(60, 59)
#define TAHVENNO_PRIVCFG TAHVENNO_BITS(62, 61)
/* word 0, the payload of a last-level stage 1 or stage 2 row */
#define TAHVENNO_MEMATTR TAHVENNO_BITS(51, 48)
#define TAHVENNO_SH TAHVENNO_BITS(53, 52)
#define TAHVENNO_HINTS TAHVENNO_BITS(59, 54)
/* word 1 */
#define TAHVENNO_STREAM TAHVENNO_BITS(31, 0)
#define TAHVENNO_SUBSTREAM TAHVENNO_BITS(51, 32)
#define TAHVENNO_CONFIG TAHVENNO_BITS(54, 52)
/* words 2 and 3: the lower half of the input addresses, and all output addresses; the upper half is from ~TAHVENNO_LOWER_HALF on */
#define TAHVENNO_LOWER_HALF TAHVENNO_BITS(51, 0)

/* Spans of stage 1 and stage 2 rows. */
#define TAHVENNO_MIN_SPAN 12
#define TAHVENNO_MAX_SPAN 48

/*
 * A row of the second table: word 0, then the base. It is empty if word 0 is 0, whatever the base is. Else valid is 1, the size is
 * one of the ten below, bits 63:6 are all 0, and the base is below 2^52 and a multiple of the size. An empty table: 0 in word 0 of
 * every row. Between calls the caller may also empty a single row, by one 64-bit store of 0 to its word 0.
 */
#define TAHVENNO_REGION_VALID TAHVENNO_BITS(0, 0)
#define TAHVENNO_REGION_LAST_LEVEL TAHVENNO_BITS(1, 1)
#define TAHVENNO_REGION_SIZE TAHVENNO_BITS(5, 2)

/* Sizes of regions, as SIZE of the command 73 has them. */
enum {
    TAHVENNO_4KB,
    TAHVENNO_16KB,
    TAHVENNO_64KB,
    TAHVENNO_2MB,
    TAHVENNO_32MB,
    TAHVENNO_512MB,
    TAHVENNO_1GB,
    TAHVENNO_16GB,
    TAHVENNO_64GB,
    TAHVENNO_512GB
};

/* Word 0 of a region of a size that is not last-level. */
#define TAHVENNO_REGION(size) (TAHVENNO_REGION_VALID | TAHVENNO_PUT(TAHVENNO_REGION_SIZE, size))

/* Kinds of rows, and word 0 of a row of a kind with nothing more in it. */
enum { TAHVENNO_STE, TAHVENNO_CD, TAHVENNO_STAGE1, TAHVENNO_STAGE2 };
#define TAHVENNO_ROW(kind) (TAHVENNO_VALID | TAHVENNO_PUT(TAHVENNO_KIND, kind))

/* What Config makes of a transaction. */
enum {
    TAHVENNO_CONFIG_ABORT = 0,
    TAHVENNO_CONFIG_BYPASS = 4,
    TAHVENNO_CONFIG_STAGE1 = 5,
    TAHVENNO_CONFIG_STAGE2 = 6,
    TAHVENNO_CONFIG_BOTH = 7
};

/* MemAttr, 4 bits: a Device type, or Normal by its outer and its inner half. 4, 8 and 12 are ill formed. */
enum { TAHVENNO_DEVICE_NGNRNE, TAHVENNO_DEVICE_NGNRE, TAHVENNO_DEVICE_NGRE, TAHVENNO_DEVICE_GRE };
enum { TAHVENNO_NC = 1, TAHVENNO_WT = 2, TAHVENNO_WB = 3 };
#define TAHVENNO_NORMAL(outer, inner) (4 * (outer) + (inner))
#define TAHVENNO_OUTER(memattr) ((memattr) / 4)
#define TAHVENNO_INNER(memattr) ((memattr) % 4)

/* SH, 2 bits; 1 is ill formed. */
enum { TAHVENNO_NSH = 0, TAHVENNO_OSH = 2, TAHVENNO_ISH = 3 };

/* Hints, 6 bits. Those of a Device type and of a half that is NC are 0. */
enum {
    TAHVENNO_INNER_RA = 1,
    TAHVENNO_INNER_WA = 2,
    TAHVENNO_INNER_TR = 4,
    TAHVENNO_OUTER_RA = 8,
    TAHVENNO_OUTER_WA = 16,
    TAHVENNO_OUTER_TR = 32
};

/* What an STE row overrides by SHCFG, INSTCFG and PRIVCFG. */
enum { TAHVENNO_SHCFG_NSH, TAHVENNO_SHCFG_INCOMING, TAHVENNO_SHCFG_OSH, TAHVENNO_SHCFG_ISH };
enum { TAHVENNO_INSTCFG_INCOMING, TAHVENNO_INSTCFG_DATA = 2, TAHVENNO_INSTCFG_INSTRUCTION };
enum { TAHVENNO_PRIVCFG_INCOMING, TAHVENNO_PRIVCFG_UNPRIVILEGED = 2, TAHVENNO_PRIVCFG_PRIVILEGED };

/* Bits of `features`: what the emulated unit has, and E2H as the guest has set it (SMMU_CR2.E2H). The others are not looked at. */
#define TAHVENNO_S1P UINT64_C(1)
#define TAHVENNO_S2P UINT64_C(2)
#define TAHVENNO_ASID16 UINT64_C(4)
#define TAHVENNO_VMID16 UINT64_C(8)
#define TAHVENNO_HYP UINT64_C(16)
#define TAHVENNO_RIL UINT64_C(32)
#define TAHVENNO_DPT UINT64_C(64)
#define TAHVENNO_E2H UINT64_C(128)

/* The words of a command as the writers take it; the last of the 16 is 0. */
enum {
    TAHVENNO_CMD_CODE,
    TAHVENNO_CMD_STREAM,
    TAHVENNO_CMD_SUBSTREAM,
    TAHVENNO_CMD_RANGE,
    TAHVENNO_CMD_LEAF,
    TAHVENNO_CMD_VMID,
    TAHVENNO_CMD_ASID,
    TAHVENNO_CMD_ADDRESS,
    TAHVENNO_CMD_CS,
    TAHVENNO_CMD_NUM,
    TAHVENNO_CMD_SCALE,
    TAHVENNO_CMD_TG,
    TAHVENNO_CMD_TTL,
    TAHVENNO_CMD_TTL128,
    TAHVENNO_CMD_SIZE
};

/* What an Address in word TAHVENNO_CMD_ADDRESS is shifted down by: its low 12 bits. */
#define TAHVENNO_ADDRESS_SHIFT 12

/* The codes of the commands, by Arm's names. */
enum {
    TAHVENNO_CODE_PREFETCH_CONFIG = 0x01,
    TAHVENNO_CODE_PREFETCH_ADDR = 0x02,
    TAHVENNO_CODE_CFGI_STE = 0x03,
    TAHVENNO_CODE_CFGI_STE_RANGE = 0x04,
    TAHVENNO_CODE_CFGI_CD = 0x05,
    TAHVENNO_CODE_CFGI_CD_ALL = 0x06,
    TAHVENNO_CODE_TLBI_NH_ALL = 0x10,
    TAHVENNO_CODE_TLBI_NH_ASID = 0x11,
    TAHVENNO_CODE_TLBI_NH_VA = 0x12,
    TAHVENNO_CODE_TLBI_NH_VAA = 0x13,
    TAHVENNO_CODE_TLBI_EL2_ALL = 0x20,
    TAHVENNO_CODE_TLBI_EL2_ASID = 0x21,
    TAHVENNO_CODE_TLBI_EL2_VA = 0x22,
    TAHVENNO_CODE_TLBI_EL2_VAA = 0x23,
    TAHVENNO_CODE_TLBI_S12_VMALL = 0x28,
    TAHVENNO_CODE_TLBI_S2_IPA = 0x2A,
    TAHVENNO_CODE_TLBI_NSNH_ALL = 0x30,
    TAHVENNO_CODE_SYNC = 0x46,
    TAHVENNO_CODE_DPTI_ALL = 0x70,
    TAHVENNO_CODE_DPTI_PA = 0x73
};

/* A Range of code 04 that is every stream; CS of code 46; granules of a range, TG, of which 0 is none. */
#define TAHVENNO_EVERY_STREAM 31
enum { TAHVENNO_CS_NONE, TAHVENNO_CS_IRQ, TAHVENNO_CS_SEV };
enum { TAHVENNO_TG_4KB = 1, TAHVENNO_TG_16KB, TAHVENNO_TG_64KB };

/* How a run ends, in answer[0]. */
enum { TAHVENNO_OFF, TAHVENNO_HELD, TAHVENNO_EMPTY, TAHVENNO_RAISED, TAHVENNO_CUT };

/* Why a command is illegal, in answer[5] of a run that ends Raised: the first that applies, in this order. */
enum {
    TAHVENNO_UNKNOWN_CODE = 1,
    TAHVENNO_FEATURE_ABSENT,
    TAHVENNO_RESERVED_BIT,
    TAHVENNO_BAD_PARAMETER
};

/* How a fill of either table ends, in answer[0]. */
enum { TAHVENNO_FILLED, TAHVENNO_FILL_CUT };

/* What check_batch tells, in answer[0]. */
enum { TAHVENNO_SAME, TAHVENNO_UNFIT, TAHVENNO_DIFFER };

/* How an event_write ends, in answer[0]. */
enum { TAHVENNO_EVENT_STORED, TAHVENNO_EVENT_DROPPED, TAHVENNO_EVENT_CUT };

/* Bits of `how`: the kind of a transaction. The others are not looked at. */
#define TAHVENNO_WRITE UINT64_C(1)
#define TAHVENNO_INSTRUCTION UINT64_C(2)
#define TAHVENNO_PRIVILEGED UINT64_C(4)

/* What comes of a transaction, in answer[0]. */
enum {
    TAHVENNO_ADDRESS,
    TAHVENNO_ABORT,
    TAHVENNO_MISS_STE,
    TAHVENNO_MISS_CD,
    TAHVENNO_MISS_STAGE1,
    TAHVENNO_MISS_STAGE2
};

/* Carries out the commands that wait. answer: the end, commands consumed, stores made, rows removed from both tables, and consumed
 * CMD_SYNCs that ask for an interrupt (CS 1), each of which also sets PENDING; if it ends Raised also why the command is illegal,
 * and its slot (RD without the wrap bit). Neither is kept: a run that is called again ends Held and tells no reason. */
uint64_t tahvenno_run(uint64_t *kept, size_t words, uint64_t *table, size_t table_words, const uint8_t *queue, size_t bytes,
                      uint64_t features, uint64_t allowance, uint64_t answer[8]);

/* Fills an empty row, counted from 0, with four words. answer: the end, stores made. */
uint64_t tahvenno_fill(uint64_t *kept, size_t words, uint64_t row, uint64_t w0, uint64_t w1, uint64_t w2, uint64_t w3,
                       uint64_t allowance, uint64_t answer[8]);

/* Fills an empty row of the second table, counted from 0: the base w1 is stored first, then w0. Kept memory is only read. answer:
 * the end, stores made. */
uint64_t tahvenno_table_fill(const uint64_t *kept, size_t words, uint64_t *table, size_t table_words, uint64_t row, uint64_t w0,
                             uint64_t w1, uint64_t allowance, uint64_t answer[8]);

/* The guest wrote WR: `wr` is the whole index, with its wrap bit. */
uint64_t tahvenno_doorbell(uint64_t *kept, size_t words, uint64_t wr, uint64_t answer[8]);

/* The guest acknowledged the error: GERRORN becomes equal to GERROR. ERR stays. */
uint64_t tahvenno_acknowledge(uint64_t *kept, size_t words, uint64_t answer[8]);

/* Enables the queue if `on` is not 0, else disables it. */
uint64_t tahvenno_enable(uint64_t *kept, size_t words, uint64_t on, uint64_t answer[8]);

/* The interrupt was raised: PENDING becomes 0, by one store. */
uint64_t tahvenno_clear_pending(uint64_t *kept, size_t words, uint64_t answer[8]);

/* Translates one access; kept memory is only read. A substream of 2^20 or more matches no CD row. answer: the outcome, and of
 * an address that address, MemAttr, SH, hints, instruction (0 or 1), privileged (0 or 1). */
uint64_t tahvenno_translate(const uint64_t *kept, size_t words, uint32_t stream, uint32_t substream, uint64_t address,
                            uint64_t how, uint64_t memattr, uint64_t sh, uint64_t hints, uint64_t answer[8]);

/* Compares two batches of invalidations; kept memory and the second table are only read. answer: TAHVENNO_SAME; or TAHVENNO_UNFIT,
 * 0 for the original or 1 for the proposed batch, and the command in it, counted from 0; or TAHVENNO_DIFFER and the row, counted
 * from 0, those of the second table behind those of the kept memory. */
uint64_t tahvenno_check_batch(const uint64_t *kept, size_t words, const uint64_t *table, size_t table_words,
                              const uint8_t *original, size_t original_bytes, const uint8_t *proposed, size_t proposed_bytes,
                              uint64_t features, uint64_t answer[8]);

/* answer: RD, WR, ERR, whether an error is active (0 or 1), whether the queue is enabled (0 or 1), used rows. */
uint64_t tahvenno_state(const uint64_t *kept, size_t words, uint64_t answer[8]);

/* Writes a command into a slot, which is 16 bytes: `bytes` is its length. Kept memory is not looked at, so that the slot is free is
 * the caller's business, and so is the doorbell. */
uint64_t tahvenno_write_command(uint8_t *slot, size_t bytes, const uint64_t fields[16], uint64_t features, uint64_t answer[8]);

/* Writes commands, 16 words each, into the free slots from WR on, and moves WR past them by one store after the last byte. The
 * queue is `bytes` bytes, all of it; of its other slots none is written. Rows are only read. */
uint64_t tahvenno_write_batch(uint64_t *kept, size_t words, uint8_t *queue, size_t bytes, const uint64_t *commands,
                              size_t command_words, uint64_t features, uint64_t answer[8]);

/* Records an event: 32 bytes, which are four little-endian words. answer: the end, stores made. */
uint64_t tahvenno_event_write(uint64_t *events, size_t words, const uint8_t record[32], uint64_t allowance, uint64_t answer[8]);

/* Takes the oldest record out. answer: its four words. */
uint64_t tahvenno_event_read(uint64_t *events, size_t words, uint64_t answer[8]);

/* Someone knows that records were dropped: ACKNOWLEDGED becomes equal to OVERFLOW. */
uint64_t tahvenno_event_acknowledge(uint64_t *events, size_t words, uint64_t answer[8]);

#ifdef __cplusplus
}
#endif

#endif

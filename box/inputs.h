/* Inputs for the tests of the compiled unit: images, queues and calls from repeatable random numbers, made from the layout that
 * document 01 gives, with the upper half of document 02, T-04, the hypervisor's rows and commands of T-05, the limits of T-06, the
 * ranges of T-07, the pending bit of T-08 and the second table of T-11; and recorders, as T-01 has them. Nothing here comes from
 * the unit. Identifiers come from small pools, so that rows and commands meet. */
#ifndef INPUTS_H
#define INPUTS_H

#include <stddef.h>
#include <stdint.h>

enum { MOST_LOG2SIZE = 12, MOST_ROWS = 1000 };
enum { MOST_SLOTS = 1 << MOST_LOG2SIZE, QUEUE_ROOM = 16 * (MOST_SLOTS + 1) };
enum { MOST_WORDS = 1 + 4 * MOST_ROWS, ROOM = MOST_WORDS + 7 };

/* The second table stands in the same array as the kept memory, from this word on: so one number names a word of either. */
enum { MOST_REGIONS = 128, TABLE_AT = ROOM, TABLE_ROOM = 2 * MOST_REGIONS + 5, BOTH = TABLE_AT + TABLE_ROOM };

/* The commands of a batch, 16 words each: one more than there are slots, and one that is not whole. */
enum { COMMAND_WORDS = 16, COMMANDS_ROOM = COMMAND_WORDS * (MOST_SLOTS + 2) };

/* More stores than a run can make, so that one that makes too many is seen. */
enum { MOST_STORES = 2 * (MOST_ROWS + MOST_REGIONS + MOST_SLOTS) };

/* How large an input may be: as the limits allow; or so that a run can be made at every allowance, which takes stores times
 * commands times rows. */
struct size {
    uint64_t log2size, rows, regions;
};
extern const struct size LARGEST, SMALL;

/* Parts of the control word. */
#define RD_BITS UINT64_C(0xFFFFF)
#define WR_SHIFT 20
#define ERR_SHIFT 40
#define GERROR (UINT64_C(1) << 47)
#define GERRORN (UINT64_C(1) << 48)
#define CMDQEN (UINT64_C(1) << 49)
#define SIZE_SHIFT 50
#define SIZE_BITS UINT64_C(0x1F)
#define PENDING (UINT64_C(1) << 55)

/* Bits 63:52 of an address: all 0 in the lower half, all 1 in the upper, which stage 1 rows may have as their input. */
#define UPPER_HALF (~UINT64_C(0) << 52)

/* The marks of the hypervisor's own rows of stage 1, in word 0; and what is among the features for them. */
#define EL2_MARK (UINT64_C(1) << 11)
#define E2H_MARK (UINT64_C(1) << 12)
#define MARKS (EL2_MARK | E2H_MARK)
#define HYP_FEATURE (UINT64_C(1) << 4)
#define E2H_SETTING (UINT64_C(1) << 7)

/* What is among the features for ranges. */
#define RIL_FEATURE (UINT64_C(1) << 5)

/* And for regions of the device permission table. */
#define DPT_FEATURE (UINT64_C(1) << 6)

/* A recorder, and parts of its index word; RD and WR stand where the control word has them. */
enum { MOST_EVENTS = 7, RECORD_BYTES = 32, RECORD_STORES = 5 };
#define OVERFLOW_FLAG (UINT64_C(1) << 40)
#define SEEN_FLAG (UINT64_C(1) << 41)
#define EVENTS_SHIFT 42

struct dice {
    uint64_t state;
};

/* Kept memory with the second table, the queue that it asks for, and features. Either has room for damage to add words. For the
 * calls of the recorder its words are the kept memory, and the record to be written is the queue. */
struct input {
    uint64_t kept[BOTH];
    size_t words, table_words;
    uint8_t queue[QUEUE_ROOM];
    size_t bytes;
    uint64_t features;
};

struct access {
    uint32_t stream, substream;
    uint64_t address, how, memattr, sh, hints;
};

uint64_t roll(struct dice *dice);
uint64_t below(struct dice *dice, uint64_t limit);
uint64_t any_width(struct dice *dice);

/* The four words of a well-formed row: kind 0 to 3, last-level or not; or any of these. */
void any_row(struct dice *dice, unsigned kind, int last, uint64_t row[4]);
void some_row(struct dice *dice, uint64_t row[4]);

/* The two words of a well-formed row of the second table. */
void any_region(struct dice *dice, uint64_t region[2]);

/* Whether two rows are in use, last-level and could answer the same lookup (document 02, T-02); marked rows answer none. */
int doubles(const uint64_t one[4], const uint64_t other[4]);

/* A command of 16 bytes, now and then with a range if the features have RIL; the second may have a wrong bit or code. */
void any_command(struct dice *dice, uint64_t features, uint8_t slot[16]);
void spoilt_command(struct dice *dice, uint64_t features, uint8_t slot[16]);
void put_command(uint8_t slot[16], uint64_t low, uint64_t high);

/* The pages of a command that has a range, from the first on: 0 if it has none. */
uint64_t range_of(const uint8_t slot[16], uint64_t *first);

uint64_t control_word(uint64_t rd, uint64_t wr, uint64_t flags, uint64_t log2size);

/* An accepted image with its queue, mostly a small one; about one command in `rarity` is spoilt. */
void any_input(struct dice *dice, struct input *input, struct size most, uint64_t rarity);

/* Every row of both tables used, every slot waiting, and the queue enabled. */
void full_input(struct dice *dice, struct input *input, struct size size, uint64_t rarity);

/* The same at the limits, with the most stores that a run can make: every fourth command removes a row of its own, and others those
 * of the second table. */
void spread_input(struct input *input);

/* Makes an image, a second table or a queue wrong in one of many ways, some of which are none. */
void damage(struct dice *dice, struct input *input);

void any_access(struct dice *dice, struct access *access);

/* A recorder of 2^n slots, full of anything, with so many records from `rd` on; and any recorder. Flags are 0 to 3, the overflow's
 * lowest. */
void ring_input(struct dice *dice, struct input *input, uint64_t n, uint64_t rd, uint64_t held, uint64_t flags);
void any_ring(struct dice *dice, struct input *input);
void any_record(struct dice *dice, struct input *input);

/* The same as for images. */
void damage_ring(struct dice *dice, struct input *input);

#endif

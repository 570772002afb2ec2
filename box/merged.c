/* Stand-ins for the unit's stores, written plainly and in its order, where the compiler knows more than of the unit today: that an
 * allowance lasts, that queue and kept memory do not overlap. box/merged compiles them plain and marked. */
typedef __UINT8_TYPE__ u8;
typedef __UINT64_TYPE__ u64;

#define BYTES(slot, at, w)                                                                                                       \
    slot[at] = (u8)(w), slot[at + 1] = (u8)((w) >> 8), slot[at + 2] = (u8)((w) >> 16), slot[at + 3] = (u8)((w) >> 24),           \
    slot[at + 4] = (u8)((w) >> 32), slot[at + 5] = (u8)((w) >> 40), slot[at + 6] = (u8)((w) >> 48), slot[at + 7] = (u8)((w) >> 56)

/* The bytes of a word, as words::store_at has them. */
void word(u8 *slot, u64 w) {
    BYTES(slot, 0, w);
}

/* A row: words 1, 2 and 3, then word 0. */
void fill(u64 *restrict row, const u64 *restrict words) {
    row[1] = words[1], row[2] = words[2], row[3] = words[3], row[0] = words[0];
}

/* A row removed, RD moved, and the row filled anew. */
void again(u64 *kept, u64 control, u64 w0) {
    kept[1] = 0, kept[0] = control, kept[1] = w0;
}

/* A batch of one command: its bytes, then the doorbell. */
void batch(u64 *restrict kept, u8 *restrict queue, u64 low, u64 high, u64 control) {
    BYTES(queue, 0, low), BYTES(queue, 8, high), kept[0] = control;
}

/* The same with its bytes in loops, which the compiler unrolls. */
void looped(u64 *restrict kept, u8 *restrict queue, u64 low, u64 high, u64 control) {
    for (int i = 0; i < 8; i++) queue[i] = (u8)(low >> 8 * i);
    for (int i = 0; i < 8; i++) queue[8 + i] = (u8)(high >> 8 * i);
    kept[0] = control;
}

/* Half a command, its doorbell, and the same in the next slot. */
void batches(u64 *restrict kept, u8 *restrict queue, u64 low, u64 first, u64 second) {
    BYTES(queue, 0, low), kept[0] = first, BYTES(queue, 16, low), kept[0] = second;
}

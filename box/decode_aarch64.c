/* The stores of AArch64 of one register or of a pair, general or vector: STR, STUR, STP and STNP of every size. */
#define _GNU_SOURCE
#include <asm/sigcontext.h>
#include <stddef.h>
#include <string.h>
#include <ucontext.h>

#include "watch.h"

/* What the instruction says: registers of 2^shift bytes, how many, and whether the base moves by the offset. */
struct form {
    unsigned shift, count;
    int vector;
    enum { STAYS, AFTER, BEFORE } moves;
    uint64_t offset;
};

static uint64_t reg(const ucontext_t *context, unsigned number, uint64_t of_31) {
    return number == 31 ? of_31 : context->uc_mcontext.regs[number];
}

static void set_base(ucontext_t *context, unsigned number, uint64_t value) {
    if (number == 31) context->uc_mcontext.sp = value;
    else context->uc_mcontext.regs[number] = value;
}

/* Where the vector registers lie, 16 bytes each; NULL if they are not told. */
static const unsigned char *vectors(const ucontext_t *context) {
    const unsigned char *at = context->uc_mcontext.__reserved;
    struct _aarch64_ctx head;
    for (memcpy(&head, at, sizeof head); head.magic; memcpy(&head, at, sizeof head)) {
        if (head.magic == FPSIMD_MAGIC) return at + offsetof(struct fpsimd_context, vregs);
        at += head.size;
    }
    return NULL;
}

/* A signed number in `bits` bits from `low` on. */
static uint64_t signed_at(uint32_t code, unsigned low, unsigned bits) {
    return (uint64_t)((int64_t)(int32_t)(code << (32 - low - bits)) >> (32 - bits));
}

/* The offset in a register, by its extension and whether it is taken as often as the register has bytes. */
static int register_offset(const ucontext_t *context, uint32_t code, struct form *form) {
    uint64_t value = reg(context, code >> 16 & 31, 0);
    switch (code >> 13 & 7) {
    case 2: value = (uint32_t)value; break;
    case 3: case 7: break;
    case 6: value = (uint64_t)(int64_t)(int32_t)value; break;
    default: return 0;
    }
    form->offset = code >> 12 & 1 ? value << form->shift : value;
    return 1;
}

static int one(const ucontext_t *context, uint32_t code, struct form *form) {
    unsigned size = code >> 30, opc = code >> 22 & 3, mode = code >> 10 & 3;
    if ((code & 0x3A000000) != 0x38000000) return 0;
    form->vector = code >> 26 & 1;
    form->count = 1;
    if (opc != 0 && !(form->vector && opc == 2 && size == 0)) return 0; /* a load */
    form->shift = opc ? 4 : size;
    form->moves = STAYS;
    if (code >> 24 & 1) { /* unsigned offset */
        form->offset = (uint64_t)(code >> 10 & 0xFFF) << form->shift;
        return 1;
    }
    if (code >> 21 & 1) return mode == 2 && register_offset(context, code, form);
    form->offset = signed_at(code, 12, 9);
    form->moves = mode == 1 ? AFTER : mode == 3 ? BEFORE : STAYS;
    return mode != 2;
}

static int pair(uint32_t code, struct form *form) {
    unsigned opc = code >> 30, mode = code >> 23 & 3;
    if ((code & 0x3A400000) != 0x28000000) return 0;
    form->vector = code >> 26 & 1;
    form->count = 2;
    if (opc == 3 || (!form->vector && opc == 1)) return 0;
    form->shift = form->vector ? 2 + opc : 2 + opc / 2;
    form->offset = signed_at(code, 15, 7) << form->shift;
    form->moves = mode == 1 ? AFTER : mode == 3 ? BEFORE : STAYS;
    return 1;
}

const unsigned char *instruction_at(void *context) {
    return (const unsigned char *)((ucontext_t *)context)->uc_mcontext.pc;
}

int decode_store(void *given, struct decoded *decoded) {
    ucontext_t *context = given;
    const unsigned char *vector = vectors(context);
    struct form form;
    uint32_t code;
    memcpy(&code, instruction_at(given), 4);
    if (!one(context, code, &form) && !pair(code, &form)) return 0;
    if (form.vector && !vector) return 0;
    unsigned number = code >> 5 & 31;
    uint64_t base = reg(context, number, context->uc_mcontext.sp), moved = base + form.offset;
    size_t each = (size_t)1 << form.shift;
    decoded->address = form.moves == AFTER ? base : moved;
    decoded->size = form.count * each;
    decoded->plain = !form.vector && form.count == 1 && each == 8;
    for (unsigned i = 0; i < form.count; i++) {
        unsigned from = i ? code >> 10 & 31 : code & 31;
        uint64_t value = reg(context, from, 0);
        memcpy(decoded->bytes + i * each, form.vector ? vector + 16 * from : (const unsigned char *)&value, each);
    }
    if (form.moves != STAYS) set_base(context, number, moved);
    context->uc_mcontext.pc += 4;
    return 1;
}

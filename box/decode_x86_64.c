/* The stores of x86-64 that compiled code makes: `mov` of a general register or of a constant, of every size, and those of the
 * vector registers of SSE2. */
#define _GNU_SOURCE
#include <string.h>
#include <ucontext.h>

#include "watch.h"

enum { REX_B = 1, REX_X = 2, REX_R = 4, REX_W = 8, OPERAND_16 = 0x66, SCALAR_64 = 0xF2, SCALAR_32 = 0xF3 };
enum { MOV_BYTE = 0x88, MOV_REGISTER = 0x89, MOV_BYTE_CONSTANT = 0xC6, MOV_CONSTANT = 0xC7 };
enum { TWO_BYTES = 0x0F, HIGH_HALF = 0x17, LOW_PART = 0x7E };

static uint64_t reg(const ucontext_t *context, unsigned number) {
    static const int places[16] = {REG_RAX, REG_RCX, REG_RDX, REG_RBX, REG_RSP, REG_RBP, REG_RSI, REG_RDI,
                                   REG_R8,  REG_R9,  REG_R10, REG_R11, REG_R12, REG_R13, REG_R14, REG_R15};
    return (uint64_t)context->uc_mcontext.gregs[places[number]];
}

static int64_t constant(const unsigned char *code, size_t bytes) {
    int32_t wide;
    int16_t half;
    if (bytes == 0) return 0;
    if (bytes == 1) return (int8_t)code[0];
    memcpy(&half, code, 2);
    if (bytes == 2) return half;
    memcpy(&wide, code, 4);
    return wide;
}

/* Reads the operand from its ModRM byte on: the address, and how many bytes it takes. Addresses relative to the program counter
 * are left out, since no caller's memory is reached by one. */
static size_t operand(const ucontext_t *context, const unsigned char *code, unsigned rex, uintptr_t *address) {
    unsigned mode = code[0] >> 6, base = code[0] & 7;
    size_t shift = mode == 1 ? 1 : mode == 2 ? 4 : 0, length = 1;
    uint64_t sum = 0;
    if (mode == 3 || (mode == 0 && base == 5)) return 0;
    if (base == 4) {
        unsigned index = (code[1] >> 3 & 7) | (rex & REX_X ? 8 : 0);
        base = code[1] & 7;
        length = 2;
        if (index != 4) sum = reg(context, index) << (code[1] >> 6);
        if (mode == 0 && base == 5) shift = 4;
    }
    if (!(mode == 0 && base == 5)) sum += reg(context, base | (rex & REX_B ? 8 : 0));
    *address = sum + (uint64_t)constant(code + length, shift);
    return length + shift;
}

const unsigned char *instruction_at(void *context) {
    return (const unsigned char *)((ucontext_t *)context)->uc_mcontext.gregs[REG_RIP];
}

/* A `mov` from its opcode on: how many bytes the instruction takes from there, or 0 if it is none. */
static size_t general(const ucontext_t *context, const unsigned char *code, unsigned prefix, unsigned rex,
                      struct decoded *decoded) {
    unsigned opcode = code[0], number = (code[1] >> 3 & 7) | (rex & REX_R ? 8 : 0);
    uint64_t value;
    if (opcode != MOV_BYTE && opcode != MOV_REGISTER && opcode != MOV_BYTE_CONSTANT && opcode != MOV_CONSTANT) return 0;
    if (prefix && prefix != OPERAND_16) return 0;
    size_t length = operand(context, code + 1, rex, &decoded->address);
    if (length == 0) return 0;
    length++;
    decoded->size = !(opcode & 1) ? 1 : rex & REX_W ? 8 : prefix ? 2 : 4;
    if (opcode >= MOV_BYTE_CONSTANT) {
        size_t given = decoded->size == 8 ? 4 : decoded->size;
        if (number & 7) return 0;
        value = (uint64_t)constant(code + length, given);
        length += given;
    } else if (decoded->size == 1 && !rex && number >= 4) { /* AH, CH, DH, BH */
        value = reg(context, number - 4) >> 8;
    } else {
        value = reg(context, number);
    }
    memcpy(decoded->bytes, &value, decoded->size);
    decoded->plain = decoded->size == 8 && !prefix;
    return length;
}

/* How many bytes an instruction of SSE2 stores, by the byte behind its first opcode byte: 0 if it is none of those known. */
static size_t vector_size(unsigned opcode, unsigned prefix, unsigned rex) {
    int packed = prefix == 0 || prefix == OPERAND_16;
    switch (opcode) {
    case 0x11: return packed ? 16 : prefix == SCALAR_64 ? 8 : 4;
    case 0x29: case 0x2B: return packed ? 16 : 0;
    case 0x7F: return prefix == OPERAND_16 || prefix == SCALAR_32 ? 16 : 0;
    case 0xE7: return prefix == OPERAND_16 ? 16 : 0;
    case 0xD6: return prefix == OPERAND_16 ? 8 : 0;
    case LOW_PART: return prefix != OPERAND_16 ? 0 : rex & REX_W ? 8 : 4;
    case 0x13: case HIGH_HALF: return packed ? 8 : 0;
    default: return 0;
    }
}

static size_t vector(const ucontext_t *context, const unsigned char *code, unsigned prefix, unsigned rex, struct decoded *decoded) {
    unsigned number = (code[1] >> 3 & 7) | (rex & REX_R ? 8 : 0);
    if (!context->uc_mcontext.fpregs) return 0;
    decoded->size = vector_size(code[0], prefix, rex);
    decoded->plain = 0;
    size_t length = decoded->size ? operand(context, code + 1, rex, &decoded->address) : 0;
    if (length == 0) return 0;
    const unsigned char *from = (const unsigned char *)&context->uc_mcontext.fpregs->_xmm[number];
    memcpy(decoded->bytes, code[0] == HIGH_HALF ? from + 8 : from, decoded->size);
    return length + 1;
}

int decode_store(void *given, struct decoded *decoded) {
    ucontext_t *context = given;
    const unsigned char *start = instruction_at(given), *code = start;
    unsigned prefix = *code == OPERAND_16 || *code == SCALAR_64 || *code == SCALAR_32 ? *code++ : 0;
    unsigned rex = (*code & 0xF0) == 0x40 ? *code++ : 0;
    size_t length;
    if (*code == TWO_BYTES) {
        code++;
        length = vector(context, code, prefix, rex, decoded);
    } else {
        length = general(context, code, prefix, rex, decoded);
    }
    if (length == 0) return 0;
    context->uc_mcontext.gregs[REG_RIP] += (greg_t)(code - start) + (greg_t)length;
    return 1;
}

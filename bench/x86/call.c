/* One run over the words of `bench give`, for counting its instructions. This file's code lies outside .text, so that .text has
   the unit's and nothing else. It is linked without a C library, so the types and the call are declared here. */
typedef __UINT64_TYPE__ word;
typedef __SIZE_TYPE__ length;

word tahvenno_run(word *kept, length words, word *table, length table_words, const unsigned char *queue, length bytes,
                  word features, word allowance, word answer[8]);

/* Lengths of kept memory, second table and queue in words, the features, and the three. */
__asm__(".data\n.balign 64\ninput: .incbin \"" INPUT "\"\n.text");
extern word input[];

#define OUTSIDE __attribute__((section(".outside"), used))

OUTSIDE static _Noreturn void leave(word code)
{
    __asm__ volatile("syscall" : : "a"(60L), "D"(code) : "rcx", "r11", "memory");
    __builtin_unreachable();
}

/* Leaves with the number that the run returns. */
OUTSIDE static void enter(void)
{
    word answer[8];
    word *kept = input + 4, *table = kept + input[0], *queue = table + input[1];
    leave(tahvenno_run(kept, input[0], table, input[1], (const unsigned char *)queue, 8 * input[2], input[3], -1UL, answer));
}

__asm__(".section .outside,\"ax\"\n.globl _start\n_start: call enter\n.text");

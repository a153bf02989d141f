/* A wrapper for each export of the library, to be linked before it: `mz_F` passes its call on to `true_mz_F`, as which the
 * library's own is renamed. On one call that the environment names something comes back wrong:
 *
 *   WRONG=mz_F AT=N WHAT=answer    the Nth answer of mz_F has its lowest bit turned
 *                   WHAT=first     what its first argument points to has, in its first byte; where the second argument
 *                                  is 0, and so may be the length of nothing, a later call's
 *                   WHAT=third     the same of its third, by the fourth
 *                   WHAT=seventh   the same of its seventh, by the eighth
 *                   WHAT=ninth     the same of its ninth, which has a length of its own
 *                   WHAT=sole      the same of its first, where there is no other
 *   COUNT=1                        at the end standard error gets how often each was called
 *
 * exports.h has a line EXPORT(mz_F) for each. The return address is kept aside, so that arguments on the stack are where the
 * function looks for them, whatever it takes; it is for one thread, and for no export that calls another. For x86-64 and for
 * aarch64, the same step by step. */
#include <stdio.h>
#include <stdlib.h>
#include <string.h>

struct fault {
    long calls, at; /* at 0 nothing is wrong */
    const char *name;
};

__attribute__((used)) void *back_to, *first, *second, *third, *fourth, *seventh, *eighth, *ninth, **pointed, **length;

#define EXPORT(function) __attribute__((used)) struct fault fault_##function = {0, 0, #function};
#include "exports.h"
#undef EXPORT

#if defined __x86_64__

__asm__(".text\n"
        "answered:\n" /* rcx has the fault */
        " incq (%rcx)\n"
        " cmpq $0, 8(%rcx)\n"
        " je 3f\n"
        " movq (%rcx), %rdx\n"
        " cmpq 8(%rcx), %rdx\n"
        " jl 3f\n"
        " movq pointed(%rip), %rdx\n"
        " testq %rdx, %rdx\n"
        " jz 1f\n"
        " movq length(%rip), %r8\n"
        " cmpq $0, (%r8)\n"
        " je 3f\n"
        " movq (%rdx), %rdx\n"
        " xorb $1, (%rdx)\n"
        " jmp 2f\n"
        "1: xorq $1, %rax\n"
        "2: movq $0, 8(%rcx)\n"
        "3: ret\n");

#define EXPORT(function)                                       \
    __asm__(".globl " #function "\n" #function ":\n"           \
            " popq back_to(%rip)\n"                            \
            " movq %rdi, first(%rip)\n"                        \
            " movq %rsi, second(%rip)\n"                       \
            " movq %rdx, third(%rip)\n"                        \
            " movq %rcx, fourth(%rip)\n"                       \
            " movq (%rsp), %rax\n"                             \
            " movq %rax, seventh(%rip)\n"                      \
            " movq 8(%rsp), %rax\n"                            \
            " movq %rax, eighth(%rip)\n"                       \
            " movq 16(%rsp), %rax\n"                           \
            " movq %rax, ninth(%rip)\n"                        \
            " call true_" #function "\n"                       \
            " pushq back_to(%rip)\n"                           \
            " leaq fault_" #function "(%rip), %rcx\n"          \
            " jmp answered\n");
#include "exports.h"
#undef EXPORT

#elif defined __aarch64__

/* a number in memory, by way of x10, to a register and back */
#define AT(name) " adrp x10, " name "\n add x10, x10, :lo12:" name "\n"
#define GET(register, name) AT(name) " ldr " register ", [x10]\n"
#define PUT(register, name) AT(name) " str " register ", [x10]\n"

__asm__(".text\n"
        "answered:\n" /* x9 has the fault */
        " ldp x11, x12, [x9]\n"
        " add x11, x11, #1\n"
        " str x11, [x9]\n"
        " cbz x12, 3f\n"
        " cmp x11, x12\n"
        " b.lt 3f\n"
        GET("x11", "pointed")
        " cbz x11, 1f\n"
        GET("x12", "length")
        " ldr x12, [x12]\n"
        " cbz x12, 3f\n"
        " ldr x11, [x11]\n"
        " ldrb w12, [x11]\n"
        " eor w12, w12, #1\n"
        " strb w12, [x11]\n"
        " b 2f\n"
        "1: eor x0, x0, #1\n"
        "2: str xzr, [x9, #8]\n"
        "3:" GET("x30", "back_to")
        " ret\n");

#define EXPORT(function)                                              \
    __asm__(".globl " #function "\n" #function ":\n"                  \
            PUT("x30", "back_to") PUT("x0", "first") PUT("x1", "second") PUT("x2", "third") \
            PUT("x3", "fourth") PUT("x6", "seventh") PUT("x7", "eighth") \
            " ldr x9, [sp]\n" PUT("x9", "ninth")                      \
            " bl true_" #function "\n"                                \
            AT("fault_" #function)                                    \
            " mov x9, x10\n"                                          \
            " b answered\n");
#include "exports.h"
#undef EXPORT

#else
#error "the wrappers are written for x86-64 and for aarch64"
#endif

#define EXPORT(function) &fault_##function,
static struct fault *const faults[] = {
#include "exports.h"
};
#define COUNT (sizeof faults / sizeof *faults)

__attribute__((destructor)) static void count(void) {
    for (size_t k = 0; getenv("COUNT") && k < COUNT; k++)
        fprintf(stderr, "%s %ld\n", faults[k]->name, faults[k]->calls);
}

__attribute__((constructor)) static void ask(void) {
    const char *name = getenv("WRONG"), *at = getenv("AT"), *what = getenv("WHAT");
    if (!name || !at || !what)
        return;
    static const struct {
        const char *what;
        void **pointed, **length;
    } arguments[] = {{"first", &first, &second}, {"third", &third, &fourth}, {"seventh", &seventh, &eighth},
                     {"ninth", &ninth, &ninth},  {"sole", &first, &first}};
    for (size_t k = 0; k < sizeof arguments / sizeof *arguments; k++)
        if (!strcmp(what, arguments[k].what)) {
            pointed = arguments[k].pointed;
            length = arguments[k].length;
        }
    for (size_t k = 0; k < COUNT; k++)
        if (!strcmp(name, faults[k]->name))
            faults[k]->at = atol(at);
}

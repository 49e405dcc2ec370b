/* SPDX-License-Identifier: ISC */
/* Runs the code of probe.S on Linux, from the file that it is given, for frames of several sizes
 * on a stack whose pages are closed but for the first one: it must touch each page of the frame
 * once, from above, and no other, and keep all registers. */
#define _GNU_SOURCE
#include <fcntl.h>
#include <signal.h>
#include <stdint.h>
#include <stdio.h>
#include <string.h>
#include <sys/mman.h>
#include <unistd.h>

#define PAGE 4096
#define PAGES 64
#define REGISTERS 15 /* all but rsp */
#define PUSHED 24    /* what the call itself puts below the stack pointer */

static uint8_t *stack, *lowest; /* the lowest page that is open */
static int disorder;
static uint64_t before[REGISTERS], after[REGISTERS];

static void open_page(int signal, siginfo_t *it, void *context) {
    (void)signal, (void)context;
    uint8_t *page = (uint8_t *)((uintptr_t)it->si_addr & ~(uintptr_t)(PAGE - 1));
    if (page != lowest - PAGE) disorder++;
    if (page < stack || mprotect(page, PAGE, PROT_READ | PROT_WRITE)) _exit(2);
    lowest = page;
}

/* call_probe(CODE, RSP): calls the code with `before` in the registers, and keeps `after`. */
void call_probe(const void *code, void *rsp);
#define LOAD(register, place) "mov before+" #place "(%rip), %" #register "\n"
#define KEEP(register, place) "mov %" #register ", after+" #place "(%rip)\n"
#define EACH(X)                                                                                    \
    X(rax, 0) X(rbx, 8) X(rcx, 16) X(rdx, 24) X(rsi, 32) X(rdi, 40) X(rbp, 48) X(r8, 56)           \
    X(r9, 64) X(r10, 72) X(r11, 80) X(r12, 88) X(r13, 96) X(r14, 104) X(r15, 112)
__asm__(".text\n.globl call_probe\n.type call_probe, %function\ncall_probe:\n"
        "push %rbx\npush %rbp\npush %r12\npush %r13\npush %r14\npush %r15\n"
        "mov %rdi, probe(%rip)\nmov %rsp, kept(%rip)\nmov %rsi, %rsp\n" EACH(LOAD)
        "call *probe(%rip)\n" EACH(KEEP) "mov kept(%rip), %rsp\n"
        "pop %r15\npop %r14\npop %r13\npop %r12\npop %rbp\npop %rbx\nret\n"
        ".bss\n.p2align 3\nprobe: .zero 8\nkept: .zero 8\n.text\n");

/* Whether a frame of a size, at a place in the first page, is touched as it must be. */
static int is_touched(const void *code, uint64_t size, size_t at) {
    uint8_t *top = stack + PAGES * PAGE;
    mprotect(stack, PAGES * PAGE, PROT_NONE);
    mprotect(top - PAGE, PAGE, PROT_READ | PROT_WRITE);
    lowest = top - PAGE, disorder = 0;
    for (int i = 0; i < REGISTERS; i++) before[i] = (uint64_t)i * 0x0123456789abcdef + 1;
    before[0] = size;
    uint8_t *frame = top - at - size; /* where the function's frame will begin */
    call_probe(code, top - at);
    uint8_t *page = (uint8_t *)((uintptr_t)frame & ~(uintptr_t)(PAGE - 1));
    return lowest == page && !disorder && !memcmp(before, after, sizeof before);
}

int main(int count, char **arguments) {
    static const uint64_t SIZES[] = {1, 4095, 4096, 4097, 5288, 8192, 9704, 12288, 12289, 65536};
    uint8_t *code = mmap(NULL, PAGE, PROT_READ | PROT_WRITE, MAP_PRIVATE | MAP_ANONYMOUS, -1, 0);
    int file = count == 2 ? open(arguments[1], O_RDONLY) : -1;
    if (file < 0 || read(file, code, PAGE) <= 0 || mprotect(code, PAGE, PROT_READ | PROT_EXEC))
        return 2;
    stack = mmap(NULL, PAGES * PAGE, PROT_NONE, MAP_PRIVATE | MAP_ANONYMOUS, -1, 0);
    static uint8_t other[64 * 1024];
    sigaltstack(&(stack_t){.ss_sp = other, .ss_size = sizeof other}, NULL);
    sigaction(SIGSEGV, &(struct sigaction){.sa_sigaction = open_page,
                                           .sa_flags = SA_SIGINFO | SA_ONSTACK}, NULL);
    int faults = 0;
    for (size_t i = 0; i < sizeof SIZES / sizeof *SIZES; i++)
        for (size_t at = 128; at <= PAGE - PUSHED; at += 8)
            if (!is_touched(code, SIZES[i], at) && !faults++)
                printf("FAILED: a frame of %d bytes, %d below the stack's end\n", (int)SIZES[i],
                       (int)at);
    if (!faults) puts("each page of a frame is touched in turn");
    return faults != 0;
}

/* What is asked of evaporation.dll on Windows besides the tests of all calls: every call on the largest sheets of each
   version, each in a fresh thread with the usual stack and in one with EVP_STACK_BYTES, and whether the registers that a
   function must keep on Windows (rbx, rbp, rdi, rsi, r12 to r15, xmm6 to xmm15) are kept. Prints how much of a fresh
   stack is committed, by Windows a page or two, by Wine all of it (hence c/pages.c, on Linux); exit status 1 where a
   call fails or a register is lost. */
#include <windows.h>

#include <inttypes.h>
#include <stdio.h>

#include "every.h"

enum { GENERAL = 8, VECTOR = 10 };
struct registers {
    uint64_t general[GENERAL], vector[VECTOR][2];
};

/* Fills the registers from *registers, makes the call, and writes to *registers what they then have. */
uint64_t with_registers(uint64_t (*call)(void), struct registers *registers);
__asm__(
    ".text\n.globl with_registers\nwith_registers:\n"
    "push %rbx\npush %rbp\npush %rdi\npush %rsi\npush %r12\npush %r13\npush %r14\npush %r15\nsub $216, %rsp\n"
    "movups %xmm6, 32(%rsp)\nmovups %xmm7, 48(%rsp)\nmovups %xmm8, 64(%rsp)\nmovups %xmm9, 80(%rsp)\n"
    "movups %xmm10, 96(%rsp)\nmovups %xmm11, 112(%rsp)\nmovups %xmm12, 128(%rsp)\nmovups %xmm13, 144(%rsp)\n"
    "movups %xmm14, 160(%rsp)\nmovups %xmm15, 176(%rsp)\nmov %rdx, 192(%rsp)\n"
    "mov (%rdx), %rbx\nmov 8(%rdx), %rbp\nmov 16(%rdx), %rdi\nmov 24(%rdx), %rsi\n"
    "mov 32(%rdx), %r12\nmov 40(%rdx), %r13\nmov 48(%rdx), %r14\nmov 56(%rdx), %r15\n"
    "movups 64(%rdx), %xmm6\nmovups 80(%rdx), %xmm7\nmovups 96(%rdx), %xmm8\nmovups 112(%rdx), %xmm9\n"
    "movups 128(%rdx), %xmm10\nmovups 144(%rdx), %xmm11\nmovups 160(%rdx), %xmm12\nmovups 176(%rdx), %xmm13\n"
    "movups 192(%rdx), %xmm14\nmovups 208(%rdx), %xmm15\n"
    "call *%rcx\n"
    "mov 192(%rsp), %rdx\n"
    "mov %rbx, (%rdx)\nmov %rbp, 8(%rdx)\nmov %rdi, 16(%rdx)\nmov %rsi, 24(%rdx)\n"
    "mov %r12, 32(%rdx)\nmov %r13, 40(%rdx)\nmov %r14, 48(%rdx)\nmov %r15, 56(%rdx)\n"
    "movups %xmm6, 64(%rdx)\nmovups %xmm7, 80(%rdx)\nmovups %xmm8, 96(%rdx)\nmovups %xmm9, 112(%rdx)\n"
    "movups %xmm10, 128(%rdx)\nmovups %xmm11, 144(%rdx)\nmovups %xmm12, 160(%rdx)\nmovups %xmm13, 176(%rdx)\n"
    "movups %xmm14, 192(%rdx)\nmovups %xmm15, 208(%rdx)\n"
    "movups 32(%rsp), %xmm6\nmovups 48(%rsp), %xmm7\nmovups 64(%rsp), %xmm8\nmovups 80(%rsp), %xmm9\n"
    "movups 96(%rsp), %xmm10\nmovups 112(%rsp), %xmm11\nmovups 128(%rsp), %xmm12\nmovups 144(%rsp), %xmm13\n"
    "movups 160(%rsp), %xmm14\nmovups 176(%rsp), %xmm15\n"
    "add $216, %rsp\npop %r15\npop %r14\npop %r13\npop %r12\npop %rsi\npop %rdi\npop %rbp\npop %rbx\nret\n");

/* What a thread is asked to do, and what it found. */
struct task {
    uint64_t (*call)(void);
    uint64_t number;
    size_t before, after; /* bytes of its stack that are committed */
    int kept;             /* whether the registers were */
};

static size_t committed(void) {
    const NT_TIB *block = (const NT_TIB *)NtCurrentTeb();
    return (size_t)((const char *)block->StackBase - (const char *)block->StackLimit);
}

static DWORD WINAPI run(void *given) {
    struct task *task = given;
    struct registers set, found;
    memset(&set, 0x5a, sizeof set);
    found = set;
    task->before = committed();
    task->number = with_registers(task->call, &found);
    task->after = committed();
    task->kept = memcmp(&set, &found, sizeof set) == 0;
    return 0;
}

static void in_thread(LPTHREAD_START_ROUTINE start, void *task, size_t stack) {
    HANDLE thread = CreateThread(NULL, stack, start, task, stack ? STACK_SIZE_PARAM_IS_A_RESERVATION : 0, NULL);
    if (thread == NULL || WaitForSingleObject(thread, INFINITE) != WAIT_OBJECT_0)
        ExitProcess(2);
    CloseHandle(thread);
}

/* All calls, each in a fresh thread with such a stack; how many fail. */
static int all_calls(size_t stack, size_t *least, size_t *most) {
    int failures = 0;
    for (size_t i = 0; i < CALLS; i++) {
        struct task task = {calls[i].call, 0, 0, 0, 0};
        in_thread(run, &task, stack);
        if (task.number != 0 || !task.kept) {
            printf("%s: answer %" PRIu64 "%s\n", calls[i].name, task.number, task.kept ? "" : ", registers are lost");
            failures++;
        }
        *least = task.before < *least ? task.before : *least;
        *most = task.after > *most ? task.after : *most;
    }
    return failures;
}

/* Loses a register: the test must see it. */
static uint64_t loses_one(void) {
    __asm__ volatile("xorps %xmm9, %xmm9");
    return 0;
}

int main(void) {
    struct task lost = {loses_one, 0, 0, 0, 0};
    size_t least = SIZE_MAX, most = 0;
    int failures = 0;
    in_thread(run, &lost, 0);
    if (lost.kept) {
        puts("a register that is lost goes unnoticed");
        failures++;
    }
    for (unsigned version = 1; version <= 4; version++) {
        make_sheets(version, 12, version == 4 ? 1000 : 32);
        failures += all_calls(0, &least, &most) + all_calls(EVP_STACK_BYTES, &least, &most);
    }
    printf("every call in fresh threads: %zu bytes of stack committed before, at most %zu after; %d failures\n", least,
           most, failures);
    return failures != 0;
}

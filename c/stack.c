/* How much of its stack a call takes. Every call is made on the largest sheets of each version, each in a thread whose
 * stack has EVP_STACK_BYTES and no byte more, filled with a pattern before; what the pattern lost is printed. The exit
 * status is 0 only where each call is answered and has left a quarter of the stack untouched. */
#include <inttypes.h>
#include <pthread.h>
#include <stdio.h>
#include <stdlib.h>
#include <sys/mman.h>

#include "every.h"

#define PATTERN 0x5a
#define PAGE 4096

static uint64_t number;

static void *run(void *call) {
    number = calls[*(size_t *)call].call();
    return NULL;
}

/* Bytes at the low end of the stack that still have the pattern: it grows from the high end. */
static size_t untouched(const uint8_t *stack) {
    size_t i = 0;
    while (i < EVP_STACK_BYTES && stack[i] == PATTERN)
        i++;
    return i;
}

/* Makes the call in a thread of its own, below whose stack stands a page that nobody may touch; the bytes it took. */
static size_t stack_of(size_t call) {
    pthread_t thread;
    pthread_attr_t attributes;
    uint8_t *guarded = mmap(NULL, PAGE + EVP_STACK_BYTES, PROT_READ | PROT_WRITE, MAP_PRIVATE | MAP_ANONYMOUS, -1, 0);
    uint8_t *stack = guarded + PAGE;
    size_t taken;
    if (guarded == MAP_FAILED || mprotect(guarded, PAGE, PROT_NONE) != 0)
        exit(2);
    memset(stack, PATTERN, EVP_STACK_BYTES);
    if (pthread_attr_init(&attributes) != 0 || pthread_attr_setstack(&attributes, stack, EVP_STACK_BYTES) != 0
        || pthread_create(&thread, &attributes, run, &call) != 0 || pthread_join(thread, NULL) != 0)
        exit(2);
    taken = EVP_STACK_BYTES - untouched(stack);
    munmap(guarded, PAGE + EVP_STACK_BYTES);
    return taken;
}

/* All calls on sheets of a version; the most that one of them took. */
static size_t most_of(unsigned version, int *failures) {
    size_t most = 0;
    make_sheets(version, 12, version == 4 ? 1000 : 32);
    for (size_t i = 0; i < CALLS; i++) {
        const size_t taken = stack_of(i);
        printf("version %u %-20s %6zu bytes of stack, answer %" PRIu64 "\n", version, calls[i].name, taken, number);
        *failures += number != 0 || taken > EVP_STACK_BYTES / 4 * 3;
        most = taken > most ? taken : most;
    }
    return most;
}

int main(void) {
    int failures = 0;
    size_t most = 0;
    for (unsigned version = 1; version <= 4; version++) {
        const size_t taken = most_of(version, &failures);
        most = taken > most ? taken : most;
    }
    printf("at most %zu of %d bytes of stack, the thread's own among them: %d failures\n", most, EVP_STACK_BYTES,
           failures);
    return failures != 0;
}

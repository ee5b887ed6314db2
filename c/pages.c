/* Whether every call touches its stack page by page, as Windows asks: there a page is committed where the page above it
 * has been touched, and whoever touches one further below is ended. Every call is made on the largest sheets of each
 * version in a thread of which only the uppermost pages can be touched. The page below them is opened when it is
 * touched first, and then the next; a page out of turn ends the program with status 1. A function that does touch one
 * out of turn is tried as well, in a child, which must end so. */
#include <inttypes.h>
#include <pthread.h>
#include <signal.h>
#include <stdio.h>
#include <stdlib.h>
#include <sys/mman.h>
#include <sys/wait.h>
#include <unistd.h>

#include "every.h"

enum { PAGE = 4096, START = 6 * PAGE }; /* the thread's own data are in the uppermost pages */

static uint8_t *next;                   /* the page that may be touched next */
static volatile sig_atomic_t opened;    /* how many were */
static uint8_t signal_stack[65536];

static void on_fault(int number, siginfo_t *about, void *context) {
    static const char said[] = "a page of the stack was touched out of turn\n";
    const uint8_t *at = about->si_addr;
    (void)number, (void)context;
    if (at < next || at >= next + PAGE || mprotect(next, PAGE, PROT_READ | PROT_WRITE) != 0) {
        if (write(2, said, sizeof said - 1) < 0)
            _exit(3);
        _exit(1);
    }
    next -= PAGE;
    opened++;
}

static void *run(void *call) {
    const stack_t other = {.ss_sp = signal_stack, .ss_size = sizeof signal_stack};
    uint64_t (*made)(void) = *(uint64_t (**)(void))call;
    if (sigaltstack(&other, NULL) != 0)
        exit(2);
    return (void *)(uintptr_t)made();
}

/* Makes the call in a thread with such a stack; its answer. */
static uint64_t page_by_page(uint64_t (*call)(void)) {
    pthread_t thread;
    pthread_attr_t attributes;
    void *answer;
    uint8_t *stack = mmap(NULL, EVP_STACK_BYTES, PROT_NONE, MAP_PRIVATE | MAP_ANONYMOUS, -1, 0);
    if (stack == MAP_FAILED || mprotect(stack + EVP_STACK_BYTES - START, START, PROT_READ | PROT_WRITE) != 0)
        exit(2);
    next = stack + EVP_STACK_BYTES - START - PAGE;
    opened = 0;
    if (pthread_attr_init(&attributes) != 0 || pthread_attr_setstack(&attributes, stack, EVP_STACK_BYTES) != 0
        || pthread_create(&thread, &attributes, run, &call) != 0 || pthread_join(thread, &answer) != 0)
        exit(2);
    munmap(stack, EVP_STACK_BYTES);
    return (uintptr_t)answer;
}

/* A large frame whose lowest byte is touched first. */
static uint64_t out_of_turn(void) {
    volatile uint8_t frame[80000];
    frame[0] = 1;
    return frame[0] - 1u;
}

static int is_noticed(void) {
    int status = 0;
    const pid_t child = fork();
    if (child == 0) {
        if (freopen("/dev/null", "w", stderr) == NULL)
            _exit(3);
        _exit(page_by_page(out_of_turn) == 0 ? 0 : 3);
    }
    return child > 0 && waitpid(child, &status, 0) == child && WIFEXITED(status) && WEXITSTATUS(status) == 1;
}

int main(void) {
    const struct sigaction action = {.sa_sigaction = on_fault, .sa_flags = SA_SIGINFO | SA_ONSTACK};
    int failures = 0, most = 0;
    if (sigaction(SIGSEGV, &action, NULL) != 0)
        return 2;
    for (unsigned version = 1; version <= 4; version++) {
        make_sheets(version, 12, version == 4 ? 1000 : 32);
        for (size_t i = 0; i < CALLS; i++) {
            failures += page_by_page(calls[i].call) != 0;
            most = opened > most ? opened : most;
        }
    }
    if (!is_noticed()) {
        puts("a page that is touched out of turn goes unnoticed");
        failures++;
    }
    printf("every call touches its stack page by page: at most %d pages were opened one after the other; %d failures\n",
           most, failures);
    return failures != 0 || most < 10;
}

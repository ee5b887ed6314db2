/* What a host asks of the library, tried: reports inside signal handlers that interrupt reports, on an alternate stack
   of EVP_STACK_BYTES, and reports in children that are forked while other threads are in calls. Each is compared with
   the report of the same sheet made in peace. Usage: host SHEET.evp; exit status 1 where one differs or too few were
   made. */
#include <evaporation.h>
#include <pthread.h>
#include <signal.h>
#include <stdatomic.h>
#include <stdio.h>
#include <stdlib.h>
#include <string.h>
#include <sys/time.h>
#include <sys/wait.h>
#include <time.h>
#include <unistd.h>

enum { HANDLERS = 30, CHILDREN = 20, THREADS = 4, SECONDS = 20 };

static uint8_t sheet[EVP_SHEET_BYTES];
static size_t bytes, count;
static uint64_t expected[EVP_WORDS], inside[EVP_WORDS];
static volatile sig_atomic_t in_call, handled, interrupting, wrong;
static atomic_int stop;

/* Whether a report into these words is the expected one. */
static int same(uint64_t *words) {
    struct evp_check answer = evp_report(sheet, bytes, words, EVP_WORDS);
    return answer.number == EVP_ACCEPTED && memcmp(words, expected, count * sizeof *words) == 0;
}

static void on_alarm(int number) {
    (void)number;
    interrupting += in_call;
    wrong |= !same(inside);
    handled++;
}

/* Reports in handlers, most of which interrupt a report. */
static void handlers(void) {
    static uint64_t words[EVP_WORDS];
    stack_t stack = {.ss_sp = malloc(EVP_STACK_BYTES), .ss_size = EVP_STACK_BYTES};
    struct sigaction action = {.sa_handler = on_alarm, .sa_flags = SA_ONSTACK | SA_RESTART};
    struct itimerval often = {{0, 3000}, {0, 3000}}, never = {{0, 0}, {0, 0}};
    time_t end = time(NULL) + SECONDS;
    if (stack.ss_sp == NULL || sigaltstack(&stack, NULL) || sigaction(SIGALRM, &action, NULL))
        exit(2);
    setitimer(ITIMER_REAL, &often, NULL);
    while (interrupting < HANDLERS && time(NULL) < end) {
        in_call = 1;
        int held = same(words);
        in_call = 0;
        wrong |= !held;
    }
    setitimer(ITIMER_REAL, &never, NULL);
}

static void *reports(void *failed) {
    uint64_t *words = calloc(EVP_WORDS, sizeof *words);
    while (words != NULL && !atomic_load(&stop))
        if (!same(words))
            *(int *)failed = 1;
    free(words);
    return NULL;
}

/* Children that report while threads of their parent were in calls; the number of those that did as expected. */
static int children(void) {
    static uint64_t words[EVP_WORDS];
    pthread_t threads[THREADS];
    int failed[THREADS] = {0}, held = 0, status;
    for (int i = 0; i < THREADS; i++)
        if (pthread_create(&threads[i], NULL, reports, &failed[i]))
            exit(2);
    for (int i = 0; i < CHILDREN; i++) {
        pid_t child = fork();
        if (child == 0)
            _exit(!same(words));
        held += child > 0 && waitpid(child, &status, 0) == child && WIFEXITED(status) && WEXITSTATUS(status) == 0;
    }
    atomic_store(&stop, 1);
    for (int i = 0; i < THREADS; i++) {
        pthread_join(threads[i], NULL);
        wrong |= failed[i];
    }
    return held;
}

int main(int argc, char **argv) {
    FILE *file = argc == 2 ? fopen(argv[1], "rb") : NULL;
    if (file == NULL)
        return fputs("usage: host SHEET.evp\n", stderr), 2;
    bytes = fread(sheet, 1, sizeof sheet, file);
    fclose(file);
    count = evp_report_words(sheet, bytes);
    if (count == 0 || evp_report(sheet, bytes, expected, EVP_WORDS).number != EVP_ACCEPTED)
        return fputs("host: the sheet is refused\n", stderr), 2;
    handlers();
    int held = children();
    printf("reports in %s signal handlers that interrupt a report: %s; in %d children of a process with %d threads in "
           "calls: %s\n", interrupting >= HANDLERS ? "30" : "fewer than 30", wrong ? "NOT as expected" : "as expected",
           CHILDREN, THREADS, held == CHILDREN ? "as expected" : "NOT as expected");
    return wrong || held != CHILDREN || interrupting < HANDLERS;
}

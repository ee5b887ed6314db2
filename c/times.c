/* How long a call takes: on a sheet of 1 season and 20 rows, and on the longest there is. Each is repeated for a
 * hundredth of a second and more, five times; the shortest of the five is printed, in microseconds a call. The exit
 * status is 0 only where every call is answered as it should be; how long it took decides nothing. */
#include <stdio.h>
#include <time.h>

#include "every.h"

static int failures;

static double now(void) {
    struct timespec time;
    clock_gettime(CLOCK_THREAD_CPUTIME_ID, &time);
    return (double)time.tv_sec + 1e-9 * (double)time.tv_nsec;
}

/* Seconds for so many calls of a function. */
static double repeated(size_t call, unsigned times) {
    uint64_t wrong = 0;
    const double began = now();
    for (unsigned i = 0; i < times; i++)
        wrong |= calls[call].call();
    failures += wrong != 0;
    return now() - began;
}

/* Microseconds of one call. */
static double time_of(size_t call) {
    unsigned times = 1;
    double least;
    while (repeated(call, times) < 0.01)
        times *= 2;
    least = repeated(call, times);
    for (int i = 0; i < 4; i++) {
        const double took = repeated(call, times);
        least = took < least ? took : least;
    }
    return 1e6 * least / times / calls[call].times;
}

int main(void) {
    double small[CALLS];
    make_sheets(4, 1, 20);
    for (size_t i = 0; i < CALLS; i++)
        small[i] = time_of(i);
    make_sheets(4, 12, 1000);
    for (size_t i = 0; i < CALLS; i++)
        printf("%-20s %10.3f %10.3f microseconds a call\n", calls[i].name, small[i], time_of(i));
    printf("1 season and 20 rows, then 12 and 1,000; shared and pooled half as many rows: %d failures\n", failures);
    return failures != 0;
}

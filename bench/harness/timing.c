// Medians of interleaved samples. A sample holds as many runs as fill a millisecond.
#include "bench.h"
#include <stdlib.h>
#include <time.h>

enum { SAMPLES = 2001 };

double now(void) {
    struct timespec t;
    clock_gettime(CLOCK_THREAD_CPUTIME_ID, &t); // what other programs take on a shared machine is left out
    return 1e9 * (double)t.tv_sec + (double)t.tv_nsec;
}

static double sample(Action act, void *with, long runs) {
    double before = now();
    for (long i = 0; i < runs; i++) act(with);
    return (now() - before) / (double)runs;
}

static int rising(const void *a, const void *b) {
    double x = *(const double *)a, y = *(const double *)b;
    return (x > y) - (x < y);
}

static Time sum_up(double *times, int n) {
    qsort(times, (size_t)n, sizeof *times, rising);
    return (Time){times[n / 2], times[0]};
}

#ifdef WITH_SECOND
extern int second_method;
#endif

void refine_by(int method) {
    plain_method = method;
#ifdef WITH_SECOND
    second_method = method;
#endif
}

typedef struct {
    Action act;
    int method;
} Timed;

static Times time_all(const Timed *timed, int count, void *with, double seconds, int most) {
    static double times[MOST_ACTIONS][SAMPLES];
    double single = 0;
    for (int a = 0; a < count; a++) {
        refine_by(timed[a].method);
        double t = sample(timed[a].act, with, 1);
        if (t < 1e8) t = sample(timed[a].act, with, 1); // the first was to warm up
        if (t > single) single = t;
    }
    const int least = single > 2e9 ? 3 : 5;
    long runs = single > 1e6 ? 1 : (long)(1e6 / single) + 1;
    double end = now() + 1e9 * seconds;
    int n = 0;
    if (most > SAMPLES) most = SAMPLES;
    for (; n < most && (n < least || now() < end); n++)
        for (int a = 0; a < count; a++) {
            int turn = (a + n) % count; // each goes first in its turn
            refine_by(timed[turn].method);
            times[turn][n] = sample(timed[turn].act, with, runs);
        }
    refine_by(ROUNDS);
    Times out = {.samples = n, .runs = runs};
    for (int a = 0; a < count; a++) out.time[a] = sum_up(times[a], n);
    return out;
}

// The product first, then plain C by each compiler and each way to refine: of these the quickest one.
Times time_both(Action product, Action twin, Action second, void *with, double seconds, int most) {
    const Timed timed[MOST_ACTIONS] = {{product, ROUNDS}, {twin, ROUNDS}, {twin, HOPCROFT}, {second, ROUNDS}, {second, HOPCROFT}};
    const int count = second ? 5 : 3;
    Times x = time_all(timed, count, with, seconds, most);
    x.first = x.time[0];
    x.second = x.time[1];
    for (int a = 2; a < count; a++)
        if (x.time[a].median < x.second.median) x.second = x.time[a];
    return x;
}

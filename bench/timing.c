/* Timing under equal conditions. All tasks that are compared have the same number of rounds in the same stretch of time, in another order
   in each round, and a task is done as often in its turn as makes all turns about equally long. What counts is the processor time of the
   thread, which other programs' turns do not lengthen, and its median over the rounds, which neither a late nor an early reading moves.
   The median is taken over the even and over the odd rounds too: where these disagree, the number is not to be relied on. */
#include "bench.h"
#include <stdlib.h>
#include <string.h>
#include <time.h>

enum { ROUNDS = 40 };
static const double TURN = 5000; /* microseconds */

long readings, impossible_readings;

static double now(void) {
    struct timespec t;
    clock_gettime(CLOCK_THREAD_CPUTIME_ID, &t);
    return (double)t.tv_sec * 1e6 + (double)t.tv_nsec * 1e-3;
}

/* The microseconds of one case, from `times` passes over all. */
static double one_turn(const Task *task, int times) {
    double start = now();
    for (int pass = 0; pass < times; pass++)
        for (int at = 0; at < CASES; at++) task->operation(task->cases, at);
    return (now() - start) / (times * CASES);
}

/* How many passes make one turn. */
static int passes(const Task *task) {
    one_turn(task, 1);
    double pass = CASES * one_turn(task, 1);
    return pass < TURN / 100 ? 100 : pass < TURN ? (int)(TURN / pass) + 1 : 1;
}

static void shuffle(int *order, int count) {
    for (int k = 0; k < count; k++) order[k] = k;
    for (int k = count - 1; k > 0; k--) {
        int other = (int)random_below((unsigned)k + 1), kept = order[k];
        order[k] = order[other];
        order[other] = kept;
    }
}

static int rising(const void *a, const void *b) {
    double x = *(const double *)a, y = *(const double *)b;
    return (x > y) - (x < y);
}

/* The median of every `step`-th round from `from` on. */
static double median(const double *taken, int from, int step) {
    double sorted[ROUNDS];
    int count = 0;
    for (int k = from; k < ROUNDS; k += step) sorted[count++] = taken[k];
    qsort(sorted, (size_t)count, sizeof sorted[0], rising);
    return sorted[count / 2];
}

static Measured measured(const double *taken) {
    Measured m = {median(taken, 0, 1), {median(taken, 0, 2), median(taken, 1, 2)}};
    for (int k = 0; k < ROUNDS; k++) impossible_readings += taken[k] < 0.5 * m.whole;
    readings += ROUNDS;
    return m;
}

void time_in_turn(const Task *tasks, int count, Measured *found) {
    static double taken[TASKS][ROUNDS];
    int times[TASKS], order[TASKS];
    for (int k = 0; k < count; k++) times[k] = passes(&tasks[k]);
    for (int round = 0; round < ROUNDS; round++) {
        shuffle(order, count);
        for (int k = 0; k < count; k++) taken[order[k]][round] = one_turn(&tasks[order[k]], times[order[k]]);
    }
    for (int k = 0; k < count; k++) found[k] = measured(taken[k]);
}

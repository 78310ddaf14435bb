// How the cost of work is taken: the two sides do it alternately, in one run, and of each the fastest of several rounds counts.
//
// With COUNT_COPIES the same rows count copies of a table (copies.c), with COUNT_INSTRUCTIONS instructions (instructions.c). What is
// counted is the same each time, so that few records and one round do.
#include "measure.h"

int printf(const char *format, ...);

#if defined COUNT_COPIES || defined COUNT_INSTRUCTIONS
const int MANY = 20;

void costs_of(const struct work *w, int works, struct cost *cost) {
    for (int k = 0; k < works; k++) {
        cost[k].c = (double)count_of(w[k].c, w[k].what);
        cost[k].proved = (double)count_of(w[k].proved, w[k].what);
    }
}
#else
const int MANY = 500;
enum { ROUNDS = 101, MOST_WORKS = 4 };

struct timespec { long seconds, nanoseconds; };
int clock_gettime(int clock, struct timespec *t);
#define MONOTONIC 1

static double now(void) {
    struct timespec t;
    clock_gettime(MONOTONIC, &t);
    return (double)t.seconds * 1e9 + (double)t.nanoseconds;
}

static double time_of(task *t, void *what, usize times) {
    double before = now();
    t(what, times);
    return now() - before;
}

// How many times make a millisecond.
static usize times_of(const struct work *w) {
    usize times = 1;
    while (time_of(w->c, w->what, times) < 1e5) times *= 2;
    return times * 10;
}

static void keep_the_faster(struct cost *best, const struct work *w, usize times) {
    double c = time_of(w->c, w->what, times) / (double)times;
    double proved = time_of(w->proved, w->what, times) / (double)times;
    if (c < best->c) best->c = c;
    if (proved < best->proved) best->proved = proved;
}

void costs_of(const struct work *w, int works, struct cost *cost) {
    usize times[MOST_WORKS];
    for (int k = 0; k < works; k++) {
        times[k] = times_of(&w[k]);
        cost[k].c = cost[k].proved = 1e18;
    }
    for (int i = 0; i < ROUNDS; i++)
        for (int k = 0; k < works; k++) keep_the_faster(&cost[k], &w[k], times[k]);
}
#endif

// The head of the rows, and a row. Most rows have no copies on the C side, so that there is no ratio of them.
enum { WIDTH = 58 };

#ifdef COUNT_COPIES
void print_head(const char *what) {
    int n = printf("copies of the table for %s", what);
    printf("%*s %9s %9s\n", WIDTH - n, "", "C", "proved");
}

void print_row(const char *name, struct cost x) { printf("%-*s %9.0f %9.0f\n", WIDTH, name, x.c, x.proved); }
#else
#ifdef COUNT_INSTRUCTIONS
#define UNIT "instructions"
#else
#define UNIT "nanoseconds"
#endif
void print_head(const char *what) {
    int n = printf("%s, in %s", what, UNIT);
    printf("%*s %9s %9s %7s\n", WIDTH - n, "", "C", "proved", "ratio");
}

void print_row(const char *name, struct cost x) {
    int places = x.c < 10 ? 2 : 1;
    printf("%-*s %9.*f %9.*f %7.2f\n", WIDTH, name, places, x.c, places, x.proved, x.proved / x.c);
}
#endif

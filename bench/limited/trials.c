// What trials cost: the limited search on those of the jobs that have 16 points, beside the search without a limit.
//   trials LIMIT JOB.txt ..     a line for each job: trials made, worst quality found, milliseconds a call, microseconds a trial, each the median of 15 runs; worst quality and milliseconds
//                               of the whole search; then the medians over the jobs and the slowest
// bench/limited/run builds it and runs it with 2,000 trials.
#include "../../tests/job.h"
#include "../times.h"

enum { RUNS = 15, MOST = 1000 };
static uint8_t answer[ANSWER];

#define LISTS j.points, 3 * (size_t)j.np, j.triangles, 3 * (size_t)j.nt, j.kept, 2 * (size_t)j.ne, j.inner, 3 * (size_t)j.nk, j.table, j.entries

static cottontuff_limited limited;
static cottontuff_found found;

static void run_limited(uint32_t limit) { limited = cottontuff_search_limited(LISTS, limit, answer, ANSWER); }

static void run_whole(uint32_t unused) {
    (void)unused;
    found = cottontuff_search_inner(LISTS, answer, ANSWER);
}

static double time_of(void (*what)(uint32_t), uint32_t limit) {
    double took[RUNS];
    for (int i = 0; i < RUNS; i++) {
        double start = millis();
        what(limit);
        took[i] = millis() - start;
    }
    return median(took, RUNS);
}

int main(int argc, char **argv) {
    static double calls[MOST], trials[MOST], whole[MOST];
    uint32_t limit = argc > 1 ? (uint32_t)strtoul(argv[1], NULL, 10) : 0;
    int n = 0;
    for (int i = 2; i < argc && n < MOST; i++) {
        if (!read_job(argv[i]) || j.np != COTTONTUFF_MOST_POINTS) continue;
        calls[n] = time_of(run_limited, limit), whole[n] = time_of(run_whole, 0);
        // A refused job makes no trial.
        if (limited.trials == 0) continue;
        trials[n] = 1e3 * calls[n] / limited.trials;
        printf("%u trials, worst %u in %.3f ms, %.3f us a trial; whole search: worst %u in %.3f ms; %s\n", limited.trials, limited.worst, calls[n], trials[n], found.worst, whole[n], argv[i]);
        n++;
    }
    if (n == 0) return fprintf(stderr, "trials: no job of %d points\n", COTTONTUFF_MOST_POINTS), 2;
    double call = median(calls, n), trial = median(trials, n), search = median(whole, n);
    printf("%d jobs of %d points, limit %u: median %.3f ms a call, slowest %.3f, %.3f us a trial; whole search: median %.3f ms\n", n, COTTONTUFF_MOST_POINTS, limit, call, calls[n - 1], trial, search);
    return 0;
}

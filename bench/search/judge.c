// What the judge costs on the search's own answers, microseconds a call.
//   judge JOB.txt ..
#include "../../tests/job.h"

#include <time.h>

enum { CALLS = 2000 };
static uint8_t answer[ANSWER];

static double now(void) {
    struct timespec t;
    clock_gettime(CLOCK_MONOTONIC, &t);
    return 1e6 * (double)t.tv_sec + 1e-3 * (double)t.tv_nsec;
}

int main(int argc, char **argv) {
    double total = 0;
    int jobs = 0, wrong = 0;
    for (int i = 1; i < argc; i++) {
        if (!read_job(argv[i])) continue;
        size_t p = 3 * (size_t)j.np, t = 3 * (size_t)j.nt, e = 2 * (size_t)j.ne, k = 3 * (size_t)j.nk;
        cottontuff_found f = cottontuff_search_inner(j.points, p, j.triangles, t, j.kept, e, j.inner, k, j.table, j.entries, answer, sizeof answer);
        if (f.number) continue;
        double from = now();
        for (int n = 0; n < CALLS; n++) {
            cottontuff_verdict v = cottontuff_judge_inner(j.points, p, j.triangles, t, j.kept, e, j.inner, k, j.table, j.entries, answer, 4 * (size_t)f.count);
            wrong += v.number || v.law || v.worst != f.worst;
        }
        total += now() - from;
        jobs++;
    }
    if (!jobs) return 2;
    printf("%d answers, %d wrong verdicts, %.2f us a call\n", jobs, wrong, total / jobs / CALLS);
    return wrong != 0;
}

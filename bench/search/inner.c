// What inner triangles cost: each job as it is, and with up to eight inner faces of its own answer, which leaves the answer the same.
//   inner JOB.txt ..     prints how many jobs are filled, the sum of the medians of 15 runs of each, microseconds, and the slowest
#include "../../tests/job.h"

#include <time.h>

enum { RUNS = 15, FACES = 8 };
static uint8_t inner[3 * FACES], answer[ANSWER], again[ANSWER];
static size_t faces;

static cottontuff_found search(uint8_t *to) {
    return cottontuff_search_inner(j.points, 3 * (size_t)j.np, j.triangles, 3 * (size_t)j.nt, j.kept, 2 * (size_t)j.ne, inner, 3 * faces, j.table, j.entries, to, ANSWER);
}

static int has(const uint8_t *t, int p) { return t[0] == p || t[1] == p || t[2] == p; }

static int listed(const uint8_t *list, size_t n, const uint8_t *t) {
    for (size_t i = 0; i < n; i++)
        if (has(list + 3 * i, t[0]) && has(list + 3 * i, t[1]) && has(list + 3 * i, t[2])) return 1;
    return 0;
}

// Faces of the answer that are off the boundary, each once.
static void choose_faces(uint32_t count) {
    faces = 0;
    for (uint32_t i = 0; i < 4 * count && faces < FACES; i++) {
        uint8_t t[3];
        for (uint32_t k = 0, at = 0; k < 4; k++)
            if (k != i % 4) t[at++] = answer[i / 4 * 4 + k];
        if (!listed(j.triangles, (size_t)j.nt, t) && !listed(inner, faces, t)) memcpy(inner + 3 * faces++, t, 3);
    }
}

static int by_size(const void *a, const void *b) {
    double x = *(const double *)a, y = *(const double *)b;
    return (x > y) - (x < y);
}

static double median(void) {
    double s[RUNS];
    for (int i = 0; i < RUNS; i++) {
        struct timespec t0, t1;
        clock_gettime(CLOCK_MONOTONIC, &t0);
        search(again);
        clock_gettime(CLOCK_MONOTONIC, &t1);
        s[i] = 1e6 * (double)(t1.tv_sec - t0.tv_sec) + 1e-3 * (double)(t1.tv_nsec - t0.tv_nsec);
    }
    qsort(s, RUNS, sizeof *s, by_size);
    return s[RUNS / 2];
}

int main(int argc, char **argv) {
    double without = 0, with = 0, slowest = 0;
    const char *name = "";
    int filled = 0, different = 0;
    for (int i = 1; i < argc; i++) {
        faces = 0;
        if (!read_job(argv[i])) continue;
        cottontuff_found f = search(answer);
        if (f.number) continue;
        filled++, without += median();
        choose_faces(f.count);
        double m = median();
        if (m > slowest) slowest = m, name = argv[i];
        with += m, different += memcmp(answer, again, 4 * f.count) != 0;
    }
    printf("%d jobs filled: %.0f us without, %.0f us with inner triangles; slowest with %.0f us, %s; %d different\n", filled, without, with, slowest, name, different);
    return different != 0;
}

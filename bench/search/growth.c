// How the search grows with the points: cavities of 4, 8, 12 and 16 points in convex position, measured qualities, all ties, and random qualities.
//   growth [JOBS]     prints for each kind and count of points the median and the slowest, microseconds of processor time (the least of three runs of a job)
#include "../../include/cottontuff.h"

#include <math.h>
#include <stdio.h>
#include <stdlib.h>
#include <time.h>

enum { KINDS = 3, SIZES = 4, MOST = 1000 };
static const char *kinds[KINDS] = {"measured", "all ties", "random"};
static const int sizes[SIZES] = {4, 8, 12, 16};

static int32_t points[48], table[1820];
static uint8_t triangles[3 * COTTONTUFF_MOST_TRIANGLES], answer[COTTONTUFF_ANSWER_BYTES];
static size_t nt;
static uint64_t state = 88172645463325252u;

static uint32_t draw(void) {
    state ^= state << 13, state ^= state >> 7, state ^= state << 17;
    return (uint32_t)(state >> 32);
}

static double within(void) { return (double)draw() / 4294967296.0 * 2 - 1; }

static int64_t det(int a, int b, int c, int d) {
    int64_t e[3][3];
    const int at[3] = {b, c, d};
    for (int i = 0; i < 3; i++)
        for (int k = 0; k < 3; k++) e[i][k] = (int64_t)points[3 * at[i] + k] - points[3 * a + k];
    return e[0][0] * (e[1][1] * e[2][2] - e[1][2] * e[2][1]) + e[0][1] * (e[1][2] * e[2][0] - e[1][0] * e[2][2]) +
           e[0][2] * (e[1][0] * e[2][1] - e[1][1] * e[2][0]);
}

// Points on a sphere, and the triangles that have all other points behind them.
static void make_hull(int n) {
    for (int p = 0; p < n; p++) {
        double v[3], r;
        do {
            for (int k = 0; k < 3; k++) v[k] = within();
            r = sqrt(v[0] * v[0] + v[1] * v[1] + v[2] * v[2]);
        } while (r > 1 || r < 0.1);
        for (int k = 0; k < 3; k++) points[3 * p + k] = (int32_t)lround(9000 * v[k] / r);
    }
    nt = 0;
    for (int a = 0; a < n; a++)
        for (int b = 0; b < n; b++)
            for (int c = 0; c < n; c++) {
                int outward = a < b && a < c && b != c;
                for (int p = 0; p < n && outward; p++) outward = p == a || p == b || p == c || det(a, b, c, p) < 0;
                if (outward) triangles[nt++] = (uint8_t)a, triangles[nt++] = (uint8_t)b, triangles[nt++] = (uint8_t)c;
            }
}

static size_t make_table(int n, int kind) {
    size_t k = 0;
    for (int a = 0; a < n; a++)
        for (int b = a + 1; b < n; b++)
            for (int c = b + 1; c < n; c++)
                for (int d = c + 1; d < n; d++) {
                    int32_t at[12];
                    const int corner[4] = {a, b, c, d};
                    for (int i = 0; i < 12; i++) at[i] = points[3 * corner[i / 3] + i % 3];
                    int32_t q = kind == 0 ? (int32_t)cottontuff_measure(at, 12).millionths : kind == 1 ? 1 : (int32_t)(draw() % 1000000) + 1;
                    table[k++] = det(a, b, c, d) ? q : -1;
                }
    return k;
}

static double micros(void) {
    struct timespec t;
    clock_gettime(CLOCK_PROCESS_CPUTIME_ID, &t);
    return 1e6 * (double)t.tv_sec + 1e-3 * (double)t.tv_nsec;
}

static double time_of(int n, size_t entries) {
    double least = 1e18;
    for (int i = 0; i < 3; i++) {
        double start = micros();
        cottontuff_search(points, (size_t)(3 * n), triangles, nt, NULL, 0, table, entries, answer, sizeof answer);
        double took = micros() - start;
        if (took < least) least = took;
    }
    return least;
}

static int by_size(const void *a, const void *b) {
    double x = *(const double *)a, y = *(const double *)b;
    return (x > y) - (x < y);
}

int main(int argc, char **argv) {
    int jobs = argc > 1 ? atoi(argv[1]) : 200;
    static double took[MOST];
    if (jobs < 1 || jobs > MOST) return fprintf(stderr, "growth: 1 to %d jobs\n", MOST), 1;
    for (int kind = 0; kind < KINDS; kind++)
        for (int s = 0; s < SIZES; s++) {
            for (int i = 0; i < jobs; i++) {
                make_hull(sizes[s]);
                took[i] = time_of(sizes[s], make_table(sizes[s], kind));
            }
            qsort(took, (size_t)jobs, sizeof *took, by_size);
            printf("%-8s %2d points: median %8.1f us, slowest %8.1f us\n", kinds[kind], sizes[s], took[jobs / 2], took[jobs - 1]);
        }
    return 0;
}

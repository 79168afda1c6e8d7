// How long the bench takes: at every tetrahedron of a mesh open, grow until refused, replace, close.
//   replay FILE.mesh ..     P and H lines; prints operations and seconds of processor time, mesh by mesh and in all
#include "../../include/cottontuff.h"

#include <stdio.h>
#include <string.h>
#include <time.h>

static int32_t points[3 * COTTONTUFF_BENCH_POINTS];
static uint8_t tets[4 * COTTONTUFF_BENCH_TETS];
static size_t np, nt;

static int read_mesh(const char *path) {
    char line[128];
    int a, b, c, d;
    FILE *f = fopen(path, "r");
    if (!f) return 0;
    for (np = nt = 0; fgets(line, sizeof line, f);) {
        if (sscanf(line, "P,%d,%d,%d", &a, &b, &c) == 3 && np + 3 <= 3 * COTTONTUFF_BENCH_POINTS)
            points[np++] = a, points[np++] = b, points[np++] = c;
        else if (sscanf(line, "H,%d,%d,%d,%d", &a, &b, &c, &d) == 4 && nt + 4 <= 4 * COTTONTUFF_BENCH_TETS)
            tets[nt++] = (uint8_t)a, tets[nt++] = (uint8_t)b, tets[nt++] = (uint8_t)c, tets[nt++] = (uint8_t)d;
    }
    fclose(f);
    return 1;
}

static double seconds(void) {
    struct timespec t;
    clock_gettime(CLOCK_PROCESS_CPUTIME_ID, &t);
    return (double)t.tv_sec + 1e-9 * (double)t.tv_nsec;
}

int main(int argc, char **argv) {
    double all = 0;
    unsigned long operations = 0;
    for (int i = 1; i < argc; i++) {
        if (!read_mesh(argv[i])) return fprintf(stderr, "%s can't be read\n", argv[i]), 1;
        double start = seconds();
        cottontuff_bench_answer at = cottontuff_bench_load(cottontuff_bench_fresh(), points, np, tets, nt);
        if (at.number) return fprintf(stderr, "%s is refused with %u\n", argv[i], at.number), 1;
        for (uint32_t t = 0; t < nt / 4; t++) {
            at = cottontuff_bench_open(at.bench, t);
            do at = cottontuff_bench_grow(at.bench), operations++;
            while (at.number == 0);
            at = cottontuff_bench_replace(at.bench);
            if (at.number) at = cottontuff_bench_close(at.bench), operations++;
            operations += 2;
        }
        double took = seconds() - start;
        all += took;
        printf("%s: %zu tetrahedra, %.3f s, %u replaced\n", argv[i], nt / 4, took, at.bench.count);
    }
    printf("%lu operations, %.3f s\n", operations, all);
    return 0;
}

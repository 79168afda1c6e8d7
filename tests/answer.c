// Answers job texts through the library and compares with the expected printouts.
//   answer [-p] JOB.txt ..    each JOB.txt has JOB.out beside it; those without, and jobs whose text is not of the form, are passed over and counted
// Ends in 'N passed, M failed'; with -p it prints the printouts and nothing else.
#include "job.h"

#include <time.h>

static char expected[TEXT], printed[TEXT];

static int64_t det(const uint8_t *f) {
    int64_t e[3][3];
    for (int i = 0; i < 3; i++)
        for (int k = 0; k < 3; k++) e[i][k] = (int64_t)j.points[3 * f[i + 1] + k] - j.points[3 * f[0] + k];
    return e[0][0] * (e[1][1] * e[2][2] - e[1][2] * e[2][1]) + e[0][1] * (e[1][2] * e[2][0] - e[1][0] * e[2][2]) +
           e[0][2] * (e[1][0] * e[2][1] - e[1][1] * e[2][0]);
}

// How many outward faces of f are boundary triangles.
static int boundary_faces(const uint8_t *f) {
    uint8_t g[4] = {f[0], f[1], f[2], f[3]};
    if (det(f) < 0) g[0] = f[1], g[1] = f[0];
    const int face[4][3] = {{0, 2, 1}, {0, 1, 3}, {0, 3, 2}, {1, 2, 3}};
    int n = 0;
    for (int i = 0; i < 4; i++)
        for (int t = 0; t < j.nt; t++)
            for (int r = 0; r < 3; r++)
                n += g[face[i][0]] == j.triangles[3 * t + r] && g[face[i][1]] == j.triangles[3 * t + (r + 1) % 3] &&
                     g[face[i][2]] == j.triangles[3 * t + (r + 2) % 3];
    return n;
}

static void print_answer(cottontuff_found r, const uint8_t *answer) {
    char *out = printed;
    if (r.number) {
        sprintf(out, "R,%u\n", r.number);
        return;
    }
    out += sprintf(out, "F,%u,%u\n", r.count, r.worst);
    for (uint32_t i = 0; i < r.count; i++) {
        const uint8_t *f = answer + 4 * i;
        out += sprintf(out, "H,%d,%d,%d,%d,%d,%d\n", f[0], f[1], f[2], f[3], j.quality[f[0]][f[1]][f[2]][f[3]], boundary_faces(f));
    }
}

int main(int argc, char **argv) {
    int passed = 0, failed = 0, passed_over = 0;
    double slowest = 0;
    const char *slowest_name = "";
    int print = argc > 1 && strcmp(argv[1], "-p") == 0;
    for (int i = 1 + print; i < argc; i++) {
        char name[4096];
        snprintf(name, sizeof name, "%.*s.out", (int)strlen(argv[i]) - 4, argv[i]);
        expected[0] = 0;
        int stored = slurp(name, expected) > 0;
        if (!(stored || print) || strcmp(expected, "R,1\n") == 0 || !read_job(argv[i])) {
            passed_over++;
            continue;
        }
        uint8_t answer[ANSWER];
        struct timespec t0, t1;
        clock_gettime(CLOCK_MONOTONIC, &t0);
        cottontuff_found r = cottontuff_search_inner(j.points, 3 * (size_t)j.np, j.triangles, 3 * (size_t)j.nt, j.kept, 2 * (size_t)j.ne, j.inner,
                                                     3 * (size_t)j.nk, j.table, j.entries, answer, ANSWER);
        clock_gettime(CLOCK_MONOTONIC, &t1);
        double s = (double)(t1.tv_sec - t0.tv_sec) + 1e-9 * (double)(t1.tv_nsec - t0.tv_nsec);
        if (s > slowest) slowest = s, slowest_name = argv[i];
        print_answer(r, answer);
        if (print) {
            fputs(printed, stdout);
            continue;
        }
        if (strcmp(printed, expected) == 0) {
            passed++;
        } else {
            failed++;
            printf("%s: expected %.20s.. got %.20s..\n", argv[i], expected, printed);
        }
    }
    if (print) return 0;
    printf("slowest: %.6f s, %s; %d texts left to the text form\n", slowest, slowest_name, passed_over);
    printf("%d passed, %d failed\n", passed, failed);
    return failed != 0;
}

// The time of a call of each function of geometry_c: the median of 31 repeats and their range, in nanoseconds. Every answer is first
// compared with the same sum written here in plain C.
#include <inttypes.h>
#include <stdbool.h>
#include <stdint.h>
#include <stdio.h>
#include <stdlib.h>
#include <time.h>

struct volume {
    bool is_refused;
    int64_t value;
};

struct measure {
    uint32_t refused, millionths;
    double d, s, shape;
};

int32_t geometry_present(const int32_t *points, size_t n, size_t a, size_t b, size_t c, size_t d);
struct volume geometry_signed_volume(const int32_t *points, size_t n, size_t a, size_t b, size_t c, size_t d);
int32_t geometry_is_inside(const int32_t *points, size_t n, size_t a, size_t b, size_t c, size_t d, size_t p);
int32_t geometry_are_apart(const int32_t *points, size_t n, size_t f, size_t g);
struct measure geometry_measure(const int32_t *coordinates, size_t n);

enum { CASES = 1024, REPEATS = 31, ROUNDS = 100, COORDINATES = 24 };

typedef int32_t points[COORDINATES];
typedef int64_t vector[3];

static points anywhere[CASES], touching[CASES], parted_first[CASES], unparted[CASES], furthest[CASES], furthest_unparted[CASES];
static int64_t sink;

// ---- the same in plain C

static void edge(vector r, const int32_t *a, const int32_t *b) {
    for (int k = 0; k < 3; k++) r[k] = (int64_t)b[k] - a[k];
}

static void cross(vector r, const vector a, const vector b) {
    for (int k = 0; k < 3; k++) r[k] = a[(k + 1) % 3] * b[(k + 2) % 3] - a[(k + 2) % 3] * b[(k + 1) % 3];
}

static int64_t det(const int32_t *a, const int32_t *b, const int32_t *c, const int32_t *d) {
    vector u, v, w, n;
    edge(u, a, b), edge(v, a, c), edge(w, a, d), cross(n, v, w);
    return u[0] * n[0] + u[1] * n[1] + u[2] * n[2];
}

static bool parts(const vector n, const int32_t *p) {
    if (n[0] == 0 && n[1] == 0 && n[2] == 0) return false;
    int64_t lo[2], hi[2];
    for (int i = 0; i < 8; i++) {
        int64_t x = n[0] * p[3 * i] + n[1] * p[3 * i + 1] + n[2] * p[3 * i + 2];
        if (i % 4 == 0 || x < lo[i / 4]) lo[i / 4] = x;
        if (i % 4 == 0 || x > hi[i / 4]) hi[i / 4] = x;
    }
    return hi[0] <= lo[1] || hi[1] <= lo[0];
}

static const int PAIRS[6][2] = {{0, 1}, {0, 2}, {0, 3}, {1, 2}, {1, 3}, {2, 3}};
static const int FACES[4][3] = {{0, 1, 2}, {0, 1, 3}, {0, 2, 3}, {1, 2, 3}};

// The number of the first direction that parts the two, from 0; 44 where none does.
static int first_parting(const int32_t *p) {
    vector u, v, n;
    int k = 0;
    for (int t = 0; t < 2; t++)
        for (int i = 0; i < 4; i++, k++) {
            const int32_t *a = p + 12 * t + 3 * FACES[i][0];
            edge(u, a, p + 12 * t + 3 * FACES[i][1]), edge(v, a, p + 12 * t + 3 * FACES[i][2]), cross(n, u, v);
            if (parts(n, p)) return k;
        }
    for (int i = 0; i < 6; i++)
        for (int j = 0; j < 6; j++, k++) {
            edge(u, p + 3 * PAIRS[i][0], p + 3 * PAIRS[i][1]);
            edge(v, p + 12 + 3 * PAIRS[j][0], p + 12 + 3 * PAIRS[j][1]), cross(n, u, v);
            if (parts(n, p)) return k;
        }
    return 44;
}

static bool inside(const int32_t *p, const int32_t *q) {
    return det(q, p + 3, p + 6, p + 9) > 0 && det(p, q, p + 6, p + 9) > 0 && det(p, p + 3, q, p + 9) > 0 && det(p, p + 3, p + 6, q) > 0;
}

static void compare(points *cases) {
    for (int i = 0; i < CASES; i++) {
        const int32_t *p = cases[i];
        struct volume v = geometry_signed_volume(p, COORDINATES, 0, 1, 2, 3);
        int64_t d = det(p, p + 3, p + 6, p + 9);
        struct measure m = geometry_measure(p, 12);
        if (v.is_refused || v.value != d || m.refused != 0 || m.d != (double)llabs(d) ||
            geometry_is_inside(p, COORDINATES, 0, 1, 2, 3, 4) != inside(p, p + 12) ||
            geometry_is_inside(p, COORDINATES, 1, 0, 2, 3, 4) != inside(p, p + 12) ||
            geometry_are_apart(p, COORDINATES, 0, 4) != (first_parting(p) < 44)) {
            printf("differs from plain C\n");
            exit(1);
        }
    }
}

// ---- cases

static uint64_t state = 88172645463325252u;

static int32_t drawn(int32_t most) {
    state ^= state << 13, state ^= state >> 7, state ^= state << 17;
    return (int32_t)(state % (2u * (uint32_t)most + 1)) - most;
}

// Draws pairs of solid tetrahedra until there are enough whose first parting direction has a number from `least` to `most`.
static void draw(points *cases, int32_t size, int least, int most) {
    for (int i = 0; i < CASES;) {
        int32_t *p = cases[i];
        for (int k = 0; k < COORDINATES; k++) p[k] = drawn(size);
        int n = first_parting(p);
        if (least <= n && n <= most && det(p, p + 3, p + 6, p + 9) > 0 && det(p + 12, p + 15, p + 18, p + 21) != 0) i++;
    }
}

// ---- times

typedef int64_t call(const int32_t *p);

static int64_t call_none(const int32_t *p) { return p[0]; }
static int64_t call_present_4(const int32_t *p) { return geometry_present(p, 12, 0, 1, 2, 3); }
static int64_t call_present_5(const int32_t *p) { return geometry_present(p, 15, 0, 1, 2, 3); }
static int64_t call_present_8(const int32_t *p) { return geometry_present(p, 24, 0, 1, 2, 3); }
static int64_t call_volume(const int32_t *p) { return geometry_signed_volume(p, 12, 0, 1, 2, 3).value; }
static int64_t call_inside(const int32_t *p) { return geometry_is_inside(p, 15, 0, 1, 2, 3, 4); }
static int64_t call_apart(const int32_t *p) { return geometry_are_apart(p, COORDINATES, 0, 4); }
static int64_t call_measure(const int32_t *p) { return geometry_measure(p, 12).millionths; }

static int by_size(const void *a, const void *b) {
    double x = *(const double *)a, y = *(const double *)b;
    return (x > y) - (x < y);
}

static double now(void) {
    struct timespec t;
    clock_gettime(CLOCK_MONOTONIC, &t);
    return 1e9 * (double)t.tv_sec + (double)t.tv_nsec;
}

static void timed(const char *name, call *f, points *cases) {
    double times[REPEATS];
    for (int r = 0; r < REPEATS; r++) {
        double from = now();
        for (int k = 0; k < ROUNDS; k++)
            for (int i = 0; i < CASES; i++) sink += f(cases[i]);
        times[r] = (now() - from) / (ROUNDS * CASES);
    }
    qsort(times, REPEATS, sizeof *times, by_size);
    printf("%-44s %7.1f  (%.1f to %.1f)\n", name, times[REPEATS / 2], times[0], times[REPEATS - 1]);
}

int main(void) {
    draw(anywhere, 10000, 0, 44), draw(touching, 2, 0, 44);
    draw(parted_first, 10000, 0, 0), draw(unparted, 10000, 44, 44);
    draw(furthest, 50000, 0, 44), draw(furthest_unparted, 50000, 44, 44);
    compare(anywhere), compare(touching), compare(parted_first), compare(unparted), compare(furthest), compare(furthest_unparted);
    printf("nanoseconds a call, median (range) of %d repeats of %d calls\n", REPEATS, ROUNDS * CASES);
    timed("an empty call", call_none, anywhere);
    timed("the checks of 4 points", call_present_4, anywhere);
    timed("the checks of 5 points", call_present_5, anywhere);
    timed("the checks of 8 points", call_present_8, anywhere);
    timed("D, and the checks", call_volume, anywhere);
    timed("inside, and the checks", call_inside, anywhere);
    timed("apart by the first direction, checks twice", call_apart, parted_first);
    timed("not apart: all 44 directions, checks twice", call_apart, unparted);
    timed("apart or not, random pairs, checks twice", call_apart, anywhere);
    timed("measure with millionths, and the checks", call_measure, anywhere);
    puts("the same with coordinates to the limit, 50,000; above they reach 10,000");
    timed("D, and the checks", call_volume, furthest);
    timed("inside, and the checks", call_inside, furthest);
    timed("not apart: all 44 directions, checks twice", call_apart, furthest_unparted);
    timed("apart or not, random pairs, checks twice", call_apart, furthest);
    timed("measure with millionths, and the checks", call_measure, furthest);
    fprintf(stderr, "%" PRId64 "\n", sink);
    return 0;
}

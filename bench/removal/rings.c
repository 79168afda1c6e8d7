// What edge removal costs beside the search of the same job, and beside the checker alone.
//   rings COUNT [CASES.txt ..]     COUNT random rings of each size, measured, with random qualities and with all the same; then the answered rows of the files, NAME;POINTS;A;B;RING;TABLE;..
// A random ring stands on a circle with noise, its ends above and below the middle, the points numbered by chance. A time is the least of 7 runs, each the mean of 20 calls. Prints for each ring size the median times in
// microseconds, and the ratio of removal to search in the median over the rings and at most. Rings whose rows are all unlawful are counted and not timed.
// bench/removal/run builds it and runs it on the stored cases.
#include "../../tests/ring.h"
#include "../times.h"

#include <math.h>

enum { RUNS = 7, CALLS = 20, RINGS = 4096 };

typedef struct {
    double removal[RINGS], search[RINGS], check[RINGS], ratio[RINGS];
    int count, unanswered;
} times;

static times of_size[COTTONTUFF_MOST_RING + 1];
static uint8_t answer[ANSWER];

static void remove_edge(void) { cottontuff_remove_edge(RING_LISTS, answer, sizeof answer); }
static void search(void) { cottontuff_search(FOUR_LISTS, answer, sizeof answer); }
static void check(void) { cottontuff_check(FOUR_LISTS); }

static double micros_of(void (*call)(void)) {
    double least = 1e9;
    for (int i = 0; i < RUNS; i++) {
        double start = millis();
        for (int k = 0; k < CALLS; k++) call();
        double took = 1e3 * (millis() - start) / CALLS;
        if (took < least) least = took;
    }
    return least;
}

static void time_ring(void) {
    uint32_t number = cottontuff_remove_edge(RING_LISTS, answer, sizeof answer).number;
    if (number == COTTONTUFF_BAD_RING) return;
    times *t = of_size + ring_len;
    t->unanswered += number == COTTONTUFF_NO_ROW;
    if (number != COTTONTUFF_DONE || t->count == RINGS) return;
    set_boundary();
    int i = t->count++;
    t->removal[i] = micros_of(remove_edge), t->search[i] = micros_of(search), t->check[i] = micros_of(check);
    t->ratio[i] = t->removal[i] / t->search[i];
}

static void report(const char *name) {
    printf("%s\n", name);
    for (int k = COTTONTUFF_LEAST_RING; k <= COTTONTUFF_MOST_RING; k++) {
        times *t = of_size + k;
        int n = t->count;
        printf("  ring of %d: %d answered, %d with no lawful row", k, n, t->unanswered);
        if (n > 0) {
            double ratio = median(t->ratio, n);
            printf("; removal %.2f us, search %.2f, checker %.2f; %.3f times the search, at most %.3f", median(t->removal, n), median(t->search, n), median(t->check, n), ratio, t->ratio[n - 1]);
        }
        printf("\n");
        t->count = t->unanswered = 0;
    }
}

// ---- random rings, the same in every run

static uint64_t state;

// From -1 to 1.
static double noise(void) {
    state = state * 6364136223846793005u + 1442695040888963407u;
    return (double)(state >> 33) / (1u << 30) - 1;
}

static void put(uint8_t number, double x, double y, double z) {
    points[3 * number] = (int32_t)x, points[3 * number + 1] = (int32_t)y, points[3 * number + 2] = (int32_t)z;
}

enum { MEASURED, RANDOM, SAME };

static void make_ring(size_t k, int qualities) {
    uint8_t number[COTTONTUFF_MOST_RING + 2];
    size_t n = k + 2;
    double turn = 2 * acos(-1) / (double)k, high = 900 + 600 * noise();
    for (size_t i = 0; i < n; i++) number[i] = (uint8_t)i;
    for (size_t i = n - 1; i > 0; i--) {
        size_t other = (size_t)((noise() + 1) / 2 * (double)i);
        uint8_t at = number[i];
        number[i] = number[other], number[other] = at;
    }
    for (size_t i = 0; i < k; i++) {
        double at = turn * ((double)i + 0.3 * noise()), wide = 1000 + 200 * noise();
        put(ring[i] = number[i], wide * cos(at), wide * sin(at), 150 * noise());
    }
    put(number[k], 150 * noise(), 150 * noise(), high), put(number[k + 1], 150 * noise(), 150 * noise(), -high);
    from = number[k], to = number[k + 1], ring_len = k, points_len = 3 * n, table_len = COTTONTUFF_TABLE_LENGTH_OF(n);
    for (size_t i = 0; i < table_len; i++) table[i] = qualities == MEASURED ? COTTONTUFF_UNMEASURED_ENTRY : qualities == SAME ? 500000 : 500001 + (int32_t)(500000 * noise());
    cottontuff_measure_table(points, points_len, table, table_len);
}

static void random_rings(const char *name, int count, int qualities) {
    state = 1;
    for (size_t k = COTTONTUFF_LEAST_RING; k <= COTTONTUFF_MOST_RING; k++)
        for (int i = 0; i < count; i++) make_ring(k, qualities), time_ring();
    report(name);
}

static int is_timed(const char *file, char **field, int n) {
    (void)file;
    if (n < 8) return 0;
    read_ring(field + 1);
    if (field[7][0] == 'F') time_ring();
    return 1;
}

int main(int argc, char **argv) {
    if (argc < 2) return fprintf(stderr, "rings: how many?\n"), 2;
    random_rings("random rings, measured", atoi(argv[1]), MEASURED);
    random_rings("random rings, random qualities", atoi(argv[1]), RANDOM);
    random_rings("random rings, all qualities the same", atoi(argv[1]), SAME);
    for (int i = 2; i < argc; i++) play(argv[i], is_timed), report(argv[i]);
    return failed != 0;
}

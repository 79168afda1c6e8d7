// What an explanation costs: of each job the search, and explanations of its fours.
//   reasons FOURS JOB.txt ..   so many fours of a job, spread evenly over the order of its table, or all where it has no more
//   reasons -r WHY.txt         the fours of rows JOB;a,b,c,d;RESULT
// A time is the least of 5 runs, a ratio that of an explanation to the search of its job. Prints for each reason how many fours there were, the median ratio and the slowest; then the ratio of a job's median four, of its mean four and of its
// slowest four, each in the median over the jobs and at most; the slowest explanation of all. Which of a job's fours is taken changes the ratio severalfold, as reasons 1 to 4 cost one search: so all three stand there.
// bench/explain/run builds it and runs it on the stored jobs.
#include "../../tests/rows.h"
#include "../times.h"

enum { RUNS = 5, JOBS = 1000, FOURS_OF_REASON = 200000, REASONS = 8 };

static uint8_t answer[ANSWER];
static double ratios[REASONS][FOURS_OF_REASON], slowest[REASONS], medians[JOBS], means[JOBS], most[JOBS], slowest_search;
static int counts[REASONS], jobs;
static char slowest_name[REASONS][400];

static double time_of_search(void) {
    double least = 1e9;
    for (int i = 0; i < RUNS; i++) {
        double start = millis();
        cottontuff_search_inner(FIVE_LISTS, answer, sizeof answer);
        double took = millis() - start;
        if (took < least) least = took;
    }
    if (least > slowest_search) slowest_search = least;
    return least;
}

// Its ratio to the search, which took so long; below 0 where the job or the four is refused.
static double ratio_of(const char *name, const uint32_t *f, double search) {
    double least = 1e9;
    cottontuff_explanation e = {0, 0, 0};
    for (int i = 0; i < RUNS; i++) {
        double start = millis();
        e = cottontuff_explain(FIVE_LISTS, f[0], f[1], f[2], f[3]);
        double took = millis() - start;
        if (took < least) least = took;
    }
    if (e.number != COTTONTUFF_DONE) return -1;
    if (counts[e.reason] < FOURS_OF_REASON) ratios[e.reason][counts[e.reason]++] = least / search;
    if (least > slowest[e.reason]) {
        slowest[e.reason] = least;
        snprintf(slowest_name[e.reason], sizeof *slowest_name, "%u,%u,%u,%u of %s", f[0], f[1], f[2], f[3], name);
    }
    return least / search;
}

// The four at a place in lexicographic order.
static void four_at(uint32_t place, uint32_t n, uint32_t *f) {
    for (f[0] = 0; f[0] < n; f[0]++)
        for (f[1] = f[0] + 1; f[1] < n; f[1]++)
            for (f[2] = f[1] + 1; f[2] < n; f[2]++)
                for (f[3] = f[2] + 1; f[3] < n; f[3]++)
                    if (place-- == 0) return;
}

static void job_of(const char *name, uint32_t fours) {
    static double of_job[COTTONTUFF_MOST_FOURS];
    uint32_t f[4], all = (uint32_t)table_len;
    double search = time_of_search(), sum = 0;
    int n = 0;
    if (fours > all) fours = all;
    for (uint32_t i = 0; i < fours; i++) {
        four_at((uint32_t)((uint64_t)i * all / fours), (uint32_t)(points_len / 3), f);
        double ratio = ratio_of(name, f, search);
        if (ratio >= 0) of_job[n++] = ratio, sum += ratio;
    }
    if (n == 0 || jobs == JOBS) return;
    medians[jobs] = median(of_job, n), means[jobs] = sum / n, most[jobs] = of_job[n - 1];
    jobs++;
}

static int is_timed(const char *file, char **field, int n) {
    uint32_t f[4];
    if (n != 3 || !read_stored(file, field[0]) || sscanf(field[1], "%u,%u,%u,%u", f, f + 1, f + 2, f + 3) != 4) return 0;
    double ratio = ratio_of(field[0], f, time_of_search());
    if (ratio >= 0 && jobs < JOBS) medians[jobs++] = ratio;
    return 1;
}

static void report(int rows) {
    int last = 0;
    for (int r = 1; r < REASONS; r++) {
        if (counts[r] == 0) continue;
        printf("reason %d: %d fours, %.2f times the search in the median, slowest %.3f ms, %s\n", r, counts[r], median(ratios[r], counts[r]), slowest[r], slowest_name[r]);
        if (slowest[r] > slowest[last]) last = r;
    }
    double mid = median(medians, jobs);
    printf("%d %s: %.2f times the search in the median, at most %.2f\n", jobs, rows ? "rows, the four of each" : "jobs, the median four of each", mid, medians[jobs - 1]);
    if (!rows) {
        mid = median(means, jobs), printf("the mean four of each: %.2f times in the median, at most %.2f\n", mid, means[jobs - 1]);
        mid = median(most, jobs), printf("the slowest four of each: %.2f times in the median, at most %.2f\n", mid, most[jobs - 1]);
    }
    printf("slowest explanation %.3f ms (reason %d, %s); slowest search %.3f ms\n", slowest[last], last, slowest_name[last], slowest_search);
}

int main(int argc, char **argv) {
    int rows = argc > 2 && strcmp(argv[1], "-r") == 0;
    if (rows) play(argv[2], is_timed);
    for (int i = 2; !rows && i < argc; i++)
        if (read_text(argv[i])) job_of(argv[i], (uint32_t)strtoul(argv[1], NULL, 10));
    if (jobs == 0) return fprintf(stderr, "reasons: nothing to explain\n"), 2;
    report(rows);
    return 0;
}

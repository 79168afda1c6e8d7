// Why not this four, by rows of numbers, and on jobs for every four beside what the other functions say.
//   explain [JOB.txt ..] -r [FILE ..]     a file has rows of one of two forms, told apart by their count of fields:
//     P;T;E;K;Q;a,b,c,d;RESULT   five lists and a four; what is answered: W,reason,value or R,number
//     JOB;a,b,c,d;RESULT         the same, the job in JOB.txt beside the file
// Nothing may be written: the lent lists and what stands behind them are looked at after each call. Ends in 'N passed, M failed'.
#include "rows.h"

enum { BEHIND = 16 };

static struct {
    int32_t points[MOST], table[MOST];
    uint8_t triangles[MOST], kept[MOST], inner[MOST];
} before;

static size_t with(size_t len) { return len + BEHIND < MOST ? len + BEHIND : MOST; }

// What is lent, as it stood.
static void keep_lists(void) {
    memcpy(before.points, points, sizeof *points * with(points_len)), memcpy(before.table, table, sizeof *table * with(table_len));
    memcpy(before.triangles, triangles, with(triangles_len)), memcpy(before.kept, kept, with(kept_len)), memcpy(before.inner, inner, with(inner_len));
}

static int is_lent_back(void) {
    return memcmp(before.points, points, sizeof *points * with(points_len)) == 0 && memcmp(before.table, table, sizeof *table * with(table_len)) == 0 &&
           memcmp(before.triangles, triangles, with(triangles_len)) == 0 && memcmp(before.kept, kept, with(kept_len)) == 0 && memcmp(before.inner, inner, with(inner_len)) == 0;
}

static int is_same(cottontuff_explanation a, cottontuff_explanation b) { return a.number == b.number && a.reason == b.reason && a.value == b.value; }

static int is_answered(const uint32_t *f, cottontuff_explanation wanted) {
    return is_same(cottontuff_explain(FIVE_LISTS, f[0], f[1], f[2], f[3]), wanted) && is_lent_back();
}

static int is_right(const char *file, char **field, int n) {
    cottontuff_explanation wanted = {0, 0, 0};
    uint32_t f[4];
    if (n == 7)
        read_lists(field), field += 5;
    else if (n == 3 && read_stored(file, field[0]))
        field += 1;
    else
        return 0;
    if (sscanf(field[0], "%u,%u,%u,%u", f, f + 1, f + 2, f + 3) != 4) return 0;
    if (sscanf(field[1], "W,%u,%u", &wanted.reason, &wanted.value) != 2 && sscanf(field[1], "R,%u", &wanted.number) != 1) return 0;
    keep_lists();
    return is_answered(f, wanted);
}

// ---- what the other functions say

static uint8_t answer[ANSWER], holding[ANSWER];

static int has(const uint8_t *fours, uint32_t count, const uint32_t *f) {
    for (const uint8_t *g = fours; g < fours + 4 * count; g += 4)
        if (g[0] == f[0] && g[1] == f[1] && g[2] == f[2] && g[3] == f[3]) return 1;
    return 0;
}

// Six times the volume, exact.
static double volume(const uint32_t *f) {
    int32_t corners[12];
    for (int i = 0; i < 4; i++) memcpy(corners + 3 * i, points + 3 * f[i], 3 * sizeof *points);
    return cottontuff_measure(corners, 12).d;
}

// A point is strictly inside where it makes four solid tetrahedra with the faces, which together are no larger.
static int is_inside(const uint32_t *f, uint32_t p) {
    double sum = 0;
    for (int i = 0; i < 4; i++) {
        uint32_t g[4] = {f[0], f[1], f[2], f[3]};
        g[i] = p;
        double part = volume(g);
        if (part == 0) return 0;
        sum += part;
    }
    return sum == volume(f);
}

static uint32_t lowest_inside(const uint32_t *f) {
    uint32_t p = 0, n = (uint32_t)(points_len / 3);
    while (p < n && !is_inside(f, p)) p++;
    return p;
}

// The search with the four's faces as inner triangles, which every filling that holds it has. 15: none does. Where the answer holds it, that is the best that does; else nothing is said.
static int by_fillings(const uint32_t *f, uint32_t worst, cottontuff_explanation *e) {
    static uint8_t faces[MOST];
    const uint8_t a = (uint8_t)f[0], b = (uint8_t)f[1], c = (uint8_t)f[2], d = (uint8_t)f[3], own[12] = {a, b, c, a, b, d, a, c, d, b, c, d};
    memcpy(faces, inner, inner_len), memcpy(faces + inner_len, own, sizeof own);
    cottontuff_found best = cottontuff_search_inner(points, points_len, triangles, triangles_len, kept, kept_len, faces, inner_len + sizeof own, table, table_len, holding, sizeof holding);
    if (best.number == COTTONTUFF_NO_FILLING) return e->reason = COTTONTUFF_NO_FILLING_HOLDS_IT;
    if (best.number != COTTONTUFF_DONE || !has(holding, best.count, f)) return 0;
    e->reason = best.worst < worst ? COTTONTUFF_LOWER : COTTONTUFF_LATER;
    e->value = best.worst < worst ? best.worst : 0;
    return best.worst <= worst;
}

// The first reason of a four that is there, the answer being known; 0 where nothing is said.
static int is_told(const uint32_t *f, cottontuff_found found, cottontuff_explanation *e) {
    if (has(answer, found.count, f)) return e->reason = COTTONTUFF_IN_ANSWER;
    if (volume(f) == 0) return e->reason = COTTONTUFF_FLAT;
    if (j.quality[f[0]][f[1]][f[2]][f[3]] == COTTONTUFF_BARRED_ENTRY) return e->reason = COTTONTUFF_BARRED;
    uint32_t p = lowest_inside(f);
    if (p < points_len / 3) return e->value = p, e->reason = COTTONTUFF_POINT_INSIDE;
    return by_fillings(f, found.worst, e);
}

// ---- every four of a job

static unsigned long told[8], untold;

static int is_explained(cottontuff_found found) {
    uint32_t n = (uint32_t)(points_len / 3), f[4];
    for (f[0] = 0; f[0] < n; f[0]++)
        for (f[1] = f[0] + 1; f[1] < n; f[1]++)
            for (f[2] = f[1] + 1; f[2] < n; f[2]++)
                for (f[3] = f[2] + 1; f[3] < n; f[3]++) {
                    cottontuff_explanation e = {found.number, 0, 0};
                    if (found.number == COTTONTUFF_DONE && !is_told(f, found, &e)) {
                        untold++;
                        continue;
                    }
                    if (!is_answered(f, e)) return printf("%u,%u,%u,%u: not %u,%u,%u\n", f[0], f[1], f[2], f[3], e.number, e.reason, e.value), 0;
                    told[e.reason]++;
                }
    return 1;
}

// Fours that are none: 24, or the number by which the job is refused. The last point is n - 1; the low bytes of the larger numbers name points.
static int is_bad_refused(uint32_t number) {
    uint32_t n = (uint32_t)(points_len / 3), most = UINT32_MAX;
    const uint32_t bad[][4] = {
        {0, 0, 1, 2}, {0, 1, 1, 2}, {0, 1, 2, 2}, {1, 0, 2, 3}, {0, 2, 1, 3}, {0, 1, 3, 2}, {3, 2, 1, 0}, /* not increasing */
        {0, 1, 2, n}, {1, 2, 3, n}, {0, 1, 2, 255}, {0, 1, 2, 259}, {0, 1, 2, 65539}, {256, 257, 258, 259}, {0, 1, 2, most}, {most, most, most, most},
    };
    const cottontuff_explanation refused = {number == COTTONTUFF_DONE || number == COTTONTUFF_NO_FILLING ? COTTONTUFF_BAD_FOUR : number, 0, 0};
    for (size_t i = 0; i < sizeof bad / sizeof *bad; i++)
        if (!is_answered(bad[i], refused)) return 0;
    return 1;
}

static void every_four(const char *name) {
    if (!read_text(name)) return;
    keep_lists();
    cottontuff_found found = cottontuff_search_inner(FIVE_LISTS, answer, sizeof answer);
    if (is_explained(found) && is_bad_refused(found.number))
        passed++;
    else
        failed++, printf("%s, every four\n", name);
}

// No pointer need point anywhere where there is nothing; the empty job has no points.
static void no_lists(void) {
    const cottontuff_explanation refused = {COTTONTUFF_BAD_FOUR, 0, 0};
    uint32_t p = UINT32_MAX;
    if (is_same(cottontuff_explain(NULL, 0, NULL, 0, NULL, 0, NULL, 0, NULL, 0, 0, 1, 2, 3), refused) && is_same(cottontuff_explain(NULL, 0, NULL, 0, NULL, 0, NULL, 0, NULL, 0, p, p, p, p), refused))
        passed++;
    else
        failed++, printf("no lists\n");
}

int main(int argc, char **argv) {
    no_lists();
    int i = 1;
    for (; i < argc && strcmp(argv[i], "-r") != 0; i++) every_four(argv[i]);
    for (i++; i < argc; i++) play(argv[i], is_right);
    printf("fours beside the other functions, by reason 1 to 7:");
    for (int r = 1; r <= 7; r++) printf(" %lu", told[r]);
    printf("; nothing said of %lu\n%d passed, %d failed\n", untold, passed, failed);
    return failed != 0 || passed == 0;
}

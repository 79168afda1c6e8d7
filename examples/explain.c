/* Why not this four: every four of case B, of case B with a tie, and a few others, with the reason in words. */
#include "cottontuff.h"

#include <stdio.h>

typedef struct {
    const char *name;
    int32_t points[15];
    uint8_t triangles[18];
    size_t triangles_len;
    int32_t table[5];
} job;

static const job jobs[] = {
    {"case B", {0, 0, 0, 6, 0, 0, 0, 6, 0, 1, 1, 5, 1, 1, -5}, {0, 1, 3, 1, 2, 3, 2, 0, 3, 1, 0, 4, 2, 1, 4, 0, 2, 4}, 18, {500000, 400000, 450000, 450000, 460000}},
    {"0134 at 400000", {0, 0, 0, 6, 0, 0, 0, 6, 0, 1, 1, 5, 1, 1, -5}, {0, 1, 3, 1, 2, 3, 2, 0, 3, 1, 0, 4, 2, 1, 4, 0, 2, 4}, 18, {500000, 400000, 400000, 450000, 460000}},
    {"0124 barred", {0, 0, 0, 6, 0, 0, 0, 6, 0, 1, 1, 5, 1, 1, -5}, {0, 1, 3, 1, 2, 3, 2, 0, 3, 1, 0, 4, 2, 1, 4, 0, 2, 4}, 18, {500000, 0, 450000, 450000, 460000}},
    {"a point inside", {0, 0, 0, 4, 0, 0, 0, 4, 0, 0, 0, 4, 1, 1, 1}, {0, 2, 1, 0, 1, 3, 0, 3, 2, 1, 2, 3}, 12, {1, 1, 1, 1, 1}},
    {"a square below", {0, 0, 0, 4, 0, 0, 4, 4, 0, 0, 4, 0, 1, 1, 4}, {0, 2, 1, 0, 3, 2, 0, 1, 4, 1, 2, 4, 2, 3, 4, 3, 0, 4}, 18, {-1, 500000, 500000, 500000, 500000}},
};

static void show(cottontuff_explanation e) {
    if (e.number != COTTONTUFF_DONE) {
        printf("refused with %u\n", (unsigned)e.number);
        return;
    }
    switch (e.reason) {
    case COTTONTUFF_IN_ANSWER: printf("in the answer\n"); break;
    case COTTONTUFF_FLAT: printf("flat\n"); break;
    case COTTONTUFF_BARRED: printf("barred\n"); break;
    case COTTONTUFF_POINT_INSIDE: printf("point %u is inside\n", (unsigned)e.value); break;
    case COTTONTUFF_NO_FILLING_HOLDS_IT: printf("no filling holds it\n"); break;
    case COTTONTUFF_LOWER: printf("the best filling that holds it has worst quality %u\n", (unsigned)e.value); break;
    case COTTONTUFF_LATER: printf("as good, but later\n"); break;
    }
}

int main(void) {
    /* The last is none of five points. */
    static const uint32_t fours[][4] = {{0, 1, 2, 3}, {0, 1, 2, 4}, {0, 1, 3, 4}, {0, 2, 3, 4}, {1, 2, 3, 4}, {2, 3, 4, 5}};
    for (size_t i = 0; i < sizeof jobs / sizeof *jobs; i++) {
        const job *j = jobs + i;
        printf("%s\n", j->name);
        for (size_t k = 0; k < sizeof fours / sizeof *fours; k++) {
            const uint32_t *f = fours[k];
            printf("  %u %u %u %u: ", (unsigned)f[0], (unsigned)f[1], (unsigned)f[2], (unsigned)f[3]);
            show(cottontuff_explain(j->points, 15, j->triangles, j->triangles_len, NULL, 0, NULL, 0, j->table, 5, f[0], f[1], f[2], f[3]));
        }
    }
    return 0;
}

/* What `improve` and then `show` of cavity-bench print of a mesh, by a loop over the library: opens the worst, replaces, grows at a refusal, closes where it can't grow, goes on to the next; a round without a
   replacement ends it, or 1,000 replacements. Standard input has P and H lines; the rest is passed over. */
#include "cottontuff.h"

#include <stdio.h>
#include <string.h>

static int32_t points[192];
static uint8_t tets[1024];

static uint32_t worst(const cottontuff_bench *b) {
    uint32_t least = 1000000;
    for (uint32_t i = 0; i < b->tet_count; i++)
        if (b->qualities[i] < least) least = b->qualities[i];
    return least;
}

/* The first of the lowest quality that was not tried; the count where each was. */
static uint32_t next(const cottontuff_bench *b, const unsigned char *tried) {
    uint32_t best = b->tet_count;
    for (uint32_t i = 0; i < b->tet_count; i++)
        if (!tried[i] && (best == b->tet_count || b->qualities[i] < b->qualities[best])) best = i;
    return best;
}

/* 1 where the cavity of a tetrahedron was replaced. */
static int attempt(cottontuff_bench *b, uint32_t tet) {
    cottontuff_bench_answer a = cottontuff_bench_open(*b, tet);
    for (;;) {
        cottontuff_bench_answer r = cottontuff_bench_replace(a.bench);
        if (r.number == 0) {
            *b = r.bench;
            return 1;
        }
        r = cottontuff_bench_grow(a.bench);
        if (r.number != 0) break;
        a = r;
    }
    a = cottontuff_bench_close(a.bench);
    *b = a.bench;
    return 0;
}

static int round_of(cottontuff_bench *b) {
    unsigned char tried[256] = {0};
    for (uint32_t t = next(b, tried); t < b->tet_count; t = next(b, tried)) {
        tried[t] = 1;
        if (attempt(b, t)) return 1;
    }
    return 0;
}

int main(void) {
    char line[100];
    size_t n = 0, m = 0;
    int a, b, c, d;
    while (fgets(line, sizeof line, stdin)) {
        if (sscanf(line, "P,%d,%d,%d", &a, &b, &c) == 3 && n < 192) {
            points[n++] = a;
            points[n++] = b;
            points[n++] = c;
        } else if (sscanf(line, "H,%d,%d,%d,%d", &a, &b, &c, &d) == 4 && m < 1024) {
            tets[m++] = (uint8_t)a;
            tets[m++] = (uint8_t)b;
            tets[m++] = (uint8_t)c;
            tets[m++] = (uint8_t)d;
        }
    }
    cottontuff_bench_answer l = cottontuff_bench_load(cottontuff_bench_fresh(), points, n, tets, m);
    cottontuff_bench bench = l.bench;
    uint32_t before = worst(&bench), count = 0;
    while (count < 1000 && round_of(&bench)) count++;
    printf("improve,0,%u,%u,%u,%d\nshow,0\n", before, worst(&bench), count, count == 1000);
    for (uint32_t i = 0; i < bench.point_count; i++) printf("P,%d,%d,%d\n", bench.points[3 * i], bench.points[3 * i + 1], bench.points[3 * i + 2]);
    for (uint32_t i = 0; i < bench.tet_count; i++) {
        const uint8_t *t = bench.tets + 4 * i;
        printf("H,%u,%u,%u,%u,%u\n", t[0], t[1], t[2], t[3], bench.qualities[i]);
    }
    return 0;
}

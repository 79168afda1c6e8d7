/* A bench session: a mesh of two flat tetrahedra over and under one triangle becomes three round the edge between the tips. */
#include "cottontuff.h"

#include <stdio.h>

static void show(const char *what, cottontuff_bench_answer a) {
    printf("%s: %u\n", what, (unsigned)a.number);
    for (uint32_t i = 0; i < a.bench.tet_count; i++) {
        const uint8_t *t = a.bench.tets + 4 * i;
        printf("  %u: %u %u %u %u  %u%s\n", (unsigned)i, t[0], t[1], t[2], t[3], (unsigned)a.bench.qualities[i],
               a.bench.open && a.bench.in_cavity[i] ? "  in the cavity" : "");
    }
}

int main(void) {
    static const int32_t points[] = {0, 0, 0, 6, 0, 0, 3, 5, 0, 3, 2, 1, 3, 2, -1};
    static const uint8_t tets[] = {0, 1, 2, 3, 0, 1, 2, 4};
    cottontuff_bench_answer a = cottontuff_bench_load(cottontuff_bench_fresh(), points, 15, tets, 8);
    show("load", a);
    a = cottontuff_bench_open(a.bench, 0);
    show("open 0", a);
    a = cottontuff_bench_replace(a.bench);
    show("replace", a);
    a = cottontuff_bench_grow(a.bench);
    show("grow", a);
    a = cottontuff_bench_replace(a.bench);
    show("replace", a);
    printf("replacements: %u\n", (unsigned)a.bench.count);
    return 0;
}

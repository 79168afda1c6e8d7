// Our search behind the interface that the peer's harness loads with -k: jobs as ints in, fours as ints out.
#include "../../include/cottontuff.h"

int kernel_solve(int np, const int *xyz, int nt, const int *tri, int ne, const int *edge, const int *table, int *fours,
                 int *worst) {
    uint8_t triangles[3 * COTTONTUFF_MOST_TRIANGLES], kept[2 * COTTONTUFF_MOST_KEPT], answer[COTTONTUFF_ANSWER_BYTES];
    if (nt > COTTONTUFF_MOST_TRIANGLES || ne > COTTONTUFF_MOST_KEPT) return 0;
    for (int i = 0; i < 3 * nt; i++) triangles[i] = (uint8_t)tri[i];
    for (int i = 0; i < 2 * ne; i++) kept[i] = (uint8_t)edge[i];
    size_t n = (size_t)np, entries = n * (n - 1) * (n - 2) * (n - 3) / 24;
    cottontuff_found r = cottontuff_search(xyz, 3 * n, triangles, 3 * (size_t)nt, kept, 2 * (size_t)ne, table, entries, answer,
                                         sizeof answer);
    if (r.number != 0) return 0;
    for (uint32_t i = 0; i < 4 * r.count; i++) fours[i] = answer[i];
    *worst = (int)r.worst;
    return (int)r.count;
}

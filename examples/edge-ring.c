/* Edge removal beside the search: case B, whose edge from 3 to 4 has the ring 0 1 2, and a long edge with five points around it, measured. */
#include "cottontuff.h"

#include <stdio.h>

typedef struct {
    const char *name;
    int32_t points[21];
    size_t points_len;
    uint32_t a, b;
    uint8_t ring[COTTONTUFF_MOST_RING];
    size_t ring_len;
    int32_t table[35];
    size_t table_len;
} edge;

static edge edges[] = {
    {"case B", {0, 0, 0, 6, 0, 0, 0, 6, 0, 1, 1, 5, 1, 1, -5}, 15, 3, 4, {0, 1, 2}, 3, {500000, 400000, 450000, 450000, 460000}, 5},
    {"0134 at 300000", {0, 0, 0, 6, 0, 0, 0, 6, 0, 1, 1, 5, 1, 1, -5}, 15, 3, 4, {0, 1, 2}, 3, {500000, 400000, 300000, 450000, 460000}, 5},
    {"0124 barred", {0, 0, 0, 6, 0, 0, 0, 6, 0, 1, 1, 5, 1, 1, -5}, 15, 3, 4, {0, 1, 2}, 3, {500000, 0, 450000, 450000, 460000}, 5},
    {"the ring clockwise seen from a", {0, 0, 0, 6, 0, 0, 0, 6, 0, 1, 1, 5, 1, 1, -5}, 15, 3, 4, {0, 2, 1}, 3, {500000, 400000, 450000, 450000, 460000}, 5},
    {"a point twice in the ring", {0, 0, 0, 6, 0, 0, 0, 6, 0, 1, 1, 5, 1, 1, -5}, 15, 3, 4, {0, 1, 1}, 3, {500000, 400000, 450000, 450000, 460000}, 5},
    /* Points 0 to 4 stand in a circle, 5 above it and 6 below; the table is measured below. */
    {"five around a long edge", {100, 0, 0, 31, 95, 10, -81, 59, 0, -81, -59, -10, 31, -95, 0, 5, 3, 160, -4, 2, -160}, 21, 5, 6, {0, 1, 2, 3, 4}, 5, {0}, 35},
};

static uint8_t answer[COTTONTUFF_ANSWER_BYTES];

static void show(const char *what, cottontuff_found f) {
    if (f.number != COTTONTUFF_DONE) {
        printf("  %s: refused with %u\n", what, (unsigned)f.number);
        return;
    }
    printf("  %s: worst quality %u:", what, (unsigned)f.worst);
    for (uint32_t i = 0; i < 4 * f.count; i++) printf("%s%d", i % 4 == 0 ? "  " : " ", answer[i]);
    printf("\n");
}

/* The boundary of the ring's job: for each two neighbours r, s the triangles r s a and s r b. */
static size_t boundary(const edge *e, uint8_t *triangles) {
    size_t n = 0;
    for (size_t i = 0; i < e->ring_len; i++) {
        uint8_t r = e->ring[i], s = e->ring[(i + 1) % e->ring_len];
        triangles[n++] = r, triangles[n++] = s, triangles[n++] = (uint8_t)e->a;
        triangles[n++] = s, triangles[n++] = r, triangles[n++] = (uint8_t)e->b;
    }
    return n;
}

int main(void) {
    edge *last = edges + sizeof edges / sizeof *edges - 1;
    for (size_t i = 0; i < last->table_len; i++) last->table[i] = COTTONTUFF_UNMEASURED_ENTRY;
    if (cottontuff_measure_table(last->points, last->points_len, last->table, last->table_len) != COTTONTUFF_DONE) return 1;
    for (const edge *e = edges; e <= last; e++) {
        uint8_t triangles[6 * COTTONTUFF_MOST_RING];
        size_t n = boundary(e, triangles);
        printf("%s\n", e->name);
        show("edge removed", cottontuff_remove_edge(e->points, e->points_len, e->a, e->b, e->ring, e->ring_len, e->table, e->table_len, answer, sizeof answer));
        show("search", cottontuff_search(e->points, e->points_len, triangles, n, NULL, 0, e->table, e->table_len, answer, sizeof answer));
    }
    return 0;
}

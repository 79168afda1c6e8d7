// Rings for the harnesses: rows NAME;POINTS;A;B;RING;TABLE;.. and the job of a ring.
#pragma once
#include "rows.h"

static uint8_t ring[MOST];
static size_t ring_len;
static uint32_t from, to;

#define RING_LISTS points, points_len, from, to, ring, ring_len, table, table_len

// POINTS;A;B;RING;TABLE
static void read_ring(char **field) {
    points_len = numbers(field[0], points), ring_len = bytes(field[3], ring), table_len = numbers(field[4], table);
    from = (uint32_t)strtoul(field[1], NULL, 10), to = (uint32_t)strtoul(field[2], NULL, 10);
}

// The boundary: r, s, a and s, r, b for each two neighbours. Whether the ring is good is not asked.
static inline void set_boundary(void) {
    triangles_len = kept_len = inner_len = 0;
    for (size_t i = 0; i < ring_len && triangles_len + 6 <= MOST; i++, triangles_len += 6) {
        const uint8_t a = (uint8_t)from, b = (uint8_t)to, r = ring[i], s = ring[(i + 1) % ring_len], two[6] = {r, s, a, s, r, b};
        memcpy(triangles + triangles_len, two, sizeof two);
    }
}

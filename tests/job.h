// Job texts for the harnesses: a plain parser that takes the form only as far as the stored jobs need it.
#pragma once
#include "../include/cottontuff.h"
#include <stdio.h>
#include <stdlib.h>
#include <string.h>

enum { POINTS = 8192, TRIANGLES = 8192, EDGES = 8192, INNER = 8192, TEXT = 1 << 17, ANSWER = COTTONTUFF_ANSWER_BYTES };

typedef struct {
    int np, nt, ne, nk;
    int32_t points[3 * POINTS];
    uint8_t triangles[3 * TRIANGLES], kept[2 * EDGES], inner[3 * INNER];
    int32_t quality[16][16][16][16];
    int32_t table[1820];
    size_t entries;
} job;

static job j;
static char text[TEXT];

static size_t slurp(const char *name, char *to) {
    FILE *f = fopen(name, "rb");
    if (!f) return 0;
    size_t n = fread(to, 1, TEXT - 1, f);
    fclose(f);
    to[n] = 0;
    return n;
}

// Whether the text gives a job that fits the arrays.
static int read_job(const char *name) {
    memset(&j, 0, sizeof j);
    memset(j.quality, -1, sizeof j.quality);
    slurp(name, text);
    for (char *line = strtok(text, "\n"); line; line = strtok(NULL, "\n")) {
        int a, b, c, d, v, end = 0;
        if (sscanf(line, "P,%d,%d,%d%n", &a, &b, &c, &end) == 3 && !line[end] && j.np < POINTS) {
            int32_t *p = j.points + 3 * j.np++;
            p[0] = a, p[1] = b, p[2] = c;
        } else if (sscanf(line, "T,%d,%d,%d%n", &a, &b, &c, &end) == 3 && !line[end] && j.nt < TRIANGLES) {
            if (a < 0 || b < 0 || c < 0 || a > 255 || b > 255 || c > 255) return 0;
            uint8_t *t = j.triangles + 3 * j.nt++;
            t[0] = (uint8_t)a, t[1] = (uint8_t)b, t[2] = (uint8_t)c;
        } else if (sscanf(line, "E,%d,%d%n", &a, &b, &end) == 2 && !line[end] && j.ne < EDGES) {
            if (a < 0 || b < 0 || a > 255 || b > 255) return 0;
            uint8_t *e = j.kept + 2 * j.ne++;
            e[0] = (uint8_t)a, e[1] = (uint8_t)b;
        } else if (sscanf(line, "K,%d,%d,%d%n", &a, &b, &c, &end) == 3 && !line[end] && j.nk < INNER) {
            if (a < 0 || b < 0 || c < 0 || a > 255 || b > 255 || c > 255) return 0;
            uint8_t *k = j.inner + 3 * j.nk++;
            k[0] = (uint8_t)a, k[1] = (uint8_t)b, k[2] = (uint8_t)c;
        } else if (sscanf(line, "Q,%d,%d,%d,%d,%d%n", &a, &b, &c, &d, &v, &end) == 5 && !line[end]) {
            if (a < 0 || b <= a || c <= b || d <= c || d >= j.np || d >= 16 || j.quality[a][b][c][d] != -1) return 0;
            j.quality[a][b][c][d] = v;
        } else {
            return 0;
        }
    }
    for (int a = 0; a < j.np && a < 16; a++)
        for (int b = a + 1; b < j.np && b < 16; b++)
            for (int c = b + 1; c < j.np && c < 16; c++)
                for (int d = c + 1; d < j.np && d < 16; d++) j.table[j.entries++] = j.quality[a][b][c][d];
    return 1;
}

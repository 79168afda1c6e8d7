// Rows of numbers for the harnesses: fields parted by semicolons, a job in them as five lists of decimals or by the name of its text beside the file of rows.
#pragma once
#include "job.h"

// As long as the longest list or buffer of a row, and longer.
enum { FIELDS = 9, MOST = 1 << 17 };

static int32_t points[MOST], table[MOST];
static uint8_t triangles[MOST], kept[MOST], inner[MOST];
static size_t points_len, triangles_len, kept_len, inner_len, table_len;
static int passed, failed;

#define FOUR_LISTS points, points_len, triangles, triangles_len, kept, kept_len, table, table_len
#define FIVE_LISTS points, points_len, triangles, triangles_len, kept, kept_len, inner, inner_len, table, table_len

// Parted by commas or blanks; v*n is n times v.
static size_t numbers(char *from, int32_t *to) {
    size_t n = 0;
    for (char *p = strtok(from, ", "); p; p = strtok(NULL, ", ")) {
        char *star = strchr(p, '*');
        for (int times = star ? atoi(star + 1) : 1; times > 0 && n < MOST; times--) to[n++] = atoi(p);
    }
    return n;
}

static size_t bytes(char *from, uint8_t *to) {
    static int32_t wide[MOST];
    size_t n = numbers(from, wide);
    for (size_t i = 0; i < n; i++) to[i] = (uint8_t)wide[i];
    return n;
}

// P;T;E;K;Q. Inline, as what reads texts: not every harness has such rows.
static inline void read_lists(char **field) {
    points_len = numbers(field[0], points), triangles_len = bytes(field[1], triangles), kept_len = bytes(field[2], kept);
    inner_len = bytes(field[3], inner), table_len = numbers(field[4], table);
}

static inline int read_text(const char *path) {
    if (!read_job(path)) return 0;
    points_len = 3 * (size_t)j.np, triangles_len = 3 * (size_t)j.nt, kept_len = 2 * (size_t)j.ne, inner_len = 3 * (size_t)j.nk, table_len = j.entries;
    memcpy(points, j.points, sizeof *points * points_len), memcpy(table, j.table, sizeof *table * table_len);
    memcpy(triangles, j.triangles, triangles_len), memcpy(kept, j.kept, kept_len), memcpy(inner, j.inner, inner_len);
    return 1;
}

// NAME.txt in the folder of the file of rows.
static inline int read_stored(const char *file, const char *name) {
    static char path[4096];
    const char *slash = strrchr(file, '/');
    snprintf(path, sizeof path, "%.*s%s.txt", slash ? (int)(slash - file) + 1 : 0, file, name);
    return read_text(path);
}

// Every row of a file; one that is not right is named, and so is a file that is not there.
static void play(const char *file, int (*is_right)(const char *file, char **field, int fields)) {
    static char line[1 << 20];
    FILE *f = fopen(file, "r");
    for (int k = 1; f && fgets(line, sizeof line, f); k++) {
        char *field[FIELDS], *row = line;
        int n = 0;
        line[strcspn(line, "\n")] = 0;
        for (char *p; n < FIELDS && (p = strsep(&row, ";")); n++) field[n] = p;
        if (is_right(file, field, n))
            passed++;
        else
            failed++, printf("%s, row %d\n", file, k);
    }
    if (!f)
        failed++, printf("%s: cannot be read\n", file);
    else
        fclose(f);
}

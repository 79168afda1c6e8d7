// Measures the tables of stored jobs through the library and compares with the Q lines that they have; then what a refusal leaves.
//   measure JOB.txt ..    jobs whose qualities are the measured ones; a text that is not of the form is passed over and counted
// Ends in 'N passed, M failed'.
#include "job.h"

static int passed, failed;

static void expect(const char *name, int ok) {
    if (ok)
        passed++;
    else
        failed++, printf("%s\n", name);
}

// The entries from 0 on, every third unmeasured, and the rest the same numbers that no measuring gives.
static void some(const char *name, const int32_t *measured) {
    static const int32_t standing[] = {0, 1000000, 1000001, -2, 7, INT32_MIN, INT32_MAX};
    int32_t table[1820], expected[1820];
    for (size_t i = 0; i < j.entries; i++) {
        table[i] = i % 3 ? standing[i % 7] : -1;
        expected[i] = i % 3 ? standing[i % 7] : measured[i];
    }
    uint32_t number = cottontuff_measure_table(j.points, 3 * (size_t)j.np, table, j.entries);
    expect(name, number == 0 && memcmp(table, expected, j.entries * sizeof *table) == 0);
}

static void whole(const char *name) {
    int32_t table[1820];
    for (size_t i = 0; i < j.entries; i++) table[i] = -1;
    uint32_t number = cottontuff_measure_table(j.points, 3 * (size_t)j.np, table, j.entries);
    expect(name, number == 0 && memcmp(table, j.table, j.entries * sizeof *table) == 0);
    some(name, table);
}

// A refusal: the number, and a table of so many entries as it was, with the entries around it.
static void refused(const char *name, const int32_t *points, size_t points_len, size_t table_len, uint32_t expected) {
    static int32_t room[2400];
    for (size_t i = 0; i < 2400; i++) room[i] = -1;
    uint32_t number = cottontuff_measure_table(points, points_len, room + 4, table_len);
    int same = 1;
    for (size_t i = 0; i < 2400; i++) same &= room[i] == -1;
    expect(name, number == expected && same);
}

int main(int argc, char **argv) {
    int passed_over = 0;
    for (int i = 1; i < argc; i++) {
        if (read_job(argv[i]))
            whole(argv[i]);
        else
            passed_over++;
    }
    static int32_t p[51] = {0, 0, 0, 1, 0, 0, 0, 1, 0, 0, 0, 1, 5, 5, 5};
    refused("no points", NULL, 0, 0, 2);
    refused("three points", p, 9, 0, 2);
    refused("a coordinate over", p, 13, 1, 2);
    refused("17 points", p, 51, 2380, 2);
    p[14] = 50001;
    refused("a far coordinate, before a short table", p, 15, 1, 3);
    p[14] = -50001;
    refused("a far coordinate", p, 15, 5, 3);
    p[14] = INT32_MIN;
    refused("the furthest coordinate", p, 15, 5, 3);
    p[12] = p[13] = p[14] = 0;
    refused("two points in one place, before a short table", p, 15, 4, 4);
    p[14] = 50000;
    refused("a short table", p, 15, 4, 11);
    refused("a long table", p, 15, 6, 11);
    refused("no table", p, 15, 0, 11);
    printf("%d texts left to the text form\n%d passed, %d failed\n", passed_over, passed, failed);
    return failed > 0 || passed == 0;
}

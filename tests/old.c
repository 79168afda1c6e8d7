// A program of version 1.0.1, built against its header, for the library of today: the job functions over case B and over a job for each number. Its output is tests/old.out, written by the library of 1.0.1.
// The one job that these functions answer otherwise since 1.2.0, the empty one, is not among them: tests/empty.c has it.
#include "cottontuff-1.0.1.h"
#include <stdio.h>
#include <string.h>

static int32_t points[15], table[5];
static uint8_t triangles[18], kept[4];
static size_t points_len, triangles_len, kept_len, table_len, answer_len;

static void case_b(void) {
    static const int32_t p[] = {0, 0, 0, 6, 0, 0, 0, 6, 0, 1, 1, 5, 1, 1, -5}, q[] = {500000, 400000, 450000, 450000, 460000};
    static const uint8_t t[] = {0, 1, 3, 1, 2, 3, 2, 0, 3, 1, 0, 4, 2, 1, 4, 0, 2, 4};
    memcpy(points, p, sizeof p), memcpy(triangles, t, sizeof t), memcpy(table, q, sizeof q);
    points_len = 15, triangles_len = 18, kept_len = 0, table_len = 5, answer_len = COTTONTUFF_ANSWER_BYTES;
}

// What the three functions answer for the job as it stands, and case B anew.
static void show(const char *name) {
    static const uint8_t two[] = {0, 1, 2, 3, 0, 1, 2, 4};
    static uint8_t answer[COTTONTUFF_ANSWER_BYTES];
    memset(answer, 0xa5, sizeof answer);
    uint32_t number = cottontuff_check(points, points_len, triangles, triangles_len, kept, kept_len, table, table_len);
    cottontuff_verdict v = cottontuff_judge(points, points_len, triangles, triangles_len, kept, kept_len, table, table_len, two, sizeof two);
    cottontuff_found f = cottontuff_search(points, points_len, triangles, triangles_len, kept, kept_len, table, table_len, answer, answer_len);
    printf("%s: check %u, judge %u %u %u, search %u %u %u:", name, number, v.number, v.law, v.worst, f.number, f.count, f.worst);
    for (size_t i = 0; i < sizeof answer; i++)
        if (i < 4 * f.count || answer[i] != 0xa5) printf(" %d", answer[i]);
    puts("");
    case_b();
}

int main(void) {
    case_b();
    show("case B");
    kept_len = 2, kept[0] = 4, kept[1] = 3;
    show("an edge kept");
    points_len = 14;
    show("2");
    points[14] = -10001;
    show("a coordinate that was 3 in that version");
    points[14] = -50001;
    show("3");
    memcpy(points + 12, points, 3 * sizeof *points);
    show("4");
    triangles_len = 9;
    show("5");
    triangles[0] = 5;
    show("6");
    memcpy(triangles + 15, triangles, 3);
    show("7");
    triangles[15] = 2, triangles[16] = 0;
    show("8");
    kept_len = 1;
    show("9");
    kept_len = 2, kept[0] = 3, kept[1] = 3;
    show("10");
    table_len = 4;
    show("11");
    table[4] = -2;
    show("12");
    table[0] = -1;
    show("13");
    answer_len--;
    show("14");
    table[1] = table[2] = 0;
    show("15");
    return 0;
}

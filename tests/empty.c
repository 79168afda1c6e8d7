// The empty job through the library: every list of length 0, its pointer NULL or not, by the functions of four lists and of five; then what is next to it and is refused as before.
// Ends in 'N passed, M failed'.
#include "../include/cottontuff.h"
#include <stdio.h>
#include <string.h>

#define NO_LIST NULL, 0
#define NO_FOUR_LISTS NO_LIST, NO_LIST, NO_LIST, NO_LIST
#define NO_FIVE_LISTS NO_FOUR_LISTS, NO_LIST

enum { PATTERN = 0xa5 };

static int passed, failed;
static uint8_t room[COTTONTUFF_ANSWER_BYTES + 1], printed[COTTONTUFF_PRINT_BYTES];

static void expect(const char *name, int ok) {
    if (ok)
        passed++;
    else
        failed++, printf("%s\n", name);
}

static int is_untouched(const uint8_t *bytes, size_t len) {
    for (size_t i = 0; i < len; i++)
        if (bytes[i] != PATTERN) return 0;
    return 1;
}

// An answer, and no byte of the buffer changed.
static void found(const char *name, cottontuff_found f, uint32_t number, uint32_t worst) {
    expect(name, f.number == number && f.count == 0 && f.worst == worst && is_untouched(room, sizeof room));
}

static void searched(void) {
    size_t enough = COTTONTUFF_ANSWER_BYTES;
    found("search", cottontuff_search(NO_FOUR_LISTS, room, enough), COTTONTUFF_DONE, COTTONTUFF_MILLIONTHS);
    found("search_inner", cottontuff_search_inner(NO_FIVE_LISTS, room, enough), COTTONTUFF_DONE, COTTONTUFF_MILLIONTHS);
    found("search, a byte more", cottontuff_search(NO_FOUR_LISTS, room, enough + 1), COTTONTUFF_DONE, COTTONTUFF_MILLIONTHS);
    found("search, a byte less", cottontuff_search(NO_FOUR_LISTS, room, enough - 1), COTTONTUFF_SHORT_BUFFER, 0);
    found("search_inner, a byte less", cottontuff_search_inner(NO_FIVE_LISTS, room, enough - 1), COTTONTUFF_SHORT_BUFFER, 0);
    found("search, no buffer", cottontuff_search(NO_FOUR_LISTS, NO_LIST), COTTONTUFF_SHORT_BUFFER, 0);
    found("search_inner, no buffer", cottontuff_search_inner(NO_FIVE_LISTS, NO_LIST), COTTONTUFF_SHORT_BUFFER, 0);
    // Pointers that are not NULL mean nothing where the length is 0.
    int32_t x = 7;
    uint8_t p = 7;
    found("search, lists of length 0", cottontuff_search(&x, 0, &p, 0, &p, 0, &x, 0, room, enough), COTTONTUFF_DONE, COTTONTUFF_MILLIONTHS);
}

static void judged(const char *name, const uint8_t *list, size_t len, uint32_t law, uint32_t worst) {
    cottontuff_verdict v = cottontuff_judge(NO_FOUR_LISTS, list, len), w = cottontuff_judge_inner(NO_FIVE_LISTS, list, len);
    expect(name, v.number == COTTONTUFF_DONE && v.law == law && v.worst == worst && memcmp(&v, &w, sizeof v) == 0);
}

// One entry in one of the lists.
static void refused(void) {
    int32_t x[1] = {0};
    uint8_t p[1] = {0};
    size_t enough = COTTONTUFF_ANSWER_BYTES;
    for (int i = 0; i < 5; i++) {
        size_t n[5] = {0};
        n[i] = 1;
        uint32_t number = cottontuff_check_inner(x, n[0], p, n[1], p, n[2], p, n[3], x, n[4]);
        cottontuff_verdict v = cottontuff_judge_inner(x, n[0], p, n[1], p, n[2], p, n[3], x, n[4], NO_LIST);
        expect("one entry, checked and judged", number == COTTONTUFF_POINT_COUNT && v.number == COTTONTUFF_POINT_COUNT && v.law == 0 && v.worst == 0);
        found("one entry, searched", cottontuff_search_inner(x, n[0], p, n[1], p, n[2], p, n[3], x, n[4], room, enough), COTTONTUFF_POINT_COUNT, 0);
        // 2 stands before 14.
        found("one entry, no buffer", cottontuff_search_inner(x, n[0], p, n[1], p, n[2], p, n[3], x, n[4], NO_LIST), COTTONTUFF_POINT_COUNT, 0);
        if (i != 3) expect("one entry of four lists", cottontuff_check(x, n[0], p, n[1], p, n[2], x, n[4]) == COTTONTUFF_POINT_COUNT);
    }
}

static void texts(void) {
    static const char answer[] = "F,0,1000000\n";
    memset(printed, PATTERN, sizeof printed);
    size_t n = cottontuff_print(NO_LIST, printed, sizeof printed);
    expect("print", n == 12 && memcmp(printed, answer, 12) == 0 && is_untouched(printed + 12, sizeof printed - 12));
    memset(printed, PATTERN, sizeof printed);
    n = cottontuff_print(NO_LIST, printed, sizeof printed - 1);
    expect("print, a byte less", n == 0 && is_untouched(printed, sizeof printed));
    n = cottontuff_print((const uint8_t *)"Q,0,1,2,3,5\n", 12, printed, sizeof printed);
    expect("print, a Q line alone", n == 4 && memcmp(printed, "R,2\n", 4) == 0);
}

int main(void) {
    static const uint8_t four[] = {0, 1, 2, 3}, absent[] = {255, 255, 255, 255};
    memset(room, PATTERN, sizeof room);
    expect("check", cottontuff_check(NO_FOUR_LISTS) == COTTONTUFF_DONE);
    expect("check_inner", cottontuff_check_inner(NO_FIVE_LISTS) == COTTONTUFF_DONE);
    searched();
    judged("the empty list", NO_LIST, 0, COTTONTUFF_MILLIONTHS);
    judged("a byte", four, 1, 1, 0);
    judged("a four", four, sizeof four, 1, 0);
    judged("an absent four", absent, sizeof absent, 1, 0);
    refused();
    texts();
    // A mesh is no job, and a table of no points is none.
    cottontuff_bench fresh = cottontuff_bench_fresh();
    cottontuff_bench_answer loaded = cottontuff_bench_load(fresh, NO_LIST, NO_LIST);
    expect("load", loaded.number == COTTONTUFF_POINT_COUNT && memcmp(&loaded.bench.points, &fresh.points, sizeof fresh.points) == 0 && loaded.bench.tet_count == 0);
    expect("measure_table", cottontuff_measure_table(NO_LIST, NO_LIST) == COTTONTUFF_POINT_COUNT);
    printf("%d passed, %d failed\n", passed, failed);
    return failed != 0 || passed == 0;
}

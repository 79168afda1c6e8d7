// The functions that take inner triangles, by rows of numbers; those that take none must answer the same where a row has none.
//   inner FILE ..     a file has rows of one of three forms, told apart by their count of fields:
//     P;T;E;K;Q;BUFFER;NUMBER,COUNT,WORST;LIST   five lists and the length of the answer buffer; what the search answers. LIST as 0,1,2,3 0,1,2,4
//     P;T;E;K;Q;LIST;RESULT                      five lists and a list of fours; W,worst or L,law or R,number
//     JOB;LIST;RESULT                            the same, the job in JOB.txt beside the file
// Ends in 'N passed, M failed'.
#include "rows.h"

static uint8_t list[MOST];

// Whether the search gives this answer and touches nothing behind it, and checker and judge agree with it.
static int is_found(size_t room, const char *wanted, char *fours) {
    static uint8_t answer[MOST], plain[MOST];
    char got[64];
    size_t n = bytes(fours, list);
    memset(answer, 0xa5, MOST), memset(plain, 0xa5, MOST);
    cottontuff_found f = cottontuff_search_inner(FIVE_LISTS, answer, room);
    snprintf(got, sizeof got, "%u,%u,%u", f.number, f.count, f.worst);
    int right = strcmp(got, wanted) == 0 && n == 4 * (size_t)f.count && memcmp(answer, list, n) == 0;
    for (size_t i = n; i < MOST; i++) right &= answer[i] == 0xa5;
    uint32_t number = f.number == COTTONTUFF_SHORT_BUFFER || f.number == COTTONTUFF_NO_FILLING ? COTTONTUFF_DONE : f.number;
    right &= cottontuff_check_inner(FIVE_LISTS) == number;
    cottontuff_verdict v = cottontuff_judge_inner(FIVE_LISTS, list, n);
    right &= v.number == number && (f.number != COTTONTUFF_DONE || (v.law == 0 && v.worst == f.worst));
    if (inner_len == 0) {
        cottontuff_found g = cottontuff_search(FOUR_LISTS, plain, room);
        right &= g.number == f.number && g.count == f.count && g.worst == f.worst && memcmp(plain, answer, MOST) == 0;
        right &= cottontuff_check(FOUR_LISTS) == number;
    }
    return right;
}

static int is_judged(char *fours, const char *wanted) {
    char got[64];
    size_t n = bytes(fours, list);
    cottontuff_verdict v = cottontuff_judge_inner(FIVE_LISTS, list, n);
    snprintf(got, sizeof got, "%c,%u", v.number ? 'R' : v.law ? 'L' : 'W', v.number ? v.number : v.law ? v.law : v.worst);
    if (inner_len == 0) {
        cottontuff_verdict w = cottontuff_judge(FOUR_LISTS, list, n);
        if (w.number != v.number || w.law != v.law || w.worst != v.worst) return 0;
    }
    return strcmp(got, wanted) == 0;
}

static int is_right(const char *file, char **field, int n) {
    if (n == 3) return read_stored(file, field[0]) && is_judged(field[1], field[2]);
    if (n < 7) return 0;
    read_lists(field);
    return n == 7 ? is_judged(field[5], field[6]) : is_found((size_t)atol(field[5]), field[6], field[7]);
}

int main(int argc, char **argv) {
    for (int i = 1; i < argc; i++) play(argv[i], is_right);
    printf("%d passed, %d failed\n", passed, failed);
    return failed != 0 || passed == 0;
}

// What the empty job costs: search and checker, no list, nanoseconds a call.
//   empty
#include "../../include/cottontuff.h"

#include <stdio.h>
#include <time.h>

enum { CALLS = 10000000 };
static uint8_t answer[COTTONTUFF_ANSWER_BYTES];

int main(void) {
    struct timespec t0, t1;
    uint64_t wrong = 0;
    clock_gettime(CLOCK_MONOTONIC, &t0);
    for (int i = 0; i < CALLS; i++) {
        cottontuff_found f = cottontuff_search_inner(NULL, 0, NULL, 0, NULL, 0, NULL, 0, NULL, 0, answer, sizeof answer);
        wrong += f.number != COTTONTUFF_DONE || f.count != 0 || f.worst != COTTONTUFF_MILLIONTHS;
    }
    clock_gettime(CLOCK_MONOTONIC, &t1);
    printf("%d calls, %llu wrong, %.1f ns each\n", CALLS, (unsigned long long)wrong, (1e9 * (double)(t1.tv_sec - t0.tv_sec) + (double)(t1.tv_nsec - t0.tv_nsec)) / CALLS);
    return wrong != 0;
}

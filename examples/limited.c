/* The limited search: case B at each limit on trials, and what can be answered. */
#include "cottontuff.h"

#include <stdio.h>

static void show(uint32_t limit, cottontuff_limited a, const uint8_t *answer) {
    printf("limit %u: ", (unsigned)limit);
    if (a.number != COTTONTUFF_DONE && a.number != COTTONTUFF_NO_FILLING) {
        printf("refused with %u\n", (unsigned)a.number);
        return;
    }
    printf("%s, trials %u, ", a.spent ? "spent" : "complete", (unsigned)a.trials);
    if (a.number == COTTONTUFF_NO_FILLING) {
        printf("no filling exists\n");
        return;
    }
    if (a.spent && a.count == 0) {
        printf("none found\n");
        return;
    }
    printf("worst quality %u:", (unsigned)a.worst);
    for (uint32_t i = 0; i < a.count; i++) {
        const uint8_t *t = answer + 4 * i;
        printf("  %u %u %u %u", t[0], t[1], t[2], t[3]);
    }
    printf("\n");
}

int main(void) {
    static const int32_t points[] = {0, 0, 0, 6, 0, 0, 0, 6, 0, 1, 1, 5, 1, 1, -5};
    static const uint8_t triangles[] = {0, 1, 3, 1, 2, 3, 2, 0, 3, 1, 0, 4, 2, 1, 4, 0, 2, 4};
    static const int32_t table[] = {500000, 400000, 450000, 450000, 460000};
    static const uint32_t limits[] = {0, 1, 2, 3, 4, 5, 2000};
    static uint8_t answer[COTTONTUFF_ANSWER_BYTES];
    for (size_t i = 0; i < sizeof limits / sizeof *limits; i++)
        show(limits[i], cottontuff_search_limited(points, 15, triangles, 18, NULL, 0, NULL, 0, table, 5, limits[i], answer, sizeof answer), answer);
    return 0;
}

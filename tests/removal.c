// Edge removal by rows of numbers, and what is answered beside what the other functions say.
//   removal FILE ..     rows NAME;POINTS;A;B;RING;TABLE;BUFFER;RESULT: RESULT is R,number, or F,count,worst and the list; what stands behind it is not read
// Nothing but the list may be written: the lent lists, and the buffer with what stands behind it, are looked at after each call. Ends in 'N passed, M failed'.
#include "ring.h"

enum { BEHIND = 64 };

static struct {
    int32_t points[MOST], table[MOST];
    uint8_t ring[MOST], answer[MOST];
} before;
static uint8_t answer[MOST];

static void keep_lists(void) {
    memcpy(before.points, points, sizeof points), memcpy(before.table, table, sizeof table), memcpy(before.ring, ring, sizeof ring);
}

static cottontuff_found remove_edge(size_t room) {
    for (size_t i = 0; i < sizeof answer; i++) before.answer[i] = (uint8_t)(i ^ 0x5a);
    memcpy(answer, before.answer, sizeof answer);
    return cottontuff_remove_edge(RING_LISTS, answer, room);
}

// Whether all but the first bytes of the buffer, and every list, is as it was.
static int is_kept(size_t written) {
    return memcmp(before.answer + written, answer + written, sizeof answer - written) == 0 && memcmp(before.points, points, sizeof points) == 0 &&
           memcmp(before.table, table, sizeof table) == 0 && memcmp(before.ring, ring, sizeof ring) == 0;
}

static int is_refused(size_t room, uint32_t number) {
    cottontuff_found found = remove_edge(room);
    return found.number == number && found.count == 0 && found.worst == 0 && is_kept(0);
}

static int is_removed(size_t room, uint32_t count, uint32_t worst, const uint8_t *list) {
    cottontuff_found found = remove_edge(room);
    return found.number == COTTONTUFF_DONE && found.count == count && found.worst == worst && memcmp(answer, list, 4 * (size_t)count) == 0 && is_kept(4 * (size_t)count);
}

// ---- what the other functions say

static unsigned long told[3];

// No four of the list has both ends; the judge passes it; the search has no lower worst quality.
static int is_lawful(uint32_t count, uint32_t worst, const uint8_t *list) {
    static uint8_t best[ANSWER];
    for (const uint8_t *f = list; f < list + 4 * count; f += 4)
        if (memchr(f, (int)from, 4) && memchr(f, (int)to, 4)) return 0;
    cottontuff_verdict v = cottontuff_judge(FOUR_LISTS, list, 4 * (size_t)count);
    cottontuff_found found = cottontuff_search(FOUR_LISTS, best, sizeof best);
    told[found.worst > worst]++;
    return count == 2 * (ring_len - 2) && v.number == COTTONTUFF_DONE && v.law == 0 && v.worst == worst && found.number == COTTONTUFF_DONE && found.worst >= worst;
}

// The same edge and ring from another point on, and from the other end: another row may come first, its worst quality is the same.
static int is_same_edge(cottontuff_found wanted) {
    for (int other = 0; other < 2; other++) {
        for (size_t i = 0; i < ring_len; i++) {
            cottontuff_found found = cottontuff_remove_edge(RING_LISTS, answer, sizeof answer);
            if (found.number != wanted.number || found.count != wanted.count || found.worst != wanted.worst) return 0;
            uint8_t first = ring[0];
            memmove(ring, ring + 1, ring_len - 1), ring[ring_len - 1] = first;
        }
        uint32_t end = from;
        from = to, to = end;
        for (size_t i = 0; i < ring_len / 2; i++) {
            uint8_t r = ring[i];
            ring[i] = ring[ring_len - 1 - i], ring[ring_len - 1 - i] = r;
        }
    }
    return 1;
}

// What is refused behind 25 is refused by the checker for the ring's job, by 14 or by 26.
static int is_refused_beside(size_t room, uint32_t number) {
    if (number == COTTONTUFF_BAD_RING) return 1;
    uint32_t job = cottontuff_check(FOUR_LISTS);
    told[2] += number == COTTONTUFF_NO_ROW;
    if (job != COTTONTUFF_DONE) return number == job;
    return room < ANSWER ? number == COTTONTUFF_SHORT_BUFFER : number == COTTONTUFF_NO_ROW && is_same_edge((cottontuff_found){number, 0, 0});
}

// Ends that are no points, though their low bytes are; a point at both ends. 25 whatever else is wrong.
static int is_bad_refused(void) {
    const uint32_t a = from, b = to, bad[][2] = {{a + 256, b}, {a, b + 65536}, {a | 1u << 31, b}, {UINT32_MAX, b}, {a, UINT32_MAX}, {a, a}, {a, (uint32_t)(points_len / 3)}};
    int right = 1;
    for (size_t i = 0; i < sizeof bad / sizeof *bad; i++) from = bad[i][0], to = bad[i][1], right &= is_refused(0, COTTONTUFF_BAD_RING);
    from = a, to = b;
    return right;
}

static int is_right(const char *file, char **field, int n) {
    static int32_t wide[MOST];
    static uint8_t list[MOST];
    (void)file;
    if (n < 8) return 0;
    read_ring(field + 1), set_boundary(), keep_lists();
    size_t room = (size_t)strtoul(field[6], NULL, 10), numbers_of = numbers(field[7] + strcspn(field[7], ",") + 1, wide);
    if (room + BEHIND > sizeof answer || numbers_of < 1 || !is_bad_refused()) return 0;
    if (field[7][0] == 'R') return numbers_of == 1 && is_refused(room, (uint32_t)wide[0]) && is_refused_beside(room, (uint32_t)wide[0]);
    if (field[7][0] != 'F' || numbers_of < 2 || numbers_of != 2 + 4 * (size_t)wide[0]) return 0;
    for (size_t i = 2; i < numbers_of; i++) list[i - 2] = (uint8_t)wide[i];
    const cottontuff_found wanted = {COTTONTUFF_DONE, (uint32_t)wide[0], (uint32_t)wide[1]};
    return is_removed(room, wanted.count, wanted.worst, list) && is_refused(ANSWER - 1, COTTONTUFF_SHORT_BUFFER) && is_refused(40, COTTONTUFF_SHORT_BUFFER) &&
           is_lawful(wanted.count, wanted.worst, list) && is_same_edge(wanted);
}

static void expect(const char *name, int right) {
    if (right)
        passed++;
    else
        failed++, printf("%s\n", name);
}

// No pointer need point anywhere where there is nothing.
static void no_lists(void) {
    static const int32_t b_points[] = {0, 0, 0, 6, 0, 0, 0, 6, 0, 1, 1, 5, 1, 1, -5}, b_table[] = {500000, 400000, 450000, 450000, 460000};
    static const uint8_t b_ring[] = {0, 1, 2};
    expect("no lists", cottontuff_remove_edge(NULL, 0, 0, 1, NULL, 0, NULL, 0, NULL, 0).number == COTTONTUFF_BAD_RING);
    expect("no ring", cottontuff_remove_edge(b_points, 15, 3, 4, NULL, 0, b_table, 5, answer, ANSWER).number == COTTONTUFF_BAD_RING);
    expect("no points", cottontuff_remove_edge(NULL, 0, 3, 4, b_ring, 3, b_table, 5, answer, ANSWER).number == COTTONTUFF_BAD_RING);
    expect("no table", cottontuff_remove_edge(b_points, 15, 3, 4, b_ring, 3, NULL, 0, answer, ANSWER).number == COTTONTUFF_TABLE_LENGTH);
    expect("no answer", cottontuff_remove_edge(b_points, 15, 3, 4, b_ring, 3, b_table, 5, NULL, 0).number == COTTONTUFF_SHORT_BUFFER);
}

int main(int argc, char **argv) {
    no_lists();
    for (int i = 1; i < argc; i++) play(argv[i], is_right);
    printf("the search as good as the row %lu times, better %lu; no row lawful %lu\n%d passed, %d failed\n", told[0], told[1], told[2], passed, failed);
    return failed != 0 || passed == 0;
}

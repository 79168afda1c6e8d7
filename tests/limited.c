// The limited search, by rows of numbers and on jobs over rising limits.
//   limited [JOB.txt ..] -r [FILE ..]     a file has rows of one of two forms, told apart by their count of fields:
//     P;T;E;K;Q;LIMIT;KIND,TRIALS,COUNT,WORST;LIST   five lists and a limit; what is answered. LIST as 0,1,2,3 0,1,2,4
//     JOB;LIMIT;KIND,TRIALS,COUNT,WORST;LIST         the same, the job in JOB.txt beside the file
//     KIND is F for a filling, not spent; R for 15; S for spent, COUNT 0 where none was found; Rn for a refusal with n
// Of a row every byte of the buffer is looked at, and what a shorter buffer gives. Ends in 'N passed, M failed'.
#include "rows.h"

enum { ROOM = COTTONTUFF_ANSWER_BYTES + 64, EACH = 200, LAST = 1 << 13 };

static uint8_t before[ROOM], answer[ROOM], whole[ROOM], list[MOST];

static cottontuff_limited ask(uint32_t limit, size_t room) {
    memcpy(answer, before, ROOM);
    return cottontuff_search_limited(FIVE_LISTS, limit, answer, room);
}

static int is_untouched(void) { return memcmp(answer, before, ROOM) == 0; }

static int is_same(cottontuff_limited a, cottontuff_limited b) {
    return a.number == b.number && a.spent == b.spent && a.count == b.count && a.worst == b.worst && a.trials == b.trials;
}

// The number alone, no trial, and no byte changed.
static int is_refused(uint32_t number, uint32_t limit, size_t room) {
    cottontuff_limited refused = {number, 0, 0, 0, 0};
    return is_same(ask(limit, room), refused) && is_untouched();
}

// Where it was not spent, the search without a limit answers the same to the byte; where it was, the judge passes the list.
static int is_sound(cottontuff_limited r) {
    if (r.spent && r.count == 0) return is_untouched();
    if (r.spent) {
        cottontuff_verdict v = cottontuff_judge_inner(FIVE_LISTS, answer, 4 * (size_t)r.count);
        return v.number == COTTONTUFF_DONE && v.law == 0 && v.worst == r.worst;
    }
    memcpy(whole, before, ROOM);
    cottontuff_found f = cottontuff_search_inner(FIVE_LISTS, whole, ROOM);
    return f.number == r.number && f.count == r.count && f.worst == r.worst && memcmp(whole, answer, ROOM) == 0;
}

static cottontuff_limited wanted_in(const char *field) {
    cottontuff_limited w = {0, *field == 'S', 0, 0, 0};
    if (*field == 'R') w.number = field[1] == ',' ? COTTONTUFF_NO_FILLING : (uint32_t)atoi(field + 1);
    sscanf(field + strcspn(field, ","), ",%u,%u,%u", &w.trials, &w.count, &w.worst);
    return w;
}

// The answer, the list at the start of the buffer, every byte behind it as before the call; by turns into a buffer of the least length and a longer one.
static int is_found(uint32_t limit, cottontuff_limited wanted, char *fours) {
    size_t n = bytes(fours, list);
    cottontuff_limited r = ask(limit, limit % 2 ? ROOM : COTTONTUFF_ANSWER_BYTES);
    return is_same(r, wanted) && n == 4 * (size_t)r.count && memcmp(answer, list, n) == 0 && memcmp(answer + n, before + n, ROOM - n) == 0 && is_sound(r);
}

// A refused job is refused with any buffer, another with 14 where the buffer is too short; lengths by steps, of a stored job the shortest and the longest that is too short.
static int is_refused_short(uint32_t limit, uint32_t number, size_t step) {
    int accepted = number == COTTONTUFF_DONE || number == COTTONTUFF_NO_FILLING;
    size_t end = accepted ? COTTONTUFF_ANSWER_BYTES : ROOM + 1;
    for (size_t room = 0; room < end; room += step)
        if (!is_refused(accepted ? COTTONTUFF_SHORT_BUFFER : number, limit, room)) return 0;
    return 1;
}

static int is_right(const char *file, char **field, int n) {
    int listed = n == 8;
    if (listed)
        read_lists(field), field += 5;
    else if (n == 4 && read_stored(file, field[0]))
        field += 1;
    else
        return 0;
    uint32_t limit = (uint32_t)strtoul(field[0], NULL, 10);
    cottontuff_limited wanted = wanted_in(field[1]);
    return is_found(limit, wanted, field[2]) && is_refused_short(limit, wanted.number, listed ? 1 : COTTONTUFF_ANSWER_BYTES - 1);
}

// What a limit gives, beside what the limit below it gave.
static int is_rising(uint32_t limit, cottontuff_limited r, cottontuff_limited less) {
    int had = less.number == COTTONTUFF_DONE && (less.count || !less.spent), has = r.number == COTTONTUFF_DONE && (r.count || !r.spent);
    if (had && (!has || r.worst < less.worst)) return 0;
    if (!less.spent) return is_same(r, less);
    return r.spent ? r.trials == limit : r.trials <= limit;
}

// Each of the first limits, then doubled; and the greatest there is where that is no more work.
static void rising(const char *name) {
    if (!read_text(name)) return;
    cottontuff_limited less = {0, 1, 0, 0, 0};
    int right = 1;
    for (uint32_t limit = 0; limit <= LAST; limit += limit < EACH ? 1 : limit) {
        cottontuff_limited r = ask(limit, ROOM);
        right &= is_rising(limit, r, less) && is_sound(r);
        less = r;
    }
    if (!less.spent) right &= is_same(ask(UINT32_MAX, ROOM), less) && is_sound(less);
    if (right)
        passed++;
    else
        failed++, printf("%s, over rising limits\n", name);
}

// No pointer need point anywhere where there is nothing.
static void no_lists(void) {
    const cottontuff_limited filled = {0, 0, 0, COTTONTUFF_MILLIONTHS, 0}, refused = {COTTONTUFF_SHORT_BUFFER, 0, 0, 0, 0};
    int right = 1;
    memcpy(answer, before, ROOM);
    for (int i = 0; i < 3; i++) {
        uint32_t limit = i < 2 ? (uint32_t)i : UINT32_MAX;
        right &= is_same(cottontuff_search_limited(NULL, 0, NULL, 0, NULL, 0, NULL, 0, NULL, 0, limit, answer, ROOM), filled);
        right &= is_same(cottontuff_search_limited(NULL, 0, NULL, 0, NULL, 0, NULL, 0, NULL, 0, limit, NULL, 0), refused);
    }
    if (right && is_untouched())
        passed++;
    else
        failed++, printf("no lists\n");
}

int main(int argc, char **argv) {
    for (size_t i = 0; i < ROOM; i++) before[i] = (uint8_t)(37 * i + 0xa5);
    no_lists();
    int i = 1;
    for (; i < argc && strcmp(argv[i], "-r") != 0; i++) rising(argv[i]);
    for (i++; i < argc; i++) play(argv[i], is_right);
    printf("%d passed, %d failed\n", passed, failed);
    return failed != 0 || passed == 0;
}

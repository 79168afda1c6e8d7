/* The lines of a record, written and replayed; python/cottontuff/record.py is the plain form, and says what is wrong with a line that does not hold. */
#include <string.h>

#include "helper.h"

enum { ANSWER = 4 * FOURS };

/* A line: places in out and fill are those of its points. */
typedef struct {
    int64_t points[POINTS], out[4 * TETS], fill[ANSWER];
    int64_t point_count, out_count, fill_count, number, old, worst, a, b;
} line;

/* How far a replay came. */
typedef struct { int64_t lines, bytes, carries_over; } progress;

/* ---- writing */
static char *put_number(char *to, uint32_t value) {
    char digits[10];
    int count = 0;
    do digits[count++] = (char)('0' + value % 10);
    while (value /= 10);
    while (count) *to++ = digits[--count];
    return to;
}

static char *put_word(char *to, const char *word) {
    size_t length = strlen(word);
    memcpy(to, word, length);
    return to + length;
}

static char *put_places(char *to, const char *name, const uint8_t *places, int64_t count) {
    to = put_word(to, name);
    for (int64_t i = 0; i < count; i++) *to++ = i ? ',' : '[', to = put_number(to, places[i]);
    return to;
}

/* The line of a replacement behind its number, as json.dumps writes it; how many bytes. */
int64_t helper_line(const cavity *c, const uint8_t *fill, int32_t count, int32_t old, int32_t worst, int32_t a, int32_t b, char *line) {
    char *to = put_word(line, "\"points\":");
    for (int i = 0; i < c->point_count; i++) *to++ = i ? ',' : '[', to = put_number(to, (uint32_t)c->points[i]);
    to = put_places(to, "],\"out\":", c->own, 4 * c->tet_count);
    to = put_places(to, "],\"fill\":", fill, 4 * count);
    to = put_number(put_word(to, "],\"old\":"), (uint32_t)old);
    to = put_number(put_word(to, ",\"worst\":"), (uint32_t)worst);
    to = put_word(put_word(to, a ? ",\"a\":1" : ",\"a\":0"), b ? ",\"b\":1}\n" : ",\"b\":0}\n");
    return to - line;
}

/* ---- reading: a line as record.py writes it, with spaces or without; all other forms are left to record.py */
typedef struct { const char *at, *end; } text;

/* Takes a word that stands next, behind spaces; 0 where another does. */
static int take(text *t, const char *word) {
    size_t length = strlen(word);
    while (t->at < t->end && *t->at == ' ') t->at++;
    if ((size_t)(t->end - t->at) < length || memcmp(t->at, word, length)) return 0;
    t->at += length;
    return 1;
}

/* Takes a whole number of at most ten digits; -1 where none stands next. */
static int64_t take_number(text *t) {
    int64_t value = 0;
    int digits = 0;
    while (t->at < t->end && *t->at == ' ') t->at++;
    for (; t->at < t->end && *t->at >= '0' && *t->at <= '9'; t->at++, digits++) {
        if (digits == 10 || (digits && !value)) return -1;
        value = 10 * value + (*t->at - '0');
    }
    return digits ? value : -1;
}

/* Takes a list of 1 to `most` numbers below a bound; how many, or 0. */
static int64_t take_list(text *t, const char *name, int64_t *numbers, int64_t most, int64_t bound) {
    int64_t count = 0;
    if (!take(t, name) || !take(t, ":") || !take(t, "[")) return 0;
    do {
        if (count == most) return 0;
        numbers[count] = take_number(t);
        if (numbers[count] < 0 || numbers[count] >= bound) return 0;
        count++;
    } while (take(t, ","));
    return take(t, "]") && take(t, ",") ? count : 0;
}

static int take_field(text *t, const char *name, int64_t *value, const char *behind) {
    return take(t, name) && take(t, ":") && (*value = take_number(t)) >= 0 && take(t, behind);
}

static int take_line(text *t, line *l, int64_t points) {
    return take(t, "{") && take_field(t, "\"n\"", &l->number, ",") && (l->point_count = take_list(t, "\"points\"", l->points, POINTS, points)) &&
           (l->out_count = take_list(t, "\"out\"", l->out, 4 * TETS, l->point_count)) && (l->fill_count = take_list(t, "\"fill\"", l->fill, ANSWER, l->point_count)) &&
           take_field(t, "\"old\"", &l->old, ",") && take_field(t, "\"worst\"", &l->worst, ",") && take_field(t, "\"a\"", &l->a, ",") && take_field(t, "\"b\"", &l->b, "}") && take(t, "\n");
}

/* ---- one replacement */
/* Opens the line's cavity: 4 to 16 ascending points, all of them corners of its tetrahedra, which are in the mesh, none twice, and of one region. */
static int open_cavity(mesh *m, cavity *c, const line *l) {
    int32_t points[POINTS], fours[4 * TETS], slots[TETS];
    uint32_t corners = 0;
    int32_t count = (int32_t)(l->out_count / 4);
    if (l->point_count < 4 || l->out_count % 4) return 0;
    for (int i = 0; i < l->point_count; i++) {
        if (i && l->points[i] <= l->points[i - 1]) return 0;
        points[i] = (int32_t)l->points[i];
    }
    for (int i = 0; i < l->out_count; i++) corners |= 1u << l->out[i], fours[i] = points[l->out[i]];
    if (corners != (1u << l->point_count) - 1) return 0;
    helper_find(m, fours, count, slots);
    m->step++;
    for (int i = 0; i < count; i++) {
        if (slots[i] == NONE || m->around_mark[slots[i]] == m->step || m->region[slots[i]] != m->region[slots[0]]) return 0;
        m->around_mark[slots[i]] = m->step;
    }
    return helper_reopen(m, c, slots, count, points, (int32_t)l->point_count) == 0;
}

static verdict judged(judge_function *judge, const cavity *c, const uint8_t *list, int64_t bytes) {
    int n = c->point_count;
    return judge(c->coordinates, (size_t)(3 * n), c->triangles, (size_t)(3 * c->triangle_count), c->kept, (size_t)(2 * c->kept_count), c->inner, (size_t)(3 * c->inner_count), c->full,
                 (size_t)(n * (n - 1) * (n - 2) * (n - 3) / 24), list, (size_t)bytes);
}

/* Whether the search answers this filling. */
static int searched(search_function *search, cavity *c, const line *l, const uint8_t *fill) {
    uint8_t answer[ANSWER];
    int n = c->point_count;
    found said = search(c->coordinates, (size_t)(3 * n), c->triangles, (size_t)(3 * c->triangle_count), c->kept, (size_t)(2 * c->kept_count), c->inner, (size_t)(3 * c->inner_count), c->table,
                        (size_t)(n * (n - 1) * (n - 2) * (n - 3) / 24), answer, sizeof answer);
    return said.number == 0 && said.worst == l->worst && 4 * (int64_t)said.count == l->fill_count && !memcmp(answer, fill, (size_t)l->fill_count);
}

/* Replays a line; whether it holds. What does not is not done. */
static int replay(mesh *m, cavity *c, judge_function *judge, search_function *search, const line *l) {
    uint8_t fill[ANSWER];
    for (int64_t i = 0; i < l->fill_count; i++) fill[i] = (uint8_t)l->fill[i];
    if (l->fill_count % 4 || !open_cavity(m, c, l) || helper_prepare(m, c) || c->unsure_count) return 0;
    helper_table(m, c);
    if (!c->own_allowed || c->worst_entry != l->old || c->agrees != l->b || l->worst <= l->old) return 0;
    verdict said = judged(judge, c, fill, l->fill_count);
    if (said.number || said.law || said.worst != l->worst) return 0;
    said = judged(judge, c, c->own, 4 * c->tet_count);
    if ((said.number == 0 && said.law == 0) != l->a) return 0;
    if (helper_recheck(c, fill, (int32_t)(l->fill_count / 4)) != SAME || (search && !searched(search, c, l, fill))) return 0;
    return helper_exchange(m, c, fill, (int32_t)(l->fill_count / 4)) == 0;
}

/* Replays the lines of a text from its front on, the first of them with the number `number`, up to one that does not hold or is for record.py to decide. search may be NULL. */
void helper_replay(mesh *m, cavity *c, judge_function *judge, search_function *search, const char *from, int64_t length, int64_t number, progress *done) {
    text t = {from, from + length};
    line l;
    memset(done, 0, sizeof *done);
    while (m->measure != GIVEN && take_line(&t, &l, m->point_count) && l.number == number + done->lines && replay(m, c, judge, search, &l)) {
        done->lines++;
        done->bytes = t.at - from;
        done->carries_over += l.a && l.b;
    }
}

/* Cottontuff, the cavity kernel, for C and C++: refills a hole in a tetrahedral mesh with the tetrahedra whose worst quality is best. Its answers are proved.
 * `make` builds the static library and a pkg-config file (README.md). Of the C library it needs memcpy and memset, and nothing else.
 *
 * A complete example; tests/header compiles it as C and as C++, runs it, and compares what it prints with what stands below it.

#include <stdio.h>
#include "cottontuff.h"

int main(void) {
    static const int32_t points[] = {0, 0, 0, 6, 0, 0, 0, 6, 0, 1, 1, 5, 1, 1, -5};
    static const uint8_t triangles[] = {0, 1, 3, 1, 2, 3, 2, 0, 3, 1, 0, 4, 2, 1, 4, 0, 2, 4};
    static const int32_t table[] = {500000, 400000, 450000, 450000, 460000};
    static uint8_t answer[COTTONTUFF_ANSWER_BYTES];
    cottontuff_found found = cottontuff_search(points, 15, triangles, 18, NULL, 0, table, 5, answer, sizeof answer);
    if (found.number != COTTONTUFF_DONE) {
        printf("refused: number %u\n", (unsigned)found.number);
        return 1;
    }
    printf("%u tetrahedra, worst quality %u millionths\n", (unsigned)found.count, (unsigned)found.worst);
    for (uint32_t i = 0; i < found.count; i++)
        printf("%d %d %d %d\n", answer[4 * i], answer[4 * i + 1], answer[4 * i + 2], answer[4 * i + 3]);
    return 0;
}

 * It prints
 *   3 tetrahedra, worst quality 450000 millionths
 *   0 1 3 4
 *   0 2 3 4
 *   1 2 3 4
 *
 * What holds for every function
 * - It takes any lists and answers: a filling, a verdict, a reason, or one of the numbers below; cottontuff_search_limited also that its limit is spent. Nothing need be looked at first.
 * - The caller owns all memory. Nothing is allocated, freed or kept; there is no state between calls, so threads may call at the same time.
 * - A list is a pointer and its count of elements (not of points or triangles). With count 0 the pointer may be anything, also NULL.
 *   A list may not overlap a buffer that is written to.
 * - A refusal changes no byte of a lent buffer.
 * - Stack: see COTTONTUFF_STACK_BYTES below.
 *
 * What changed, for a program written for an older version. No symbol was taken away and no struct changed, so that it links as it is.
 * - 1.7.0: cottontuff_remove_edge, and numbers 25 and 26, which it alone gives.
 * - 1.6.0: cottontuff_explain, and number 24, which it alone gives.
 * - 1.5.0: coordinates reach from -50,000 to 50,000. They reached from -10,000 to 10,000: who relinks gets an answer where a coordinate beyond that got 3, from every function that takes coordinates.
 *   COTTONTUFF_FURTHEST is 50000: who tests coordinates against it before a call compiles anew, or goes on refusing what the library takes. A value of the bench with such a coordinate held no mesh, and may hold one now.
 * - 1.4.0: cottontuff_search_limited.
 * - 1.2.0: the empty job has a filling. It was refused with 2.
 * - 1.1.0: the functions that end in _inner, and numbers 22 and 23; cottontuff_print reads K lines.
 * - 1.0.1: cottontuff_measure_table and COTTONTUFF_VERSION. */
#ifndef COTTONTUFF_H
#define COTTONTUFF_H

#include <stddef.h>
#include <stdint.h>

#ifdef __cplusplus
extern "C" {
#endif

#define COTTONTUFF_VERSION "1.7.0"

/* ---- sizes of a job */
#define COTTONTUFF_LEAST_POINTS 4                              /* or none at all, with every other list empty: the empty job */
#define COTTONTUFF_MOST_POINTS 16
#define COTTONTUFF_MOST_TRIANGLES 560                          /* threes of 16 points: 16 * 15 * 14 / 6 */
#define COTTONTUFF_MOST_KEPT 120                               /* twos of 16 points: 16 * 15 / 2 */
#define COTTONTUFF_MOST_INNER 560                              /* threes of 16 points */
#define COTTONTUFF_MOST_FOURS 1820                             /* fours of 16 points: 16 * 15 * 14 * 13 / 24 */
#define COTTONTUFF_TABLE_LENGTH_OF(n) ((n) * ((n)-1) * ((n)-2) * ((n)-3) / 24) /* entries of the table of n points */
#define COTTONTUFF_ANSWER_BYTES (4 * COTTONTUFF_MOST_FOURS)    /* 7,280: the least length of the search's buffer */
#define COTTONTUFF_FURTHEST 50000                              /* coordinates from -50,000 to 50,000, in jobs, measuring and meshes; 10000 before version 1.5.0 */
#define COTTONTUFF_MILLIONTHS 1000000                          /* the greatest quality */
#define COTTONTUFF_UNMEASURED_ENTRY (-1)                       /* in a table: not measured. 0 bars a four: the two are not the same. */
#define COTTONTUFF_BARRED_ENTRY 0
#define COTTONTUFF_LEAST_RING 3                                /* points around an edge that is removed */
#define COTTONTUFF_MOST_RING 7

/* ---- sizes of text and printout */
#define COTTONTUFF_TEXT_BYTES 65536                            /* a longer text is refused with 1 */
#define COTTONTUFF_PRINT_BYTES 43695                           /* 15 for the F line, 24 for each of 1,820 H lines: the least length of the printout's buffer */

/* ---- sizes of the bench */
#define COTTONTUFF_BENCH_POINTS 64
#define COTTONTUFF_BENCH_TETS 256

/* A stack for cottontuff_search, cottontuff_search_inner, cottontuff_search_limited, cottontuff_explain, cottontuff_print and cottontuff_bench_replace. Each level of the search's recursion sets a tetrahedron, and no more than 280 can be set at once: the second is
 * proved. A level takes at most 128 bytes, read off the library, and 525,320 was the deepest that was measured, levels included (docs/BENCHMARKS.md): the compiler's part is not proved.
 * The limited search has a recursion of its own, of at most 280 levels too, which is proved: 560 bytes a level, and 78,000 was the deepest that was measured.
 * An explanation goes down into the search's recursion: 433,448 was the deepest that was measured. cottontuff_remove_edge has no recursion, and took 25,808 at most. */
#define COTTONTUFF_STACK_BYTES (768 * 1024)

/* ---- what is answered: of the numbers that apply, the one whose place comes first, whatever its size.
 * The places of a job's numbers: 1, or 25 (where a ring is handed over); 2 to 10; 22; 23; 11; 12; 13; 14 (where a buffer is lent) or 24 (where a four is asked about); 15, or 26 (where an edge is removed). */
enum cottontuff_number {
    COTTONTUFF_DONE = 0,
    COTTONTUFF_BAD_TEXT = 1,         /* printout: over 65,536 bytes, or not of the form */
    COTTONTUFF_BAD_RING = 25,        /* remove_edge: not 3 to 7 points in the ring; or ring and ends repeat a point, or are not exactly the points */
    COTTONTUFF_POINT_COUNT = 2,      /* not 4 to 16 points, except in the empty job (a mesh: not 4 to 64), or length no multiple of 3 */
    COTTONTUFF_FAR_COORDINATE = 3,   /* a coordinate below -50,000 or above 50,000 (before version 1.5.0: 10,000) */
    COTTONTUFF_SAME_PLACE = 4,       /* two points in one place */
    COTTONTUFF_TRIANGLE_COUNT = 5,   /* not 4 to 560 triangles, except in the empty job, or length no multiple of 3 */
    COTTONTUFF_BAD_TRIANGLE = 6,     /* a triangle with an absent or repeated point */
    COTTONTUFF_SAME_TRIANGLE = 7,    /* two triangles with the same three points */
    COTTONTUFF_OPEN_BOUNDARY = 8,    /* a directed edge stands more or less often than its reverse */
    COTTONTUFF_KEPT_COUNT = 9,       /* over 120 kept edges, or odd length */
    COTTONTUFF_BAD_KEPT = 10,        /* a kept edge with an absent or repeated point */
    COTTONTUFF_INNER_COUNT = 22,     /* over 560 inner triangles, or length no multiple of 3 */
    COTTONTUFF_BAD_INNER = 23,       /* an inner triangle with an absent or repeated point */
    COTTONTUFF_TABLE_LENGTH = 11,    /* not one entry for each four of points */
    COTTONTUFF_BAD_ENTRY = 12,       /* an entry below -1 or above 1,000,000 */
    COTTONTUFF_UNMEASURED = 13,      /* a solid four has entry -1: measure it. It is not barred; 0 bars. */
    COTTONTUFF_SHORT_BUFFER = 14,    /* the search's buffer is under 7,280 bytes */
    COTTONTUFF_BAD_FOUR = 24,        /* explain: the four is not increasing or names an absent point */
    COTTONTUFF_NO_FILLING = 15,      /* no lawful filling exists: proved, not given up */
    COTTONTUFF_NO_ROW = 26,          /* remove_edge: no triangulation of the ring gives a lawful list. The search may have a filling all the same. */
    COTTONTUFF_NOT_TWELVE = 16,      /* measuring: not twelve coordinates */
    COTTONTUFF_TET_COUNT = 17,       /* mesh: not 1 to 256 tetrahedra, or length no multiple of 4 */
    COTTONTUFF_BAD_TET = 18,         /* mesh: a tetrahedron is flat, or has an absent or repeated point */
    COTTONTUFF_SHARED_FACE = 19,     /* mesh: an outward face belongs to two tetrahedra */
    COTTONTUFF_NO_SUCH_TET = 20,     /* open: there is no tetrahedron of that number */
    COTTONTUFF_NO_MESH = 31,         /* open, grow, replace, close: the value holds no mesh: none was loaded, or it is not sound (the bench, below) */
    COTTONTUFF_CAVITY_OPEN = 32,     /* load, open: a cavity is open */
    COTTONTUFF_NO_CAVITY = 33,       /* grow, replace, close: none is open */
    COTTONTUFF_CAVITY_FULL = 34,     /* grow: 16 points already */
    COTTONTUFF_NOTHING_AROUND = 35,  /* grow: no tetrahedron outside shares a face with the cavity */
    COTTONTUFF_NOT_BETTER = 36,      /* replace: no lawful filling has a worst quality above that of the cavity */
    COTTONTUFF_TOO_MANY_TETS = 37,   /* replace: over 256 tetrahedra would result */
    COTTONTUFF_WOULD_SHARE_FACE = 38 /* replace: an outward face would belong to two tetrahedra */
};

/* ---- jobs
 * points: x, y, z of each point, numbered from 0.
 * triangles: three point numbers each, counter-clockwise seen from outside the cavity.
 * kept: two point numbers for each edge that the filling must have; an edge may be repeated or reversed.
 * inner: three point numbers for each triangle inside that the filling must have as a face, whichever way round; one may be repeated or reversed, and a boundary triangle may be listed.
 * table: a quality for each four of points a < b < c < d, in lexicographic order (0123, 0124, 0134, 0234, 1234 for five points):
 *        1 to 1,000,000 millionths, 0 bars the four, -1 leaves it unmeasured, which only a flat four may be.
 * A function whose name ends in _inner takes the list inner; the one without means a job that has none, and answers what it answers for an empty list.
 *
 * The empty job has nothing in any list, as a hole that is already closed. Its one filling is the empty list, of worst quality 1,000,000:
 *   cottontuff_search(NULL, 0, NULL, 0, NULL, 0, NULL, 0, answer, sizeof answer)
 * answers number 0, count 0 and worst 1,000,000, and changes no byte of answer, whose length is asked for all the same (14). A loop over the tetrahedra runs no time.
 * The judge passes the empty list with 1,000,000; every other list breaks law 1. With one entry more, in any list, the job is refused with 2.
 * Before version 1.2.0 it was refused with 2. */

/* 0 for a job that can be searched, else 2 to 13, 22 or 23. */
uint32_t cottontuff_check(const int32_t *points, size_t points_len, const uint8_t *triangles, size_t triangles_len,
                          const uint8_t *kept, size_t kept_len, const int32_t *table, size_t table_len);
uint32_t cottontuff_check_inner(const int32_t *points, size_t points_len, const uint8_t *triangles, size_t triangles_len,
                                const uint8_t *kept, size_t kept_len, const uint8_t *inner, size_t inner_len,
                                const int32_t *table, size_t table_len);

typedef struct {
    uint32_t number; /* 0, or 2 to 13, 22 or 23, and then the rest is 0 */
    uint32_t law;    /* 0, or the lowest law broken, 1 to 8 */
    uint32_t worst;  /* the worst quality, in millionths, where no law is broken */
} cottontuff_verdict;

/* Judges a list of fours: four point numbers for each tetrahedron. */
cottontuff_verdict cottontuff_judge(const int32_t *points, size_t points_len, const uint8_t *triangles, size_t triangles_len,
                                    const uint8_t *kept, size_t kept_len, const int32_t *table, size_t table_len,
                                    const uint8_t *list, size_t list_len);
cottontuff_verdict cottontuff_judge_inner(const int32_t *points, size_t points_len, const uint8_t *triangles, size_t triangles_len,
                                          const uint8_t *kept, size_t kept_len, const uint8_t *inner, size_t inner_len,
                                          const int32_t *table, size_t table_len, const uint8_t *list, size_t list_len);

typedef struct {
    uint32_t number; /* 0, or 2 to 15, 22 or 23, and then the rest is 0; of cottontuff_remove_edge 0, or 25, 2, 3, 4, 11, 12, 13, 14 or 26 */
    uint32_t count;  /* tetrahedra of the filling; 0 for the empty job, with number 0 */
    uint32_t worst;  /* their least quality, in millionths; 1,000,000 for the empty job */
} cottontuff_found;

/* The lawful filling of greatest worst quality, the first among equals: 4 * count bytes at the start of answer, each four with increasing point numbers.
 * The bytes behind them keep their values. */
cottontuff_found cottontuff_search(const int32_t *points, size_t points_len, const uint8_t *triangles, size_t triangles_len,
                                   const uint8_t *kept, size_t kept_len, const int32_t *table, size_t table_len,
                                   uint8_t *answer, size_t answer_len);
cottontuff_found cottontuff_search_inner(const int32_t *points, size_t points_len, const uint8_t *triangles, size_t triangles_len,
                                         const uint8_t *kept, size_t kept_len, const uint8_t *inner, size_t inner_len,
                                         const int32_t *table, size_t table_len, uint8_t *answer, size_t answer_len);

/* ---- the limited search: gives up after so many trials, as mesh improvement may want to
 * Its order is fixed, so the same limit gives the same answer on every machine. It goes to the lowest open face: one that no set tetrahedron has outward, and that is a boundary triangle or the reverse of a set one's face
 * that is no boundary triangle; faces are written from their smallest number and compared as three numbers. There it tries the corners 0, 1, 2, .. in turn. A trial is a corner that is set: with the face it makes a
 * tetrahedron that is not flat, not barred, has no point inside, has that face outward, has no outward face that a set one has or that is the reverse of a boundary triangle, is apart from all that are set, and whose
 * quality is not below the worst of the best filling found so far. Each is counted, also where nothing comes of it. Kept edges, inner triangles and points that no tetrahedron meets are looked at when no face is open.
 *
 * Spent is answered exactly where the order, followed without a limit, counts more trials than the limit.
 * - Not spent: the answer is that of cottontuff_search_inner to the byte, the best filling or 15. 15 is given only here: no lawful filling exists.
 * - Spent: the best filling found within the limit, of equals the list that comes first, with number 0. With count 0 none was found within the limit, which does not say that there is none.
 * A larger limit never gives a lower worst quality, nor none where a smaller one gives a filling. A filling that is answered is lawful, spent or not.
 *
 * This is not the quick way: 2,000 trials often find far less than the whole search does in a millisecond, and all 4,294,967,295 take hours. Who wants no limit calls cottontuff_search_inner. */
typedef struct {
    uint32_t number; /* 0; or 15, with the trials made; or 2 to 14, 22 or 23, and then the rest is 0. Spent is no number. */
    uint32_t spent;  /* 1: the limit stopped it; 0: it came to its end */
    uint32_t count;  /* tetrahedra of the filling; 0 with spent 1: none found within the limit; 0 with number 0 and spent 0: the empty job */
    uint32_t worst;  /* their least quality, in millionths; 1,000,000 for the empty job, 0 where there is no filling */
    uint32_t trials; /* how many were made, never above the limit */
} cottontuff_limited;

/* The best filling within a limit on trials: 4 * count bytes at the start of answer, as cottontuff_search_inner writes them. The bytes behind them keep their values of before the call; where no filling is answered, every
 * byte does. limit: 0 to 4,294,967,295. */
cottontuff_limited cottontuff_search_limited(const int32_t *points, size_t points_len, const uint8_t *triangles, size_t triangles_len,
                                             const uint8_t *kept, size_t kept_len, const uint8_t *inner, size_t inner_len,
                                             const int32_t *table, size_t table_len, uint32_t limit, uint8_t *answer, size_t answer_len);

/* ---- the explanation: why the search's answer does not have a four
 * A reason is a fact about all lawful fillings of the job, with its kept edges and inner triangles, and not about how a search went: it is the same on every machine. "The answer" is the filling of cottontuff_search_inner.
 * Of the reasons that are true the first is given, so that each four has one. */
enum cottontuff_reason {
    COTTONTUFF_IN_ANSWER = 1,           /* the answer has it */
    COTTONTUFF_FLAT = 2,                /* its four points lie in one plane (also where its entry is 0) */
    COTTONTUFF_BARRED = 3,              /* its entry in the table is 0 */
    COTTONTUFF_POINT_INSIDE = 4,        /* a point lies strictly inside it; value: the number of the lowest such point */
    COTTONTUFF_NO_FILLING_HOLDS_IT = 5, /* for any other cause no lawful filling has it: a face against the boundary, a kept edge or an inner triangle in the way, no room for the rest */
    COTTONTUFF_LOWER = 6,               /* some have it, and each of them has a lower worst quality than the answer; value: the best of theirs, in millionths */
    COTTONTUFF_LATER = 7                /* some that have it are as good as the answer, and stand later in the order of lists; none is better */
};

typedef struct {
    uint32_t number; /* 0; or 2 to 13, 15, 22, 23 or 24, and then the rest is 0 */
    uint32_t reason; /* 1 to 7, an enum cottontuff_reason */
    uint32_t value;  /* with 4 the point, from 0 on; with 6 the quality, in millionths; else 0 */
} cottontuff_explanation;

/* Why the four of the points a < b < c < d is not in the answer. The four comes as four numbers, which may be any: 256 or 4,294,967,295 is an absent point like any other.
 * The numbers by their places: 2 to 10; 22; 23; 11; 12; 13, as cottontuff_check_inner gives them; 24, for a bad four; 15, for a job without a lawful filling. The empty job has no points: every four is 24.
 * No buffer is lent, so 14 is never given; nothing is written. Each call searches the job, and for reasons 5 to 7 looks for the fillings that hold the four besides. */
cottontuff_explanation cottontuff_explain(const int32_t *points, size_t points_len, const uint8_t *triangles, size_t triangles_len,
                                          const uint8_t *kept, size_t kept_len, const uint8_t *inner, size_t inner_len,
                                          const int32_t *table, size_t table_len, uint32_t a, uint32_t b, uint32_t c, uint32_t d);

/* ---- edge removal: the quick operator for an edge with 3 to 7 points around it
 * The edge goes from a to b; ring has the points around it in order, counter-clockwise seen from a:
 *
 *          r2 --- r1          a above the paper, b below it. The tetrahedra around the edge, a b r0 r1, a b r1 r2 and so on, are taken out.
 *         /        \          The ring is cut into triangles instead, and each of them is joined to a and to b: a ring of k points
 *       r3    ab    r0        gives k - 2 triangles and 2 * (k - 2) tetrahedra, none of which has the edge.
 *         \        /
 *          r4 --- r5
 *
 * The cavity is where they stood. Its boundary is, for each two neighbours r, s of the ring in order, the last and the first too, (r, s, a) and (s, r, b): 2 * k triangles. There are no kept edges and
 * no inner triangles. All 1, 2, 5, 14 or 42 ways to cut a ring of 3, 4, 5, 6 or 7 points into triangles stand in a constant table, a row for each, as positions in the ring from 0 on, the triples of a row and the rows in rising order.
 * Of the rows whose tetrahedra keep the laws for this job, the one of greatest worst quality is answered. */

/* Removes the edge from a to b. Answers as the search does: 4 * count bytes at the start of answer, each four with increasing point numbers, the fours in increasing order; the bytes behind them keep their values.
 * - Among rows that are as good the first row of the table is answered. That need not be the list that comes first, since points may be numbered otherwise than they stand in the ring.
 * - points and table are those of the job, the table with an entry for each four of all k + 2 points; ends and ring together are just these points. a and b have 32 bits and are never cut: 256 or 4,294,967,295 is an
 *   absent point like any other.
 * - answer: COTTONTUFF_ANSWER_BYTES are asked for, as by the search (14), though at most 40 are written.
 * - The numbers by their places: 25; 2; 3; 4; 11; 12; 13; 14; 26. 25 counts the points by the length of points by 3, rounded down, so that with a coordinate too many it may be 2. 5 to 10, 22 and 23 never come, as the
 *   boundary of a good ring is closed and its triangles are distinct, nor does 15. A refusal changes no byte.
 * - 26 also where the ring turns the wrong way, or lies so that no row fits its boundary. It does not say that the job has no filling: the search may have one that keeps the edge, or uses it otherwise.
 * - cottontuff_search on the same job never has a lower worst quality, and may have a greater one. */
cottontuff_found cottontuff_remove_edge(const int32_t *points, size_t points_len, uint32_t a, uint32_t b, const uint8_t *ring, size_t ring_len,
                                        const int32_t *table, size_t table_len, uint8_t *answer, size_t answer_len);

/* ---- measuring */
typedef struct {
    double d;            /* six times the volume, exact, at most 6,000,000,000,000,000, where a double holds every whole number up to 2^53 = 9,007,199,254,740,992; 0 where flat */
    double s;            /* the sum of the six squared edge lengths, exact, at most 180,000,000,000 */
    double shape;        /* the cube of the mean ratio, above 0 to 1, where roundings may leave it a little above; 0 where flat */
    uint32_t number;     /* 0, or 3 or 16, and then the rest is 0 */
    uint32_t flat;       /* 1 or 0 */
    uint32_t millionths; /* the quality for a table, 1 to 1,000,000; 0 where flat: write -1 into the table then */
} cottontuff_measured;

/* coordinates: x, y, z of each of the four corners, in any order of the corners. */
cottontuff_measured cottontuff_measure(const int32_t *coordinates, size_t coordinates_len);

/* Measures a job's table: every entry that is COTTONTUFF_UNMEASURED_ENTRY becomes the quality of its four, and stays -1 where the four is flat. No other entry is touched, so what is barred
 * or measured by hand stands. table: lent, COTTONTUFF_TABLE_LENGTH_OF(points) entries. Answers 0, or 2, 3, 4 or 11, and then the table is as it was; 2 also for no points, which have no table. */
uint32_t cottontuff_measure_table(const int32_t *points, size_t points_len, int32_t *table, size_t table_len);

/* ---- text and printout */
/* The printout of a job's text, as the program `cavity` prints it: the bytes, without a 0 behind them, at the start of out; answers how many there are.
 * A text of any bytes has a printout; that of no bytes is the empty job, and prints F,0,1000000 and LF, 12 bytes. Into a buffer under COTTONTUFF_PRINT_BYTES nothing is written, and the answer is 0. */
size_t cottontuff_print(const uint8_t *text, size_t text_len, uint8_t *out, size_t out_len);

/* ---- the bench: a mesh and at most one open cavity, handed over and back by value
 * Every operation takes any value, and what counts is what it holds, not who made it. It is sound if load would take its points and tetrahedra, each quality is
 * the measured one, and, where a cavity is open, that has at least one tetrahedron and at most 16 points, its points are the corners of its tetrahedra, and it has
 * every tetrahedron whose four corners are among them. Any other value counts as holding no mesh and no cavity. A refusal gives back the value as it came. */
typedef struct {
    int32_t points[3 * COTTONTUFF_BENCH_POINTS];
    uint8_t tets[4 * COTTONTUFF_BENCH_TETS];     /* four point numbers each, corners as given */
    uint32_t qualities[COTTONTUFF_BENCH_TETS];   /* measured, in millionths */
    uint8_t in_cavity[COTTONTUFF_BENCH_TETS];    /* not 0: the tetrahedron is in the open cavity */
    uint8_t in_points[COTTONTUFF_BENCH_POINTS];  /* not 0: the point is one of the cavity's */
    uint32_t point_count, tet_count;             /* how many of the arrays' entries are the mesh's */
    uint32_t count;                              /* successful replacements since it was fresh, stopping at 4,294,967,295 */
    uint8_t open;                                /* not 0: a cavity is open */
} cottontuff_bench;

typedef struct {
    uint32_t number; /* 0 for done */
    cottontuff_bench bench;
} cottontuff_bench_answer;

cottontuff_bench cottontuff_bench_fresh(void);

/* points: x, y, z of 4 to 64 points; tets: four point numbers of each of 1 to 256 tetrahedra. 32, then 2, 3, 4, 17, 18, 19. The count stays. A mesh is no job: no points are 2. */
cottontuff_bench_answer cottontuff_bench_load(cottontuff_bench bench, const int32_t *points, size_t points_len,
                                              const uint8_t *tets, size_t tets_len);

/* Starts a cavity with one tetrahedron, by its number in list order from 0. 31, 32, 20. */
cottontuff_bench_answer cottontuff_bench_open(cottontuff_bench bench, uint32_t tet);

/* Adds the corner met by most of the tetrahedra around the cavity, and all tetrahedra whose corners are then in it. 31, 33, 34, 35. */
cottontuff_bench_answer cottontuff_bench_grow(cottontuff_bench bench);

/* Replaces the cavity by its best filling, if its worst quality rises: the rest of the list keeps its order, the new tetrahedra follow. 31, 33, 36, 37, 38. */
cottontuff_bench_answer cottontuff_bench_replace(cottontuff_bench bench);

/* Drops the cavity. 31, 33. */
cottontuff_bench_answer cottontuff_bench_close(cottontuff_bench bench);

#ifdef __cplusplus
}
#endif
#endif

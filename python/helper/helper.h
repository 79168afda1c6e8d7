/* What the files of the helper share: the mesh over flat arrays, the open cavity, and the functions that python/cottontuff calls.
 *
 * Compile without contraction of products and sums (-ffp-contract=off): the doubles must be those of measures.py. The plain form in Python is what each function must equal, byte for byte; nothing
 * here is proved. A four's corners stand ascending. Face i of a four is the one opposite corner i; with D > 0 it looks outward in ascending order for even i, reversed for odd i. */
#ifndef COTTONTUFF_HELPER_H
#define COTTONTUFF_HELPER_H
#include <stddef.h>
#include <stdint.h>

enum { POINTS = 16, FOURS = 1820, TRIANGLES = 560, TETS = 512, NONE = -1 };
enum { SHAPE = 0, GAMMA = 1, GIVEN = 2 };                   /* the measure: GIVEN is filled in by the caller */
enum { SAME = 0, OTHER = 1, UNDECIDED = 2 };                /* of a filling: it fills the same space, or not, or its sums are too long for 384 bits */
enum { SOUND = 0, FLAT = 1, TURNED = 2, OVERLAPPING = 3, EMPTY = 4 }; /* of a tetrahedron, as in neighbours.py */
enum { VERSION = 3 };

/* The mesh: arrays over slots (tetrahedra, of which some are no more) and over points. */
typedef struct {
    const double *points;
    int32_t *corners;          /* 4 a slot; the first is NONE where the slot is empty */
    int32_t *beside;           /* 4 a slot: the slot over face i, or NONE */
    int32_t *region;
    int8_t *sign;              /* of D, exact; 0: not touched */
    double *quality;
    int32_t *head;             /* by point: its first place (4 * slot + corner), or NONE */
    int32_t *next, *previous;  /* by place: the point's next and previous place, or NONE */
    int32_t *cavity_mark;      /* by slot: in the cavity where equal to mark */
    int32_t *around_mark;      /* by slot: looked at in this step where equal to step */
    int32_t *point_mark;       /* by point: in the cavity where equal to mark */
    int32_t *local;            /* by point: its number in the cavity */
    const int32_t *line_start; /* by point: where its lines start in line_end */
    const int32_t *line_end;   /* the other ends of the lines that start at a point, each above it */
    int64_t slots, capacity, point_count;
    int32_t mark, step, limit, measure, ranked;
} mesh;

/* The open cavity and its job. */
typedef struct {
    int32_t tets[TETS], points[POINTS], fresh[FOURS];
    int32_t tet_count, point_count, fresh_count;
    int32_t triangle_count, kept_count, inner_count, unsure_count, exact_count;
    int32_t worst_entry, own_allowed, agrees;
    double worst;
    double xyz[3 * POINTS], value[FOURS];
    int32_t coordinates[3 * POINTS], full[FOURS], table[FOURS], unsure[FOURS];
    uint8_t triangles[3 * TRIANGLES], inner[3 * TRIANGLES], kept[POINTS * (POINTS - 1)], own[4 * TETS];
    int8_t sign[FOURS], rounded[FOURS];
} cavity;

/* What the kernel answers, as in include/cottontuff.h, and its two functions, which the caller hands over. */
typedef struct { uint32_t number, law, worst; } verdict;
typedef struct { uint32_t number, count, worst; } found;
typedef verdict judge_function(const int32_t *, size_t, const uint8_t *, size_t, const uint8_t *, size_t, const uint8_t *, size_t, const int32_t *, size_t, const uint8_t *, size_t);
typedef found search_function(const int32_t *, size_t, const uint8_t *, size_t, const uint8_t *, size_t, const uint8_t *, size_t, const int32_t *, size_t, uint8_t *, size_t);

/* cavity.c */
void helper_link(mesh *m);
void helper_open(mesh *m, cavity *c, int32_t tet);
int32_t helper_reopen(mesh *m, cavity *c, const int32_t *tets, int32_t tet_count, const int32_t *points, int32_t point_count);
int32_t helper_grow(mesh *m, cavity *c, int32_t points);
int32_t helper_prepare(mesh *m, cavity *c);
void helper_table(mesh *m, cavity *c);
int32_t helper_recheck(cavity *c, const uint8_t *list, int32_t count);
int32_t helper_exchange(mesh *m, cavity *c, const uint8_t *list, int32_t count);
/* mesh.c */
void helper_find(const mesh *m, const int32_t *fours, int64_t count, int32_t *slots);

#endif

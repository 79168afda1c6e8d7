// How deep the stack gets: what is asked of each file runs in a thread on a painted stack.
//   stack FILE ..          NAME.txt, a job: its printout, the search in it; NAME.mesh, P and H lines: open, grow three times and replace at every tetrahedron
//   stack -l LIMIT FILE .. NAME.txt, a job: the limited search
//   stack -e FILE ..       NAME.txt, a job: the explanation of every four
//   stack -r FILE ..       rows NAME;POINTS;A;B;RING;TABLE;..: the edge removed
#include "ring.h"

#include <pthread.h>

enum { STACK = 16 << 20, PAINT = 0xa5 };

static uint8_t *stack, printout[COTTONTUFF_PRINT_BYTES], answer[ANSWER];
static size_t length, deepest;
static const char *name = "";
static uint32_t limit;

static void *print(void *unused) {
    cottontuff_print((uint8_t *)text, length, printout, sizeof printout);
    return unused;
}

static void *try_corners(void *unused) {
    cottontuff_search_limited(j.points, 3 * (size_t)j.np, j.triangles, 3 * (size_t)j.nt, j.kept, 2 * (size_t)j.ne, j.inner, 3 * (size_t)j.nk, j.table, j.entries, limit, answer, ANSWER);
    return unused;
}

static void *explain(void *unused) {
    uint32_t n = (uint32_t)j.np;
    for (uint32_t a = 0; a < n; a++)
        for (uint32_t b = a + 1; b < n; b++)
            for (uint32_t c = b + 1; c < n; c++)
                for (uint32_t d = c + 1; d < n; d++) cottontuff_explain(j.points, 3 * (size_t)j.np, j.triangles, 3 * (size_t)j.nt, j.kept, 2 * (size_t)j.ne, j.inner, 3 * (size_t)j.nk, j.table, j.entries, a, b, c, d);
    return unused;
}

static void *remove_edge(void *unused) {
    cottontuff_remove_edge(RING_LISTS, answer, ANSWER);
    return unused;
}

static void *replay(void *unused) {
    static int32_t points[3 * COTTONTUFF_BENCH_POINTS];
    static uint8_t tets[4 * COTTONTUFF_BENCH_TETS];
    size_t np = 0, nt = 0;
    int a, b, c, d;
    for (char *line = strtok(text, "\n"); line; line = strtok(NULL, "\n")) {
        if (sscanf(line, "P,%d,%d,%d", &a, &b, &c) == 3 && np + 3 <= 3 * COTTONTUFF_BENCH_POINTS)
            points[np++] = a, points[np++] = b, points[np++] = c;
        else if (sscanf(line, "H,%d,%d,%d,%d", &a, &b, &c, &d) == 4 && nt + 4 <= 4 * COTTONTUFF_BENCH_TETS)
            tets[nt++] = (uint8_t)a, tets[nt++] = (uint8_t)b, tets[nt++] = (uint8_t)c, tets[nt++] = (uint8_t)d;
    }
    cottontuff_bench_answer at = cottontuff_bench_load(cottontuff_bench_fresh(), points, np, tets, nt);
    for (uint32_t t = 0; t < nt / 4; t++) {
        at = cottontuff_bench_open(at.bench, t);
        for (int k = 0; k < 3; k++) at = cottontuff_bench_grow(at.bench);
        at = cottontuff_bench_close(cottontuff_bench_replace(at.bench).bench);
    }
    return unused;
}

static size_t depth_of(void *(*what)(void *)) {
    memset(stack, PAINT, STACK);
    pthread_attr_t attr;
    pthread_t thread;
    pthread_attr_init(&attr);
    pthread_attr_setstack(&attr, stack, STACK);
    pthread_create(&thread, &attr, what, NULL);
    pthread_join(thread, NULL);
    size_t unused = 0;
    while (unused < STACK && stack[unused] == PAINT) unused++;
    return STACK - unused;
}

static void try(void *(*what)(void *), const char *file) {
    size_t d = depth_of(what);
    if (d > deepest) deepest = d, name = file;
}

static int is_ring_tried(const char *file, char **field, int n) {
    if (n < 8) return 0;
    read_ring(field + 1), try(remove_edge, file);
    return 1;
}

int main(int argc, char **argv) {
    stack = aligned_alloc(4096, STACK);
    int limited = argc > 2 && strcmp(argv[1], "-l") == 0, explained = argc > 1 && strcmp(argv[1], "-e") == 0, rings = argc > 1 && strcmp(argv[1], "-r") == 0;
    if (limited) limit = (uint32_t)strtoul(argv[2], NULL, 10);
    for (int i = limited ? 3 : explained || rings ? 2 : 1; i < argc; i++) {
        if (rings)
            play(argv[i], is_ring_tried);
        else if (limited || explained ? read_job(argv[i]) : (int)(length = slurp(argv[i], text)))
            try(limited ? try_corners : explained ? explain : strstr(argv[i], ".mesh") ? replay : print, argv[i]);
    }
    printf("deepest: %zu bytes, %s\n", deepest, name);
    return 0;
}

/* Signs, volumes and measures of doubles: whole numbers where nothing may be rounded, and the operations of exact.py and measures.py in their order. */
#ifndef COTTONTUFF_DOUBLES_H
#define COTTONTUFF_DOUBLES_H
#include <math.h>
#include <stdint.h>
#include <string.h>

#include "helper.h"

enum { LIMBS = 6 };

/* ---- whole numbers of 384 bits, two's complement, for doubles over one power of two */
typedef struct { uint64_t limb[LIMBS]; } whole;

static inline whole whole_of(__int128 x) {
    whole r;
    for (int i = 0; i < LIMBS; i++) r.limb[i] = i == 0 ? (uint64_t)x : i == 1 ? (uint64_t)(x >> 64) : (uint64_t)(x >> 127);
    return r;
}

static inline whole add(whole a, whole b, int minus) {
    unsigned __int128 carry = (unsigned)minus;
    for (int i = 0; i < LIMBS; i++) {
        carry += (unsigned __int128)a.limb[i] + (minus ? ~b.limb[i] : b.limb[i]);
        a.limb[i] = (uint64_t)carry;
        carry >>= 64;
    }
    return a;
}

static inline whole times(whole a, whole b) {
    whole r;
    memset(&r, 0, sizeof r);
    for (int i = 0; i < LIMBS; i++) {
        unsigned __int128 carry = 0;
        for (int j = 0; i + j < LIMBS; j++) {
            carry += (unsigned __int128)a.limb[i] * b.limb[j] + r.limb[i + j];
            r.limb[i + j] = (uint64_t)carry;
            carry >>= 64;
        }
    }
    return r;
}

static inline int sign_of(whole a) {
    uint64_t any = 0;
    for (int i = 0; i < LIMBS; i++) any |= a.limb[i];
    return !any ? 0 : a.limb[LIMBS - 1] >> 63 ? -1 : 1;
}

/* The coordinates as whole numbers over the power of two of the finest: 1, or 0 where they would need more bits. With 120 bits D has at most 366, with 110 at most 336, so that sums of 512 and of 2^40 of them fit into 384. */
static inline int to_whole(const double *x, int64_t count, int bits, __int128 *out) {
    int low = 100000, high = -100000, e;
    for (int64_t i = 0; i < count; i++) {
        if (x[i] == 0) continue;
        frexp(x[i], &e);
        if (e < low) low = e;
        if (e > high) high = e;
    }
    if (high - low + 53 > bits) return 0;
    for (int64_t i = 0; i < count; i++) {
        double f = frexp(x[i], &e);
        out[i] = x[i] == 0 ? 0 : (int64_t)ldexp(f, 53) * ((__int128)1 << (e - low));
    }
    return 1;
}

static inline whole minor(const __int128 *v, const __int128 *w, int i, int j) {
    return add(times(whole_of(v[i]), whole_of(w[j])), times(whole_of(v[j]), whole_of(w[i])), 1);
}

static inline whole whole_volume(const __int128 *p, const int *f) {
    __int128 e[3][3];
    for (int k = 0; k < 3; k++)
        for (int i = 0; i < 3; i++) e[k][i] = p[3 * f[k + 1] + i] - p[3 * f[0] + i];
    whole d = times(whole_of(e[0][0]), minor(e[1], e[2], 1, 2));
    d = add(d, times(whole_of(e[0][1]), minor(e[1], e[2], 2, 0)), 0);
    return add(d, times(whole_of(e[0][2]), minor(e[1], e[2], 0, 1)), 0);
}

/* ---- measures and signs, in the order of operations of measures.py and exact.py */
static inline double volume(const double *a, const double *b, const double *c, const double *d, double *permanent) {
    double ux = b[0] - a[0], uy = b[1] - a[1], uz = b[2] - a[2], vx = c[0] - a[0], vy = c[1] - a[1], vz = c[2] - a[2];
    double wx = d[0] - a[0], wy = d[1] - a[1], wz = d[2] - a[2];
    double p = vy * wz, q = vz * wy, r = vz * wx, s = vx * wz, t = vx * wy, o = vy * wx;
    *permanent = fabs(ux) * (fabs(p) + fabs(q)) + fabs(uy) * (fabs(r) + fabs(s)) + fabs(uz) * (fabs(t) + fabs(o));
    return ux * (p - q) + uy * (r - s) + uz * (t - o);
}

static inline double area(const double *a, const double *b, const double *c) {
    double ux = b[0] - a[0], uy = b[1] - a[1], uz = b[2] - a[2], vx = c[0] - a[0], vy = c[1] - a[1], vz = c[2] - a[2];
    double x = uy * vz - uz * vy, y = uz * vx - ux * vz, z = ux * vy - uy * vx;
    return sqrt(x * x + y * y + z * z) / 2;
}

static inline double gamma_of(const double *p, const int *f, const double *e, double d) {
    const double *a = p + 3 * f[0], *b = p + 3 * f[1], *c = p + 3 * f[2], *g = p + 3 * f[3];
    double v = fabs(d) / 6, areas = area(a, b, c) + area(a, b, g) + area(a, c, g) + area(b, c, g);
    double x = sqrt(e[0] * e[5]), y = sqrt(e[1] * e[4]), z = sqrt(e[2] * e[3]);
    double product = (x + y + z) * (x + y - z) * (x - y + z) * (-x + y + z);
    return product > 0 ? 3 * (3 * v / areas) * 24 * v / sqrt(product) : 0;
}

/* As the queue has it: millionths, or a million times the double where ranks are used. */
static inline double as_quality(double q, int ranked) {
    double p = q * 1e6;
    if (ranked) return isfinite(p) ? p : 0;
    return !isfinite(p) || p < 1 ? 1 : p > 1000000 ? 1000000 : floor(p);
}

/* The measure of one tetrahedron, by its four points. */
static inline double quality_of(const double *p, int measure, int ranked) {
    static const int four[4] = {0, 1, 2, 3};
    double e[6], permanent, d = volume(p, p + 3, p + 6, p + 9, &permanent);
    for (int i = 0, k = 0; i < 4; i++)
        for (int j = i + 1; j < 4; j++, k++) {
            double x = p[3 * j] - p[3 * i], y = p[3 * j + 1] - p[3 * i + 1], z = p[3 * j + 2] - p[3 * i + 2];
            e[k] = x * x + y * y + z * z;
        }
    double s = e[0] + e[1] + e[2] + e[3] + e[4] + e[5];
    return as_quality(measure == GAMMA ? gamma_of(p, four, e, d) : 432 * (d * d) / ((s * s) * s), ranked);
}

/* Whether every difference of two points' coordinates that is not 0 is of a size that no product leaves the range of normal doubles. */
static inline int is_plain(const double *a, const double *b) {
    for (int j = 0; j < 3; j++) {
        double d = fabs(b[j] - a[j]);
        if (d != 0 && !(d >= 0x1p-300 && d <= 0x1p+300)) return 0;
    }
    return 1;
}

#endif

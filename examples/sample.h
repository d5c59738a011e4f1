/* What the samples share: a set of inputs, a source of normal draws, and an end for a call that is
   refused. */
#include "qrh.h"
#include <math.h>
#include <stdio.h>
#include <stdlib.h>
#include <string.h>

enum { FACTORS = 10, DIMENSION = FACTORS + FACTORS * (FACTORS + 1) / 2 + 2 };

/* The kernel of alpha = 0.6, ten factors and the ratio 3.92, by the formulas of OptionStratLib's
   QuadraticRoughHestonKernel::try_new. */
static const double weights[FACTORS] = {
    0.0358105680272906,  0.061847996637980525, 0.10681692301603687, 0.1844822090099393,
    0.31861698015844653, 0.5502795125345583,   0.9503810555378641,  1.6413915658336293,
    2.8348274165303318,  4.895995963906752,
};
static const double discounts[FACTORS] = {
    0.00244965218854925, 0.00960263657911306, 0.037642335390123204, 0.14755795472928293,
    0.5784271825387889,  2.2674345555520525,  8.888343457764044,    34.84230635443505,
    136.58184090938536,  535.4008163647907,
};

/* The Decimal of a plain number, as "-0.25". */
static inline qrh_decimal decimal(const char *text) {
    qrh_decimal d = {0, 0, 0, *text == '-'};
    unsigned __int128 digits = 0;
    const char *point = strchr(text, '.');
    for (const char *c = text + d.negative; *c; c++)
        if (*c != '.') digits = digits * 10 + (unsigned)(*c - '0');
    d.low = (uint64_t)digits;
    d.high = (uint32_t)(digits >> 64);
    if (point) d.scale = (uint8_t)strlen(point + 1);
    return d;
}

/* Illustrative values, calibrated to nothing. */
static inline qrh_model sample_model(void) {
    qrh_model m = {
        .a = decimal("0.384"),
        .b = decimal("0.22"),
        .c = decimal("0.0025"),
        .lambda = decimal("1.2"),
        .eta = decimal("1"),
        .spot = decimal("100"),
        .factor_count = FACTORS,
    };
    for (int i = 0; i < FACTORS; i++) m.factors[i] = decimal("-0.01");
    return m;
}

/* Two maturities: one month, and three months. */
enum { ONE_MONTH = 84, THREE_MONTHS = 252, SEGMENTS = 2 };

static inline qrh_schedule sample_schedule(void) {
    return (qrh_schedule){
        .count = SEGMENTS,
        .segments = {{decimal("0.001"), ONE_MONTH}, {decimal("0.001"), THREE_MONTHS - ONE_MONTH}},
    };
}

/* 30 days of 365. */
static inline qrh_decimal sample_window(void) { return decimal("0.0821917808219178082191780822"); }

/* Uniform on (-1, 1), by xorshift64*. */
static inline double uniform(uint64_t *state) {
    *state ^= *state >> 12;
    *state ^= *state << 25;
    *state ^= *state >> 27;
    return (double)((*state * 0x2545F4914F6CDD1Du) >> 11) * 0x1p-52 - 1.0;
}

/* Fills a table with normal draws, by the polar method of Marsaglia. */
static inline void draw_normals(uint64_t seed, double *draws, size_t count) {
    uint64_t state = seed * 0x9E3779B97F4A7C15u + 1;
    for (size_t i = 0; i < count;) {
        double u = uniform(&state), v = uniform(&state), s = u * u + v * v;
        if (s >= 1.0 || s == 0.0) continue;
        double r = qrh_sqrt(-2.0 * log(s) / s);
        draws[i++] = u * r;
        if (i < count) draws[i++] = v * r;
    }
}

static inline double *table(size_t count) {
    double *t = malloc(count * sizeof *t);
    if (!t) {
        fprintf(stderr, "no memory for %zu doubles\n", count);
        exit(1);
    }
    return t;
}

/* Ends the program where a call was refused; include/qrh.h says what the number means. */
static inline void must_answer(const char *call, uint32_t number, const uint64_t *place) {
    if (number == 0) return;
    fprintf(stderr, "%s is refused by %u, at place (%llu, %llu, %llu, %llu)\n", call, number,
            (unsigned long long)place[0], (unsigned long long)place[1],
            (unsigned long long)place[2], (unsigned long long)place[3]);
    exit(1);
}

// Times qrh_sqrt beside the machine's square root, in one process, on the same inputs. Short rounds
// of the two are interleaved. The medians and their ratio are printed, and after them those of the
// fastest rounds, which say more on a busy machine.
//   latency     each root waits for the one before: x = root(x) + a[i]
//   throughput  the roots do not depend on each other: a sum of root(a[i])
#define _POSIX_C_SOURCE 200809L
#include "qrh.h"
#include <math.h>
#include <stdio.h>
#include <stdlib.h>
#include <string.h>
#include <time.h>

enum { COUNT = 1 << 14, ROUNDS = 801 };

static uint64_t seed = 1;

static uint64_t draw(void) {
    uint64_t z = (seed += 0x9e3779b97f4a7c15ull);
    z = (z ^ (z >> 30)) * 0xbf58476d1ce4e5b9ull;
    z = (z ^ (z >> 27)) * 0x94d049bb133111ebull;
    return z ^ (z >> 31);
}

static double now(void) {
    struct timespec t;
    clock_gettime(CLOCK_MONOTONIC, &t);
    return (double)t.tv_sec * 1e9 + (double)t.tv_nsec;
}

static double a[COUNT];
static volatile double sink;

#define LATENCY(name, root)                                 \
    static double name(void) {                              \
        double x = 1.0, from = now();                       \
        for (int i = 0; i < COUNT; i++) x = root(x) + a[i]; \
        sink = x;                                           \
        return (now() - from) / COUNT;                      \
    }

#define THROUGHPUT(name, root)                             \
    static double name(void) {                             \
        double sum = 0.0, from = now();                    \
        for (int i = 0; i < COUNT; i++) sum += root(a[i]); \
        sink = sum;                                        \
        return (now() - from) / COUNT;                     \
    }

LATENCY(latency_ours, qrh_sqrt)
LATENCY(latency_machine, sqrt)
THROUGHPUT(throughput_ours, qrh_sqrt)
THROUGHPUT(throughput_machine, sqrt)

static int by_size(const void *p, const void *q) {
    double x = *(const double *)p, y = *(const double *)q;
    return (x > y) - (x < y);
}

static void compare(const char *what, double (*ours)(void), double (*machine)(void)) {
    double o[ROUNDS], m[ROUNDS];
    for (int i = 0; i < ROUNDS; i++) {
        o[i] = ours();
        m[i] = machine();
    }
    qsort(o, ROUNDS, sizeof *o, by_size);
    qsort(m, ROUNDS, sizeof *m, by_size);
    double x = o[ROUNDS / 2], y = m[ROUNDS / 2];
    printf("%-38s ours %5.2f ns, machine %5.2f ns, ratio %.2f; fastest %5.2f, %5.2f, ratio %.2f\n",
           what, x, y, x / y, o[0], m[0], o[0] / m[0]);
}

// Doubles with random digits and an exponent field from `low` on.
static void fill(uint64_t low, uint64_t fields) {
    for (int i = 0; i < COUNT; i++) {
        uint64_t b = ((low + draw() % fields) << 52) + (draw() >> 12);
        memcpy(&a[i], &b, 8);
    }
}

int main(void) {
    fill(1022, 2);
    compare("latency, numbers from 1.5 to 5", latency_ours, latency_machine);
    compare("throughput, numbers from 0.5 to 2", throughput_ours, throughput_machine);
    fill(1003, 20);
    compare("throughput, numbers from 2^-20 to 1", throughput_ours, throughput_machine);
    fill(1, 2046);
    compare("throughput, normal numbers of any size", throughput_ours, throughput_machine);
    fill(0, 1);
    compare("throughput, subnormal numbers", throughput_ours, throughput_machine);
    return 0;
}

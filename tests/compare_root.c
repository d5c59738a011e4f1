// Compares qrh_sqrt with the machine's square root, bit for bit; two NaNs count as equal. Each line
// of the output names a class of inputs and says how many were compared and how many differ.
#include "qrh.h"
#include <math.h>
#include <stdio.h>
#include <string.h>

typedef uint64_t u64;
typedef unsigned __int128 u128;

static const u64 HIDDEN = 1ull << 52;
static const u64 SIGN = 1ull << 63;
static const u64 INFINITE = 2047ull << 52;

static u64 seed;

// splitmix64
static u64 draw(void) {
    u64 z = (seed += 0x9e3779b97f4a7c15ull);
    z = (z ^ (z >> 30)) * 0xbf58476d1ce4e5b9ull;
    z = (z ^ (z >> 27)) * 0x94d049bb133111ebull;
    return z ^ (z >> 31);
}

static double of_bits(u64 b) {
    double x;
    memcpy(&x, &b, 8);
    return x;
}

static u64 to_bits(double x) {
    u64 b;
    memcpy(&b, &x, 8);
    return b;
}

static u64 compared, differing, all, wrong;

static void check(u64 b) {
    double x = of_bits(b);
    double ours = qrh_sqrt(x);
    double theirs = sqrt(x);
    compared++;
    if (to_bits(ours) == to_bits(theirs) || (ours != ours && theirs != theirs)) return;
    if (differing++ < 5)
        printf("  differs at %016llx: %016llx, the machine %016llx\n", (unsigned long long)b,
               (unsigned long long)to_bits(ours), (unsigned long long)to_bits(theirs));
}

// A pattern and its four neighbours.
static void check_near(u64 b) {
    for (int d = -2; d <= 2; d++) check(b + (u64)(int64_t)d);
}

static void report(const char *what) {
    printf("%-72s %10llu compared, %llu differ\n", what, (unsigned long long)compared,
           (unsigned long long)differing);
    all += compared;
    wrong += differing;
    compared = differing = 0;
}

static void any_pattern(u64 count) {
    for (u64 i = 0; i < count; i++) check(draw());
    report("random bit patterns");
}

static void positive(u64 count) {
    for (u64 i = 0; i < count; i++) check(draw() % (INFINITE - HIDDEN) + HIDDEN);
    report("random normal doubles above zero");
}

// Between 1 and 4, where the exponent is even or odd.
static void one_to_four(u64 count) {
    for (u64 i = 0; i < count; i++) check((1023ull << 52) + draw() % (2 * HIDDEN));
    report("random doubles from 1 to 4");
}

static void fields(void) {
    for (u64 s = 0; s < 2; s++)
        for (u64 f = 0; f < 2048; f++) {
            u64 b = s * SIGN + f * HIDDEN;
            check(b);
            check(b + 1);
            check(b + HIDDEN / 2);
            check(b + HIDDEN - 2);
            check(b + HIDDEN - 1);
            for (int i = 0; i < 1000; i++) check(b + draw() % HIDDEN);
        }
    report("each sign and exponent field: smallest, largest, random significands");
}

static void subnormals(void) {
    for (int w = 1; w <= 52; w++) {
        u64 b = 1ull << (w - 1);
        check(b);
        check(2 * b - 1);
        for (int i = 0; i < 20000; i++) check(b + draw() % b);
    }
    for (u64 b = 0; b < 65536; b++) check(b);
    for (u64 d = 0; d < 65536; d++) check(HIDDEN - 32768 + d);
    report("subnormal doubles of each width, and those at both ends");
}

// s * s for a whole s is a double up to 2^53; with an even power of two it stays a square.
static void squares(void) {
    for (u64 s = 1; s <= 300000; s++) check_near(to_bits((double)s * (double)s));
    for (int i = 0; i < 1000000; i++) {
        double s = (double)(draw() % 94906265 + 1);
        int k = (int)(draw() % 960) - 510;
        check_near(to_bits(ldexp(s * s, 2 * k)));
    }
    report("perfect squares and their neighbours");
}

// The roots hardest to round. For a root's digits s, the number m * 2^52 next to (s + 1/2)^2 has a
// root just below or above s + 1/2.
static void near_ties(u64 count) {
    for (u64 i = 0; i < count; i++) {
        u128 t = 2 * (u128)(HIDDEN + draw() % HIDDEN) + 1;
        u64 m = (u64)((t * t) >> 54);
        for (u64 d = 0; d < 4; d++) {
            u64 n = m - 1 + d;
            u64 k = (draw() % 500) * 2;
            if (n >= HIDDEN && n < 2 * HIDDEN) check((k + 23) * HIDDEN + (n - HIDDEN));
            if (n >= 2 * HIDDEN && n < 4 * HIDDEN && n % 2 == 0)
                check((k + 24) * HIDDEN + (n / 2 - HIDDEN));
        }
    }
    report("doubles whose root is next to half way between two doubles");
}

static void others(void) {
    check(0);
    check(SIGN);
    check(INFINITE);
    check(SIGN + INFINITE);
    for (int i = 0; i < 1000000; i++) {
        u64 payload = draw() % (HIDDEN - 1) + 1;
        check(INFINITE + payload);
        check(SIGN + INFINITE + payload);
        check(SIGN + draw() % INFINITE);
    }
    for (u64 d = 0; d < 1000; d++) {
        check(SIGN + d);
        check(INFINITE - 500 + d);
        check(SIGN + INFINITE - 500 + d);
    }
    report("zeros, infinities, NaNs of both signs, numbers below zero");
}

int main(void) {
    any_pattern(40000000);
    positive(40000000);
    one_to_four(40000000);
    fields();
    subnormals();
    squares();
    near_ties(4000000);
    others();
    printf("%-72s %10llu compared, %llu differ\n", "all", (unsigned long long)all,
           (unsigned long long)wrong);
    return wrong != 0;
}

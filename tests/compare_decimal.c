// Compares qrh_convert with the C library's strtod, which rounds correctly, bit by bit: Decimals of
// every scale and size, ties and their neighbours, round numbers, zeros and refusals. Exits 1 at
// any difference.
#include "qrh.h"
#include <stdio.h>
#include <stdlib.h>
#include <string.h>

typedef unsigned __int128 u128;

static uint64_t state = 88172645463325252u;

static uint64_t draw(void) {
    state ^= state << 13;
    state ^= state >> 7;
    state ^= state << 17;
    return state * 0x2545F4914F6CDD1Du;
}

// A number of exactly n bits, 1 to 96.
static u128 of_bits(int n) {
    u128 r = ((u128)draw() << 64) | draw();
    return (r & (((u128)1 << (n - 1)) - 1)) | ((u128)1 << (n - 1));
}

static uint64_t pattern(double x) {
    uint64_t u;
    memcpy(&u, &x, sizeof u);
    return u;
}

static double by_strtod(bool negative, int scale, u128 c) {
    char digits[40], text[64], *p = text;
    int n = 0;
    do {
        digits[n++] = (char)('0' + (int)(c % 10));
        c /= 10;
    } while (c);
    if (negative) *p++ = '-';
    while (n) *p++ = digits[--n];
    sprintf(p, "e-%d", scale);
    return strtod(text, 0);
}

static long checked, in_class, wrong;

static void expect(bool negative, int scale, u128 c, uint32_t number, uint64_t bits) {
    qrh_decimal d = {(uint64_t)c, (uint32_t)(c >> 64), (uint8_t)scale, negative};
    qrh_conversion got = qrh_convert(d);
    bool places = got.place[0] | got.place[1] | got.place[2] | got.place[3];
    checked++;
    in_class++;
    if (got.number == number && !places && pattern(got.value) == bits) return;
    if (wrong++ < 10)
        printf("wrong: %s%08x%016llx at scale %d: number %u, bits %016llx, not %u, %016llx\n",
               negative ? "-" : "", d.high, (unsigned long long)d.low, scale, got.number,
               (unsigned long long)pattern(got.value), number, (unsigned long long)bits);
}

static void compare(bool negative, int scale, u128 c) {
    if (c >> 96) return;
    expect(negative, scale, c, 0, c ? pattern(by_strtod(negative, scale, c)) : 0);
}

static void report(const char *name) {
    printf("%-44s %9ld\n", name, in_class);
    in_class = 0;
}

int main(void) {
    for (int scale = 0; scale <= 28; scale++)
        for (int bits = 1; bits <= 96; bits++)
            for (int i = 0; i < 500; i++) compare(draw() & 1, scale, of_bits(bits));
    report("random, each scale 0..28 and size 1..96 bits");

    // Halfway between two doubles: an odd number of 54 bits, times a power of two, over 2^scale. As
    // a Decimal it is times 5^scale, and one more or less at the last place is next to the tie.
    for (long i = 0; i < 400000; i++) {
        int scale = (int)(draw() % 19);
        u128 c = of_bits(54) | 1;
        for (int k = 0; k < scale; k++) c *= 5;
        if (c >> 96) continue;
        int room = 0;
        while (!((c << room) >> 95)) room++;
        c <<= draw() % (uint64_t)(room + 1);
        bool negative = draw() & 1;
        compare(negative, scale, c);
        compare(negative, scale, c + 1);
        compare(negative, scale, c - 1);
    }
    report("ties, and one more or less at the last place");

    // The same with zeros behind: one more at the last place is then far below the digits that a
    // double keeps.
    for (long i = 0; i < 400000; i++) {
        u128 c = of_bits(54) | 1;
        c <<= draw() % 20;
        int scale = 0, most = (int)(draw() % 13);
        while (scale < most && c * 10 < (u128)1 << 96) {
            c *= 10;
            scale++;
        }
        if (c >> 96) continue;
        bool negative = draw() & 1;
        compare(negative, scale, c);
        compare(negative, scale, c + 1);
        compare(negative, scale, c - 1);
    }
    report("ties with zeros behind, and their neighbours");

    for (int scale = 0; scale <= 28; scale++) {
        u128 ten = 1;
        for (int k = 0; k <= 28; k++, ten *= 10)
            for (int step = -1; step <= 1; step++) compare(k & 1, scale, ten + (u128)step);
        for (int bit = 0; bit <= 96; bit++)
            for (int step = -1; step <= 1; step++)
                compare(bit & 1, scale, ((u128)1 << bit) + (u128)step);
    }
    report("powers of ten and of two, and their neighbours");

    for (int scale = 0; scale <= 255; scale++) {
        expect(false, scale, 0, 0, 0);
        expect(true, scale, 0, 0, 0);
    }
    report("zeros of both signs, each scale 0..255");

    for (int scale = 29; scale <= 255; scale++)
        for (int bits = 1; bits <= 96; bits++)
            for (int i = 0; i < 4; i++) expect(draw() & 1, scale, of_bits(bits), 1, 0);
    report("refusals, each scale 29..255 and size");

    printf("%-44s %9ld, %ld wrong\n", "all", checked, wrong);
    return wrong != 0;
}

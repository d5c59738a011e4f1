/* Draws two pictures, as SVG: a fan of traced paths with their variance below it (the first
   argument names the file), and the price of a call with its error bars as the paths grow (the
   second). */
#include "sample.h"

enum {
    WIDTH = 960,
    LEFT = 84,
    RIGHT = 932,
    FANNED = 2000,
    SHOWN = 24,
    TOLD = 2,
    SIZES = 10,
    FIRST_SEED = 101
};

static const char *const ORDINARY = "#1f5fa8", *const MIRRORED = "#c8641c", *const GREY = "#6b7280";

/* A panel: the pixels of its lowest and highest values, on a plain or a logarithmic scale. */
typedef struct {
    double bottom, top, low, high;
    int logarithmic;
} panel;

static double height(panel p, double value) {
    double share = p.logarithmic ? log(value / p.low) / log(p.high / p.low)
                                 : (value - p.low) / (p.high - p.low);
    return p.bottom + share * (p.top - p.bottom);
}

static FILE *begin(const char *name, int total, const char *title, const char *subtitle) {
    FILE *f = fopen(name, "w");
    if (!f) {
        perror(name);
        exit(1);
    }
    fprintf(f,
            "<svg xmlns=\"http://www.w3.org/2000/svg\" viewBox=\"0 0 %d %d\" "
            "font-family=\"sans-serif\" font-size=\"14\">\n",
            WIDTH, total);
    fprintf(f, "<rect width=\"%d\" height=\"%d\" fill=\"white\"/>\n", WIDTH, total);
    fprintf(f, "<text x=\"%d\" y=\"34\" font-size=\"20\" fill=\"#111827\">%s</text>\n", LEFT,
            title);
    fprintf(f, "<text x=\"%d\" y=\"56\" fill=\"%s\">%s</text>\n", LEFT, GREY, subtitle);
    return f;
}

static void finish(FILE *f, const char *name) {
    fprintf(f, "</svg>\n");
    if (fclose(f)) {
        perror(name);
        exit(1);
    }
    printf("%s\n", name);
}

/* A line across the panel at a value, with the value. */
static void rule(FILE *f, panel p, double value) {
    double y = height(p, value);
    fprintf(f, "<line x1=\"%d\" y1=\"%.1f\" x2=\"%d\" y2=\"%.1f\" stroke=\"#e5e7eb\"/>\n", LEFT, y,
            RIGHT, y);
    fprintf(f, "<text x=\"%d\" y=\"%.1f\" text-anchor=\"end\" fill=\"%s\">%g</text>\n", LEFT - 10,
            y + 5, GREY, value);
}

static void label(FILE *f, double x, double y, const char *anchor, const char *fill,
                  const char *text) {
    fprintf(f, "<text x=\"%.1f\" y=\"%.1f\" text-anchor=\"%s\" fill=\"%s\">%s</text>\n", x, y,
            anchor, fill, text);
}

/* The traced paths, each table of FANNED rows of points. */
enum { POINTS = THREE_MONTHS + 1 };

typedef struct {
    double *spots, *variances;
} fan;

static fan trace_fan(void) {
    fan traced = {table((size_t)FANNED * POINTS), table((size_t)FANNED * POINTS)};
    double *draws = table(THREE_MONTHS), *z = table(POINTS), *factors = table(POINTS * FACTORS);
    for (int p = 0; p < FANNED; p++) {
        draw_normals((uint64_t)p + FIRST_SEED, draws, THREE_MONTHS);
        qrh_tracing t =
            qrh_trace(weights, FACTORS, discounts, FACTORS, sample_model(), sample_schedule(),
                      draws, THREE_MONTHS, traced.spots + p * POINTS, POINTS,
                      traced.variances + p * POINTS, POINTS, z, POINTS, factors, POINTS * FACTORS);
        must_answer("qrh_trace", t.number, t.place);
    }
    free(draws);
    free(z);
    free(factors);
    return traced;
}

static double across(int point) { return LEFT + (double)point / THREE_MONTHS * (RIGHT - LEFT); }

static int rising(const void *x, const void *y) {
    double a = *(const double *)x, b = *(const double *)y;
    return (a > b) - (a < b);
}

/* The quantile of the paths at a point. */
static double quantile(const double *rows, int point, double share) {
    static double column[FANNED];
    for (int p = 0; p < FANNED; p++) column[p] = rows[p * POINTS + point];
    qsort(column, FANNED, sizeof *column, rising);
    return column[(int)(share * (FANNED - 1))];
}

static void band(FILE *f, panel p, const double *rows, double share, const char *fill) {
    fprintf(f, "<path fill=\"%s\" d=\"M", fill);
    for (int k = 0; k < POINTS; k += 2)
        fprintf(f, "%.1f %.1f ", across(k), height(p, quantile(rows, k, share)));
    for (int k = POINTS - 1; k >= 0; k -= 2)
        fprintf(f, "%.1f %.1f ", across(k), height(p, quantile(rows, k, 1 - share)));
    fprintf(f, "Z\"/>\n");
}

static void line(FILE *f, panel p, const double *row, const char *stroke, double width, int each) {
    fprintf(f, "<path fill=\"none\" stroke=\"%s\" stroke-width=\"%.1f\" d=\"M", stroke, width);
    for (int k = 0; k < POINTS; k += each) fprintf(f, "%.1f %.1f ", across(k), height(p, row[k]));
    fprintf(f, "\"/>\n");
}

/* Of the shown paths, the one that ends highest and the one that ends lowest. */
static void ends(const double *spots, int told[TOLD]) {
    told[0] = told[1] = 0;
    for (int p = 1; p < SHOWN; p++) {
        double end = spots[p * POINTS + THREE_MONTHS];
        if (end > spots[told[0] * POINTS + THREE_MONTHS]) told[0] = p;
        if (end < spots[told[1] * POINTS + THREE_MONTHS]) told[1] = p;
    }
}

static void half(FILE *f, panel p, const double *rows, const int told[TOLD]) {
    band(f, p, rows, 0.05, "#e3ecf7");
    band(f, p, rows, 0.25, "#c5d8ee");
    for (int i = 0; i < SHOWN; i++) line(f, p, rows + i * POINTS, "#9aa3b0", 0.6, 2);
    line(f, p, rows + told[0] * POINTS, ORDINARY, 1.6, 1);
    line(f, p, rows + told[1] * POINTS, MIRRORED, 1.6, 1);
}

static void draw_fan(const char *name) {
    fan traced = trace_fan();
    int told[TOLD];
    ends(traced.spots, told);
    double low = 100, high = 100, most = 0.1;
    for (int i = 0; i < SHOWN * POINTS; i++) {
        low = fmin(low, traced.spots[i]);
        high = fmax(high, traced.spots[i]);
        most = fmax(most, traced.variances[i]);
    }
    panel spots = {400, 96, floor(low / 5) * 5, ceil(high / 5) * 5, 0};
    panel variances = {650, 462, 0.002, most * 1.1, 1};
    FILE *f = begin(name, 700, "Spot falls, variance rises",
                    "24 traced paths of 252 steps; shaded, the middle 50% and 90% of 2,000 paths");
    for (double v = spots.low; v <= spots.high; v += 5) rule(f, spots, v);
    const double marks[] = {0.0025, 0.01, 0.04, 0.1, 0.4, 1};
    for (int i = 0; i < 6 && marks[i] <= variances.high; i++) rule(f, variances, marks[i]);
    half(f, spots, traced.spots, told);
    half(f, variances, traced.variances, told);
    label(f, LEFT, spots.top - 10, "start", "#111827", "Spot");
    label(f, LEFT, variances.top - 10, "start", "#111827",
          "Variance, a year: a logarithmic scale, and never below c = 0.0025");
    label(f, RIGHT, spots.top - 10, "end", ORDINARY, "the path that ends highest");
    label(f, RIGHT - 210, spots.top - 10, "end", MIRRORED, "the path that ends lowest");
    const char *months[] = {"today", "1 month", "2 months", "3 months"};
    for (int m = 0; m < 4; m++)
        label(f, across(m * ONE_MONTH), 676,
              m == 3 ? "end"
              : m    ? "middle"
                     : "start",
              GREY, months[m]);
    finish(f, name);
    free(traced.spots);
    free(traced.variances);
}

/* From 64 lists of draws, doubled each time, a batch with a path for each list, and one with a
   mirrored pair for each. */
static double column(int size) {
    return LEFT + 40 + (double)size / (SIZES - 1) * (RIGHT - LEFT - 80);
}

static void bar(FILE *f, panel p, double x, const qrh_estimate *e, const char *stroke) {
    double up = height(p, e->price + 2 * e->price_error),
           down = height(p, e->price - 2 * e->price_error);
    fprintf(f,
            "<path stroke=\"%s\" stroke-width=\"2\" d=\"M%.1f %.1fV%.1fM%.1f %.1fh10M%.1f "
            "%.1fh10\"/>\n",
            stroke, x, up, down, x - 5, up, x - 5, down);
    fprintf(f, "<circle cx=\"%.1f\" cy=\"%.1f\" r=\"4\" fill=\"%s\"/>\n", x, height(p, e->price),
            stroke);
}

static void draw_convergence(const char *name) {
    qrh_estimate ordinary[SIZES], mirrored[SIZES];
    size_t most = (size_t)64 << (SIZES - 1);
    double *draws = table(most * THREE_MONTHS), *observations = table(2 * most * SEGMENTS);
    draw_normals(1, draws, most * THREE_MONTHS);
    double low = 1e9, high = 0;
    for (int i = 0; i < SIZES; i++) {
        size_t lists = (size_t)64 << i, needed = lists * THREE_MONTHS;
        ordinary[i] = qrh_vanilla(weights, FACTORS, discounts, FACTORS, sample_model(),
                                  sample_schedule(), false, decimal("100"), lists, draws, needed,
                                  observations, lists * SEGMENTS);
        must_answer("qrh_vanilla", ordinary[i].number, ordinary[i].place);
        mirrored[i] = qrh_mirrored(weights, FACTORS, discounts, FACTORS, sample_model(),
                                   sample_schedule(), false, decimal("100"), 2 * lists, draws,
                                   needed, observations, 2 * lists * SEGMENTS);
        must_answer("qrh_mirrored", mirrored[i].number, mirrored[i].place);
        low = fmin(low, fmin(ordinary[i].price - 2 * ordinary[i].price_error,
                             mirrored[i].price - 2 * mirrored[i].price_error));
        high = fmax(high, fmax(ordinary[i].price + 2 * ordinary[i].price_error,
                               mirrored[i].price + 2 * mirrored[i].price_error));
    }
    free(draws);
    free(observations);

    panel p = {470, 96, floor(low * 2) / 2, ceil(high * 2) / 2, 0};
    FILE *f = begin(name, 540, "The price of a call settles as the draws grow",
                    "A call at 100 to three months; bars of two standard errors either way; the "
                    "line is the last mirrored price");
    for (double v = p.low; v <= p.high; v += 0.5) rule(f, p, v);
    double y = height(p, mirrored[SIZES - 1].price);
    fprintf(f,
            "<line x1=\"%d\" y1=\"%.1f\" x2=\"%d\" y2=\"%.1f\" stroke=\"%s\" stroke-dasharray=\"5 "
            "4\"/>\n",
            LEFT, y, RIGHT, y, MIRRORED);
    for (int i = 0; i < SIZES; i++) {
        char size[32];
        unsigned long lists = 64ul << i;
        if (lists < 1000) snprintf(size, sizeof size, "%lu", lists);
        else snprintf(size, sizeof size, "%lu,%03lu", lists / 1000, lists % 1000);
        bar(f, p, column(i) - 8, &ordinary[i], ORDINARY);
        bar(f, p, column(i) + 8, &mirrored[i], MIRRORED);
        label(f, column(i), p.bottom + 26, "middle", GREY, size);
    }
    label(f, (LEFT + RIGHT) / 2, p.bottom + 52, "middle", GREY,
          "lists of draws, one for each path or each mirrored pair");
    label(f, RIGHT - 150, p.top - 12, "end", ORDINARY, "ordinary paths");
    label(f, RIGHT, p.top - 12, "end", MIRRORED, "mirrored pairs");
    finish(f, name);
}

int main(int count, char **words) {
    if (count != 3) {
        fprintf(stderr, "pictures FAN.svg CONVERGENCE.svg\n");
        return 1;
    }
    draw_fan(words[1]);
    draw_convergence(words[2]);
    return 0;
}

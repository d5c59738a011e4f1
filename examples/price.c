/* Prices an index call, put and down-and-out put; call and put with half of the draws, by ordinary
   paths and by mirrored pairs; and a VIX future, call and put. It says the answers in words. The
   first argument is the number of paths, the second the seed. */
#define _POSIX_C_SOURCE 200809L
#include "sample.h"
#include <time.h>

static double seconds(void) {
    struct timespec t;
    clock_gettime(CLOCK_MONOTONIC, &t);
    return (double)t.tv_sec + 1e-9 * (double)t.tv_nsec;
}

static void say(const char *what, double value, double error, double since) {
    printf("  %-44s %8.4f   standard error %.4f   %7.1f ms\n", what, value, error,
           1e3 * (seconds() - since));
}

/* The mean payoff of a call over one column of the observations, and its standard error. */
static void one_month_call(const double *observations, size_t paths, double strike, double since) {
    double sum = 0, squares = 0;
    for (size_t p = 0; p < paths; p++) {
        double payoff = fmax(observations[p * SEGMENTS] - strike, 0);
        sum += payoff;
        squares += payoff * payoff;
    }
    double mean = sum / (double)paths;
    say("A call at 100 to one month, same paths:", mean,
        qrh_sqrt((squares / (double)paths - mean * mean) / (double)(paths - 1)), since);
}

int main(int count, char **words) {
    size_t paths = count > 1 ? strtoul(words[1], 0, 10) : 16384;
    uint64_t seed = count > 2 ? strtoul(words[2], 0, 10) : 1;
    if (paths < 4 || paths > 65536 || paths % 2) {
        fprintf(stderr, "an even number of paths, 4 to 65536\n");
        return 1;
    }
    size_t needed = paths * THREE_MONTHS, half = needed / 2;
    qrh_model model = sample_model();
    qrh_schedule schedule = sample_schedule();
    qrh_decimal at_100 = decimal("100"), at_90 = decimal("90"), at_20 = decimal("20");
    qrh_decimal window = sample_window();
    qrh_factors today = {.count = FACTORS};
    memcpy(today.factors, model.factors, sizeof today.factors);
    double *draws = table(needed), *observations = table(paths * SEGMENTS);
    size_t room = 5 * DIMENSION * DIMENSION;
    double *workspace = table(room);
    draw_normals(seed, draws, needed);

    printf("Quadratic rough Heston with ten factors; the spot is 100. %zu paths of %d steps to "
           "three months, seed %llu.\n",
           paths, THREE_MONTHS, (unsigned long long)seed);

    double since = seconds();
    qrh_vix_value vix =
        qrh_vix(weights, FACTORS, discounts, FACTORS, model, window, today, workspace, room);
    must_answer("qrh_vix", vix.number, vix.place);
    printf("\nThe VIX\n  %-44s %8.4f   %31.1f ms\n", "today:", vix.index,
           1e3 * (seconds() - since));

    printf("\nThe index, three months ahead\n");
    qrh_estimate call, put, down_and_out;
    since = seconds();
    call = qrh_vanilla(weights, FACTORS, discounts, FACTORS, model, schedule, false, at_100, paths,
                       draws, needed, observations, paths * SEGMENTS);
    must_answer("qrh_vanilla", call.number, call.place);
    say("A call at 100 is worth:", call.price, call.price_error, since);
    since = seconds();
    one_month_call(observations, paths, 100, since);
    since = seconds();
    put = qrh_vanilla(weights, FACTORS, discounts, FACTORS, model, schedule, true, at_100, paths,
                      draws, needed, observations, paths * SEGMENTS);
    must_answer("qrh_vanilla", put.number, put.place);
    say("A put at 100 is worth:", put.price, put.price_error, since);
    since = seconds();
    down_and_out = qrh_down_and_out(weights, FACTORS, discounts, FACTORS, model, schedule, at_100,
                                    at_90, paths, draws, needed, observations, paths * SEGMENTS);
    must_answer("qrh_down_and_out", down_and_out.number, down_and_out.place);
    say("A put at 100 that vanishes at 90 is worth:", down_and_out.price, down_and_out.price_error,
        since);
    printf(
        "  The mean spot is %.4f, standard error %.4f; it is a martingale, so 100 is expected.\n",
        call.spot_mean, call.spot_error);
    printf("  Call less put is %.4f, and mean spot less strike %.4f: parity holds path by path.\n",
           call.price - put.price, call.spot_mean - 100);
    printf("  Paths whose spot fell to zero or below: %llu of %llu, in %llu steps.\n",
           (unsigned long long)call.non_positive, (unsigned long long)call.paths,
           (unsigned long long)call.steps);

    printf("\nWith half of the draws: %zu ordinary paths, and %zu pairs of mirrored ones\n",
           paths / 2, paths / 2);
    const char *halves[] = {"A call at 100, ordinary:", "A call at 100, mirrored:",
                            "A put at 100, ordinary:", "A put at 100, mirrored:"};
    for (int i = 0; i < 4; i++) {
        bool mirrored = i % 2;
        size_t walked = mirrored ? paths : paths / 2;
        since = seconds();
        qrh_estimate e = (mirrored ? qrh_mirrored : qrh_vanilla)(
            weights, FACTORS, discounts, FACTORS, model, schedule, i >= 2, at_100, walked, draws,
            half, observations, walked * SEGMENTS);
        must_answer(mirrored ? "qrh_mirrored" : "qrh_vanilla", e.number, e.place);
        say(halves[i], e.price, e.price_error, since);
    }

    printf("\nThe VIX, three months ahead\n");
    const char *named[] = {"The future is at:", "A call at 20 is worth:", "A put at 20 is worth:"};
    for (int i = 0; i < 3; i++) {
        qrh_vix_payoff payoff = {.future = i == 0, .put = i == 2, .strike = at_20};
        since = seconds();
        qrh_vix_estimate v =
            qrh_vix_batch(weights, FACTORS, discounts, FACTORS, model, schedule, window, payoff,
                          paths, draws, needed, workspace, room, observations, paths * SEGMENTS);
        must_answer("qrh_vix_batch", v.number, v.place);
        say(named[i], v.payoff, v.payoff_error, since);
    }

    free(draws);
    free(observations);
    free(workspace);
    return 0;
}

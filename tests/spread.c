/* Whether a standard error that is reported is what prices spread by. Of a call, a put and a call
   deep in the money over 1,024 paths the mean of the errors that 200 seeds report stands beside the
   standard deviation of their prices: of ordinary paths, and of mirrored pairs, which take half of
   the draws. The two must agree within 15 in a hundred, three standard deviations of what 200
   seeds tell. */
#include "../examples/sample.h"

enum { SEEDS = 200, PATHS = 1024, NEEDED = PATHS * ONE_MONTH };

static int passed, failed;

/* Prices a put or a call at a strike over ordinary or mirrored paths, to one month. */
static qrh_estimate price(bool mirrored, bool put, const char *strike, const double *draws,
                          double *observations) {
    qrh_schedule schedule = sample_schedule();
    schedule.count = 1;
    qrh_estimate e = (mirrored ? qrh_mirrored : qrh_vanilla)(
        weights, FACTORS, discounts, FACTORS, sample_model(), schedule, put, decimal(strike), PATHS,
        draws, mirrored ? NEEDED / 2 : NEEDED, observations, PATHS);
    must_answer("a batch", e.number, e.place);
    return e;
}

/* The mean and the standard deviation of the prices, and the mean error that is reported. */
typedef struct {
    double mean, spread, error;
} seeds;

static seeds over_seeds(bool mirrored, bool put, const char *strike, double *draws,
                        double *observations) {
    double prices[SEEDS], sum = 0, errors = 0, squares = 0;
    for (int seed = 1; seed <= SEEDS; seed++) {
        draw_normals((uint64_t)seed, draws, NEEDED);
        qrh_estimate e = price(mirrored, put, strike, draws, observations);
        prices[seed - 1] = e.price;
        sum += e.price;
        errors += e.price_error;
    }
    double mean = sum / SEEDS;
    for (int i = 0; i < SEEDS; i++) squares += (prices[i] - mean) * (prices[i] - mean);
    return (seeds){mean, sqrt(squares / (SEEDS - 1)), errors / SEEDS};
}

static void compare(const char *what, bool put, const char *strike, double *draws,
                    double *observations) {
    for (int mirrored = 0; mirrored < 2; mirrored++) {
        seeds s = over_seeds(mirrored, put, strike, draws, observations);
        bool agree = fabs(s.error / s.spread - 1) <= 0.15;
        passed += agree;
        failed += !agree;
        printf("%-14s %-9s price %8.4f  spread %.4f  reported %.4f  ratio %.3f  %s\n", what,
               mirrored ? "mirrored" : "ordinary", s.mean, s.spread, s.error, s.error / s.spread,
               agree ? "ok" : "FAILED");
    }
}

int main(void) {
    double *draws = table(NEEDED), *observations = table(PATHS);
    compare("a call at 100", false, "100", draws, observations);
    compare("a put at 100", true, "100", draws, observations);
    compare("a call at 60", false, "60", draws, observations);
    free(draws);
    free(observations);
    printf("%d passed, %d failed\n", passed, failed);
    return failed != 0;
}

/* Calls every function that include/qrh.h declares, on values with known answers, and has every
   refusal answered once: its number, its place, and what the tables then hold. A table begins as
   sevens. The last line is 'N passed, M failed'. */
#include "layout.h"
#include <math.h>
#include <stdio.h>
#include <stdlib.h>
#include <string.h>

/* The refusals are numbered from 1 to this. */
enum { LAST_REFUSAL = 28 };

static int checked, failures, seen[LAST_REFUSAL + 1];

/* Counts an answer by its number; one that no refusal has is seen by whoever expects another. */
static void count(uint32_t number) {
    if (number <= LAST_REFUSAL) seen[number]++;
}

static void expect(const char *what, int holds) {
    printf("%-68s %s\n", what, holds ? "ok" : "WRONG");
    checked++;
    failures += !holds;
}

static uint64_t bits(double x) {
    uint64_t b;
    memcpy(&b, &x, sizeof b);
    return b;
}

static qrh_decimal decimal(bool negative, uint32_t high, uint64_t low, uint8_t scale) {
    return (qrh_decimal){low, high, scale, negative};
}

static qrh_decimal whole(uint64_t value) { return decimal(false, 0, value, 0); }

static const qrh_decimal QUARTER = {25, 0, 2, false}, MINUS_ONE = {1, 0, 0, true},
                         TOO_FINE = {1, 0, 29, false};

/* Everything that a call can be given, as in the checked figures, for two paths of one step. Tables
   are on the heap, exactly as long as they are said to be, so that a tool for memory faults sees a
   read or a write beyond. */
typedef struct {
    const double *weights, *discounts, *draws;
    size_t weights_length, discounts_length, draws_length;
    qrh_model model;
    qrh_schedule schedule;
    bool put;
    qrh_decimal strike, barrier, window;
    qrh_vix_payoff payoff;
    qrh_factors given;
    size_t paths, table_length, factors_length, workspace_length;
} inputs;

static const double ONE[11] = {1, 1, 1, 1, 1, 1, 1, 1, 1, 1, 1}, TWO[1] = {2}, FOUR[1] = {4};
static const double UP_DOWN[2] = {0.5, -1.0};

static inputs figures(void) {
    inputs i = {
        .weights = ONE,
        .weights_length = 1,
        .discounts = FOUR,
        .discounts_length = 1,
        .draws = UP_DOWN,
        .draws_length = 2,
        .model =
            {whole(1), whole(0), whole(4), whole(1), whole(1), whole(100), 1, {{0, 0, 0, false}}},
        .schedule = {1, {{QUARTER, 1}}},
        .strike = whole(100),
        .barrier = whole(60),
        .window = QUARTER,
        .payoff = {false, false, whole(100)},
        .given = {1, {{0, 0, 0, false}}},
        .paths = 2,
        .table_length = 2,
        .factors_length = 2,
        .workspace_length = 80,
    };
    return i;
}

/* The same for a trace of one step. */
static inputs one_step(void) {
    inputs i = figures();
    i.draws_length = 1;
    return i;
}

/* Two steps from inputs that differ: z is 1 and the variance 4 at the start. */
static inputs uneven(void) {
    inputs i = figures();
    const qrh_decimal half = decimal(false, 0, 5, 1), three_halves = decimal(false, 0, 15, 1);
    i.weights = TWO;
    i.model = (qrh_model){whole(8), half, whole(2), whole(3), three_halves, whole(100), 1, {half}};
    i.schedule.segments[0].steps = 2;
    i.strike = whole(110);
    i.window = decimal(false, 0, 625, 4);
    i.payoff.strike = whole(500);
    i.given.factors[0] = QUARTER;
    return i;
}

static double *sevens(size_t length) {
    double *t = malloc(length * sizeof *t + (length == 0));
    if (!t) exit(2);
    for (size_t k = 0; k < length; k++) t[k] = 7;
    return t;
}

static bool untouched(const double *t, size_t from, size_t length) {
    for (size_t k = from; k < length; k++)
        if (t[k] != 7) return false;
    return true;
}

static bool holds(const double *t, const double *expected, size_t length) {
    for (size_t k = 0; k < length; k++)
        if (t[k] != expected[k]) return false;
    return true;
}

/* What a call answered, whichever it was, and its tables. */
typedef struct {
    uint32_t number;
    uint64_t place[4], steps;
    bool zeros;
    double *table, *more[3];
    size_t length, more_length[3];
} answer;

static answer answered(uint32_t number, const uint64_t *place) {
    answer a = {.number = number};
    memcpy(a.place, place, sizeof a.place);
    count(number);
    return a;
}

static void forget(answer *a) {
    free(a->table);
    for (int t = 0; t < 3; t++) free(a->more[t]);
}

static answer trace(const inputs *i) {
    double *spots = sevens(i->table_length), *variances = sevens(i->table_length),
           *z = sevens(i->table_length);
    double *factors = sevens(i->factors_length);
    qrh_tracing r =
        qrh_trace(i->weights, i->weights_length, i->discounts, i->discounts_length, i->model,
                  i->schedule, i->draws, i->draws_length, spots, i->table_length, variances,
                  i->table_length, z, i->table_length, factors, i->factors_length);
    answer a = answered(r.number, r.place);
    a.steps = r.steps;
    a.zeros = true;
    a.table = spots, a.length = i->table_length;
    double *more[3] = {variances, z, factors};
    for (int t = 0; t < 3; t++)
        a.more[t] = more[t], a.more_length[t] = t < 2 ? i->table_length : i->factors_length;
    return a;
}

static qrh_estimate last_estimate;

static answer estimated(qrh_estimate r, double *table, const inputs *i) {
    answer a = answered(r.number, r.place);
    last_estimate = r;
    a.steps = r.steps;
    a.zeros = r.price == 0 && r.price_error == 0 && r.spot_mean == 0 && r.spot_error == 0 &&
              !r.paths && !r.non_positive;
    a.table = table, a.length = i->table_length;
    return a;
}

static answer vanilla_by(bool mirrored, const inputs *i) {
    double *table = sevens(i->table_length);
    qrh_estimate r = (mirrored ? qrh_mirrored : qrh_vanilla)(
        i->weights, i->weights_length, i->discounts, i->discounts_length, i->model, i->schedule,
        i->put, i->strike, i->paths, i->draws, i->draws_length, table, i->table_length);
    return estimated(r, table, i);
}

static answer vanilla(const inputs *i) { return vanilla_by(false, i); }
static answer mirrored(const inputs *i) { return vanilla_by(true, i); }

static answer down_and_out_by(bool mirrored, const inputs *i) {
    double *table = sevens(i->table_length);
    qrh_estimate r = (mirrored ? qrh_mirrored_down_and_out : qrh_down_and_out)(
        i->weights, i->weights_length, i->discounts, i->discounts_length, i->model, i->schedule,
        i->strike, i->barrier, i->paths, i->draws, i->draws_length, table, i->table_length);
    return estimated(r, table, i);
}

static answer down_and_out(const inputs *i) { return down_and_out_by(false, i); }
static answer mirrored_down_and_out(const inputs *i) { return down_and_out_by(true, i); }

static qrh_vix_value last_vix;

static answer vix(const inputs *i) {
    double *workspace = sevens(i->workspace_length);
    qrh_vix_value r = qrh_vix(i->weights, i->weights_length, i->discounts, i->discounts_length,
                              i->model, i->window, i->given, workspace, i->workspace_length);
    answer a = answered(r.number, r.place);
    last_vix = r;
    a.zeros = r.squared == 0 && r.index == 0;
    /* Its content is free once 16 has passed. */
    if (r.number == 15 || r.number == 16) a.table = workspace, a.length = i->workspace_length;
    else free(workspace);
    return a;
}

static qrh_vix_estimate last_vix_estimate;

static answer vix_batch(const inputs *i) {
    double *table = sevens(i->table_length), *workspace = sevens(i->workspace_length);
    qrh_vix_estimate r =
        qrh_vix_batch(i->weights, i->weights_length, i->discounts, i->discounts_length, i->model,
                      i->schedule, i->window, i->payoff, i->paths, i->draws, i->draws_length,
                      workspace, i->workspace_length, table, i->table_length);
    answer a = answered(r.number, r.place);
    last_vix_estimate = r;
    a.steps = r.steps;
    a.zeros =
        r.payoff == 0 && r.payoff_error == 0 && r.index == 0 && r.index_error == 0 && !r.paths;
    a.table = table, a.length = i->table_length;
    free(workspace);
    return a;
}

typedef answer call(const inputs *);

/* A call is refused by this number at this place, after these steps, with zeros for its values, and
   has written no more than the first doubles of its table. */
static void refused(const char *what, call *by, inputs i, uint32_t number, uint64_t p, uint64_t q,
                    uint64_t r, uint64_t s, uint64_t steps, size_t written) {
    answer a = by(&i);
    bool same = a.number == number && a.place[0] == p && a.place[1] == q && a.place[2] == r &&
                a.place[3] == s;
    bool left = untouched(a.table, written, a.length);
    for (int t = 0; t < 3; t++) left = left && untouched(a.more[t], written, a.more_length[t]);
    char line[128];
    snprintf(line, sizeof line, "%2u: %s", number, what);
    expect(line, same && left && a.steps == steps && a.zeros);
    forget(&a);
}

static void no(const char *what, call *by, inputs i, uint32_t number) {
    refused(what, by, i, number, 0, 0, 0, 0, 0, 0);
}

static void conversion(void) {
    qrh_conversion c = qrh_convert(decimal(false, 0, 1, 1));
    expect("0.1 is 3FB999999999999A", c.number == 0 && bits(c.value) == 0x3FB999999999999A);
    c = qrh_convert(whole(9007199254740993));
    expect("9007199254740993 is 9007199254740992", c.number == 0 && c.value == 9007199254740992.0);
    c = qrh_convert(whole(9007199254740995));
    expect("9007199254740995 is 9007199254740996", c.number == 0 && c.value == 9007199254740996.0);
    c = qrh_convert(decimal(false, 4882, 14987979559899010689u, 7));
    expect("90071992547409930000001 at scale 7 is 9007199254740994",
           c.number == 0 && c.value == 9007199254740994.0);
    c = qrh_convert(decimal(true, 0, 0, 29));
    expect("-0 at scale 29 is +0.0", c.number == 0 && bits(c.value) == 0);
    c = qrh_convert(TOO_FINE);
    count(c.number);
    expect(" 1: 1 at scale 29", c.number == 1 && c.place[0] == 0 && bits(c.value) == 0);
}

static void square_root(void) {
    expect("the root of 2", bits(qrh_sqrt(2.0)) == 0x3FF6A09E667F3BCD);
    expect("the root of 2^-1074 is 2^-537", qrh_sqrt(0x1p-1074) == 0x1p-537);
    expect("the root of -0 is -0", bits(qrh_sqrt(-0.0)) == 0x8000000000000000);
    expect("the root of infinity is infinity", qrh_sqrt(INFINITY) == INFINITY);
    expect("the roots of -1 and of a NaN are NaNs", isnan(qrh_sqrt(-1.0)) && isnan(qrh_sqrt(NAN)));
}

static void tracing(void) {
    inputs i = one_step();
    answer a = trace(&i);
    expect("a trace of draw 0.5: spot 100, 150",
           a.number == 0 && a.steps == 1 && a.table[0] == 100 && a.table[1] == 150);
    expect("... z and factor 0.25, variance 4.0625",
           a.more[0][0] == 4 && a.more[0][1] == 4.0625 && a.more[1][0] == 0 &&
               a.more[1][1] == 0.25 && a.more[2][1] == 0.25);
    forget(&a);
    i.draws = UP_DOWN + 1;
    a = trace(&i);
    expect("a trace of draw -1: spot 0, z -0.5, variance 4.25",
           a.number == 0 && a.table[1] == 0 && a.more[1][1] == -0.5 && a.more[0][1] == 4.25);
    forget(&a);
}

static void batches(void) {
    inputs i = figures();
    answer a = vanilla(&i);
    qrh_estimate e = last_estimate;
    expect("a batch of draws 0.5, -1: price 25, error 25",
           e.number == 0 && e.price == 25 && e.price_error == 25);
    expect("... spot mean 75, error 75, two paths, one non-positive, 2 steps",
           e.spot_mean == 75 && e.spot_error == 75 && e.paths == 2 && e.non_positive == 1 &&
               e.steps == 2);
    expect("... observations 150, 0", a.table[0] == 150 && a.table[1] == 0);
    forget(&a);
    i.put = true;
    a = vanilla(&i);
    expect("a put of the same: price 50", last_estimate.number == 0 && last_estimate.price == 50);
    forget(&a);
}

static void pairs(void) {
    const double draws[2] = {0.5, 0.25}, spots[4] = {150, 50, 125, 75};
    inputs i = figures();
    i.draws = draws;
    i.paths = i.table_length = 4;
    answer a = mirrored(&i);
    qrh_estimate e = last_estimate;
    expect("a mirrored batch of draws 0.5, 0.25: price 18.75, error 6.25",
           e.number == 0 && e.price == 18.75 && e.price_error == 6.25);
    expect("... spot mean 100, error 0, four paths, none non-positive, 4 steps",
           e.spot_mean == 100 && bits(e.spot_error) == 0 && e.paths == 4 && e.non_positive == 0 &&
               e.steps == 4);
    expect("... observations 150, 50, 125, 75", holds(a.table, spots, 4));
    forget(&a);
    /* Each path ends above 10^308, and the two of a pair add up to infinity. */
    double far[44];
    for (int k = 0; k < 44; k++) far[k] = 64;
    i.draws = far, i.draws_length = 44;
    i.schedule.segments[0].steps = 22;
    i.model.spot = decimal(false, 0, 1, 12);
    i.strike = whole(0);
    refused("an average of two spots above 10^308", mirrored, i, 25, 1, 0, 0, 0, 88, 4);
}

static void barriers(void) {
    inputs i = figures();
    i.strike = whole(200);
    answer a = down_and_out(&i);
    expect("a put at 200 that vanishes at 60, draws 0.5, -1: price 25, error 25",
           a.number == 0 && last_estimate.price == 25 && last_estimate.price_error == 25);
    forget(&a);
    i.barrier = whole(100);
    a = down_and_out(&i);
    expect("... at 100, the spot: price 0, error 0; spot mean 75",
           a.number == 0 && bits(last_estimate.price) == 0 &&
               bits(last_estimate.price_error) == 0 && last_estimate.spot_mean == 75);
    forget(&a);
    /* The spot falls to 50 and ends above 75. */
    const double back[4] = {-0.5, 1, -0.5, 0.5};
    i.draws = back, i.draws_length = 4;
    i.schedule.segments[0].steps = 2;
    i.barrier = whole(50);
    a = down_and_out(&i);
    expect("two paths to 50 and back, vanishing at 50: price 0",
           a.number == 0 && last_estimate.price == 0 && a.table[0] > 75 && a.table[1] > 75);
    forget(&a);
    i.barrier = whole(49);
    a = down_and_out(&i);
    const double price = last_estimate.price, error = last_estimate.price_error;
    forget(&a);
    i.put = true;
    a = vanilla(&i);
    expect("... vanishing at 49: the put's own price and error",
           a.number == 0 && price > 99 && error > 0 && bits(price) == bits(last_estimate.price) &&
               bits(error) == bits(last_estimate.price_error));
    forget(&a);
}

static void vixes(void) {
    inputs i = figures();
    i.model.a = whole(0);
    answer a = vix(&i);
    expect("the VIX without feedback: squared 40000, index 200",
           a.number == 0 && last_vix.squared == 40000 && last_vix.index == 200);
    i.payoff.future = true;
    i.payoff.strike = MINUS_ONE;
    a = vix_batch(&i);
    qrh_vix_estimate v = last_vix_estimate;
    expect("its future: 200, no error, two paths, 2 steps; the strike is not read",
           v.number == 0 && v.payoff == 200 && v.payoff_error == 0 && v.index == 200 &&
               v.index_error == 0 && v.paths == 2 && v.steps == 2);
    expect("... observations 40000", a.table[0] == 40000 && a.table[1] == 40000);
    forget(&a);
    i.payoff = (qrh_vix_payoff){false, false, whole(150)};
    a = vix_batch(&i);
    expect("its call at 150: 50", a.number == 0 && last_vix_estimate.payoff == 50);
    forget(&a);
    i.payoff = (qrh_vix_payoff){false, true, whole(210)};
    a = vix_batch(&i);
    expect("its put at 210: 10", a.number == 0 && last_vix_estimate.payoff == 10);
    forget(&a);
}

static void exponentials(void) {
    double *output = sevens(4), *workspace = sevens(20);
    const double jordan[4] = {0, 1, 0, 0}, half = 0.5, large = 0x1p1023;
    qrh_exponentiation x = qrh_exponential(2, jordan, 4, output, 4, workspace, 20);
    expect("the exponential of [0 1; 0 0]: one squaring, [1 1; 0 1]",
           x.number == 0 && x.squarings == 1 && output[0] == 1 && output[1] == 1 &&
               output[2] == 0 && output[3] == 1);
    free(output), free(workspace);
    output = sevens(1), workspace = sevens(5);
    x = qrh_exponential(1, &half, 1, output, 1, workspace, 5);
    expect("of norm 0.5: no squaring",
           x.number == 0 && x.squarings == 0 && output[0] == 1.6487212707001282);
    *output = 7;
    x = qrh_exponential(1, &large, 1, output, 1, workspace, 5);
    count(x.number);
    expect("17: norm 2^1023", x.number == 17 && x.squarings == 0 && *output == 7);
    free(workspace), workspace = sevens(5);
    x = qrh_exponential(1, &half, 1, output, 1, workspace, 4);
    expect("16: a workspace too short",
           x.number == 16 && x.squarings == 0 && *output == 7 && untouched(workspace, 0, 5));
    x = qrh_exponential(1, &half, 1, output, 0, workspace, 5);
    count(x.number);
    expect("26: an output too short", x.number == 26 && *output == 7);
    x = qrh_exponential(0, 0, 0, 0, 0, 0, 0);
    expect("26: dimension 0, null pointers", x.number == 26 && x.squarings == 0);
    x = qrh_exponential((size_t)1 << 32, &half, 1, output, 1, workspace, 5);
    expect("26: dimension 2^32, whose square is none", x.number == 26);
    free(output), free(workspace);
}

/* A contract goes by names and C by places. So in these answers no two values are equal, nor two
   tables, and the inputs differ: whatever stands in another's place is seen. Figures of many
   digits are the Rust's. */
static void places_of_a_trace(void) {
    const double draws[2] = {0.25, 0};
    const double spots[3] = {100, 125, 125}, variances[3] = {4, 3.125, 4.2578125};
    const double z[3] = {1, 0.125, -0.03125}, factors[3] = {0.5, 0.0625, -0.015625};
    inputs i = uneven();
    i.draws = draws;
    i.table_length = i.factors_length = 3;
    answer a = trace(&i);
    expect("a trace of draws 0.25, 0: 2 steps", a.number == 0 && a.steps == 2);
    expect("... spots 100, 125, 125", holds(a.table, spots, 3));
    expect("... variances 4, 3.125, 4.2578125", holds(a.more[0], variances, 3));
    expect("... z 1, 0.125, -0.03125", holds(a.more[1], z, 3));
    expect("... factors 0.5, 0.0625, -0.015625", holds(a.more[2], factors, 3));
    forget(&a);
}

/* Three paths that rise and one that falls, two steps each. */
static const double FALL[8] = {0.5, 0, 0.5, 0, 0.5, 0, -1, 0};

static inputs rises_and_a_fall(void) {
    inputs i = uneven();
    i.paths = i.table_length = 4;
    i.draws = FALL, i.draws_length = 8;
    return i;
}

/* The last estimate and its table, value by value. No two of the doubles wanted are equal. */
static void is_estimate(const char *what, answer a, qrh_estimate want, const double *spots) {
    qrh_estimate e = last_estimate;
    expect(what, e.number == 0 && e.price == want.price);
    expect("... its error", e.price_error == want.price_error);
    expect("... spot mean", e.spot_mean == want.spot_mean);
    expect("... its error", e.spot_error == want.spot_error);
    expect("... paths", e.paths == want.paths);
    expect("... non-positive paths", e.non_positive == want.non_positive);
    expect("... steps", e.steps == want.steps);
    expect("... observations", holds(a.table, spots, 4));
    forget(&a);
}

static void places_of_a_batch(void) {
    const double spots[4] = {150, 150, 150, 0}, rises[4] = {0.5, 0.5, 0.25, 0};
    const double mirrors[4] = {203.03300858899107, -5.9016994374947416, 125, 75};
    qrh_estimate want = {.price = 30,
                         .price_error = 10,
                         .spot_mean = 112.5,
                         .spot_error = 37.5,
                         .paths = 4,
                         .non_positive = 1,
                         .steps = 8};
    inputs i = rises_and_a_fall();
    is_estimate("a call over three rises and a fall: price 30", vanilla(&i), want, spots);
    i.strike = whole(170);
    want.price = 15, want.price_error = 5;
    is_estimate("a down-and-out put over them: price 15", down_and_out(&i), want, spots);
    want = (qrh_estimate){.price = 27.008252147247767,
                          .price_error = 19.508252147247767,
                          .spot_mean = 99.282827287874085,
                          .spot_error = 0.71717271212591527,
                          .paths = 4,
                          .non_positive = 1,
                          .steps = 8};
    i.strike = rises_and_a_fall().strike;
    i.draws = rises, i.draws_length = 4;
    is_estimate("a call over two mirrored rises: price 27", mirrored(&i), want, mirrors);
    i.strike = whole(230);
    want.price = 71.741747852752241, want.price_error = 58.258252147247759;
    is_estimate("a down-and-out put over them: price 71.7", mirrored_down_and_out(&i), want,
                mirrors);
}

static void places_of_the_vix(void) {
    const double high = 503994.26999495522, squares[4] = {high, high, high, 218043.22553273573};
    inputs i = rises_and_a_fall();
    answer a = vix(&i);
    qrh_vix_value x = last_vix;
    expect("the VIX at 0.25: squared 210108", x.number == 0 && x.squared == 210107.75256414909);
    expect("... index 458.4", x.index == 458.37512210431873);
    a = vix_batch(&i);
    qrh_vix_estimate v = last_vix_estimate;
    expect("a call on it: payoff 157.4", v.number == 0 && v.payoff == 157.44415375902315);
    expect("... its error 52.5", v.payoff_error == 52.481384586341051);
    expect("... index 649.2", v.index == 649.18190084965352);
    expect("... its error 60.7", v.index_error == 60.743637495710672);
    expect("... 4 paths", v.paths == 4);
    expect("... 8 steps", v.steps == 8);
    expect("... observations 503994 thrice, 218043", holds(a.table, squares, 4));
    forget(&a);
}

static void models(void) {
    inputs i = one_step();
    i.weights = 0, i.weights_length = 0;
    no("no weights, a null pointer", trace, i, 2);
    i = one_step();
    i.weights_length = 11;
    no("11 weights", trace, i, 2);
    i = one_step();
    i.discounts = 0, i.discounts_length = 0;
    no("no discounts, a null pointer", trace, i, 3);
    const double wild[2] = {0x1p91, NAN};
    i = one_step();
    i.weights = wild;
    refused("weight 1 above 2^90", trace, i, 4, 1, 1, 0, 0, 0, 0);
    i = one_step();
    i.discounts = wild + 1;
    refused("discount 1 a NaN", trace, i, 4, 2, 1, 0, 0, 0, 0);
    i = one_step();
    i.model.a = MINUS_ONE;
    no("a below zero", trace, i, 5);
    i.model.a = decimal(true, 0, 0, 255);
    i.model.c = whole(0);
    no("c zero; a minus zero passes", trace, i, 6);
    i = one_step();
    i.model.lambda = MINUS_ONE;
    no("lambda below zero", trace, i, 7);
    i = one_step();
    i.model.eta = whole(0);
    no("eta zero", trace, i, 8);
    i = one_step();
    i.model.spot = MINUS_ONE;
    no("spot below zero", trace, i, 9);
    i = one_step();
    i.model.factor_count = SIZE_MAX;
    no("2^64 - 1 factors", trace, i, 10);
    i = one_step();
    i.model.factors[0] = TOO_FINE;
    no("a factor at scale 29", trace, i, 1);
}

static void schedules(void) {
    inputs i = one_step();
    i.schedule.count = 0;
    no("no segment", trace, i, 11);
    i.schedule.count = SIZE_MAX;
    no("2^64 - 1 segments", trace, i, 12);
    i = one_step();
    i.schedule.segments[0].steps = 0;
    refused("a segment of no steps", trace, i, 13, 1, 0, 0, 0, 0, 0);
    i = one_step();
    i.schedule.count = 3;
    i.schedule.segments[1] = (qrh_segment){QUARTER, 4095};
    i.schedule.segments[2] = (qrh_segment){TOO_FINE, UINT32_MAX};
    refused("more than 4,096 steps up to segment 3", trace, i, 14, 3, 0, 0, 0, 0, 0);
    i = one_step();
    i.schedule.segments[0].dt = TOO_FINE;
    no("dt at scale 29", trace, i, 1);
}

static void lengths(void) {
    inputs i = one_step();
    i.draws = 0, i.draws_length = 0;
    no("no draws, a null pointer", trace, i, 20);
    i = one_step();
    i.factors_length = 1;
    no("a table of factors too short", trace, i, 21);
    i = figures();
    i.table_length = 3;
    no("observations too long", vanilla, i, 21);
    i = figures();
    i.draws_length = 1;
    no("draws for one path of two", vanilla, i, 20);
    qrh_estimate e = qrh_vanilla(0, 0, 0, 0, i.model, i.schedule, false, i.strike, 2, 0, 0, 0, 0);
    expect(" 2: null pointers for all that is empty", e.number == 2);
    e = qrh_vanilla(ONE, 1, FOUR, 1, i.model, i.schedule, false, i.strike, 2, UP_DOWN, 2, 0, 0);
    expect("21: a null pointer for an empty table", e.number == 21);
    qrh_vix_value v = qrh_vix(ONE, 1, FOUR, 1, i.model, i.window, i.given, 0, 0);
    expect("16: a null pointer for an empty workspace", v.number == 16);
}

static void vix_inputs(void) {
    inputs i = figures();
    i.window = whole(0);
    no("window zero", vix, i, 15);
    i = figures();
    i.window = TOO_FINE;
    no("a window at scale 29", vix, i, 1);
    i = figures();
    i.workspace_length = 81;
    no("a workspace too long", vix, i, 16);
    i = figures();
    i.model.a = whole(10000);
    no("moments that overflow", vix, i, 17);
    no("moments that overflow, in a batch", vix_batch, i, 17);
    i = figures();
    i.given.count = 2;
    no("two factors given for one", vix, i, 10);
    i = figures();
    i.given.factors[0] = TOO_FINE;
    no("a given factor at scale 29", vix, i, 1);
}

static void options(void) {
    inputs i = figures();
    i.strike = MINUS_ONE;
    no("strike below zero", vanilla, i, 18);
    i.strike = TOO_FINE;
    no("a strike at scale 29", vanilla, i, 1);
    i = figures();
    i.payoff.strike = MINUS_ONE;
    no("a VIX strike below zero", vix_batch, i, 18);
    i = figures();
    i.paths = 1, i.draws_length = 1, i.table_length = 1;
    no("one path", vanilla, i, 19);
    i = figures();
    i.paths = SIZE_MAX;
    no("2^64 - 1 paths", vanilla, i, 19);
    i = figures();
    i.paths = 3;
    no("three mirrored paths", mirrored, i, 19);
    i.paths = 2;
    no("two mirrored paths", mirrored, i, 28);
    i.draws_length = 0;
    no("the same, before no draws", mirrored, i, 28);
}

static void barrier_inputs(void) {
    inputs i = figures();
    i.barrier = whole(0);
    no("barrier zero", down_and_out, i, 27);
    i.barrier = MINUS_ONE;
    no("barrier below zero, mirrored", mirrored_down_and_out, i, 27);
    i.barrier = decimal(true, 0, 0, 255);
    i.paths = 1;
    no("barrier minus zero, before one path", down_and_out, i, 27);
    i.strike = MINUS_ONE;
    no("strike below zero, before a barrier at zero", down_and_out, i, 18);
    i.strike = TOO_FINE;
    no("a strike at scale 29, before a barrier at zero", down_and_out, i, 1);
    i = figures();
    i.barrier = TOO_FINE;
    no("a barrier at scale 29", down_and_out, i, 1);
    no("the same, mirrored", mirrored_down_and_out, i, 1);
    i.paths = 1;
    no("the same, before one path", down_and_out, i, 1);
    i = figures();
    i.paths = 3;
    no("three mirrored paths of a down-and-out put", mirrored_down_and_out, i, 19);
    i.paths = 2;
    no("two of them", mirrored_down_and_out, i, 28);
}

static void stops(void) {
    const double infinite[2] = {0.5, INFINITY}, steep[1] = {1e290}, far[1] = {1e200};
    inputs i = figures();
    i.draws = infinite;
    refused("spot, path 2, step 1, 2 steps", vanilla, i, 22, 2, 1, 1, 2, 2, 1);
    refused("the same in a VIX batch", vix_batch, i, 22, 2, 1, 1, 2, 2, 1);
    const double late[8] = {0, 0, 0, 0, 0, 0, 0, INFINITY};
    i.draws = late, i.draws_length = 8;
    i.schedule.segments[0].steps = 4;
    refused("spot, path 2, step 4, 8 steps", vanilla, i, 22, 2, 4, 1, 8, 8, 1);
    refused("the same in a VIX batch", vix_batch, i, 22, 2, 4, 1, 8, 8, 1);
    refused("the same of a down-and-out put", down_and_out, i, 22, 2, 4, 1, 8, 8, 1);
    i.paths = i.table_length = 4;
    refused("spot, path 3, step 4, 12 steps, mirrored", mirrored, i, 22, 3, 4, 1, 12, 12, 2);
    refused("the same of a down-and-out put", mirrored_down_and_out, i, 22, 3, 4, 1, 12, 12, 2);
    i = one_step();
    i.draws = infinite + 1;
    refused("spot of a trace, its start written", trace, i, 22, 1, 1, 1, 1, 1, 1);
    i.draws = steep;
    i.model.eta = decimal(false, 542101086, 4477988020393345024u, 0); /* 10^28 */
    refused("z", trace, i, 22, 1, 1, 2, 1, 1, 1);
    i = one_step();
    i.draws = far;
    refused("variance", trace, i, 22, 1, 1, 3, 1, 1, 1);
}

static void endings(void) {
    const double high[2] = {1e153, 0.5}, low[2] = {-1e153, 0.5}, third[2] = {0.5, 2e8},
                 none[2] = {0, 0}, slow[1] = {0x1p-80};
    inputs i = figures();
    i.draws = high;
    refused("the standard error of the payoff", vanilla, i, 25, 2, 0, 0, 0, 2, 2);
    i.draws = low;
    refused("the standard error of the spot", vanilla, i, 25, 4, 0, 0, 0, 2, 2);
    refused("the same of a down-and-out put", down_and_out, i, 25, 4, 0, 0, 0, 2, 2);
    i = figures();
    i.model.a = whole(2700);
    i.draws = third;
    refused("VIX squared not finite, path 2", vix_batch, i, 23, 2, 0, 0, 0, 2, 2);
    i.given.factors[0] = whole(100000000);
    no("VIX squared not finite, an evaluation", vix, i, 23);
    i = figures();
    i.discounts = slow;
    i.draws = none;
    i.model.b = i.model.factors[0] = i.given.factors[0] = whole(1);
    i.model.c = i.model.lambda = i.model.eta = decimal(false, 0, 1, 28);
    refused("VIX squared zero, path 1", vix_batch, i, 24, 1, 0, 0, 0, 2, 2);
    no("VIX squared zero, an evaluation", vix, i, 24);
}

int main(void) {
    conversion();
    square_root();
    tracing();
    batches();
    pairs();
    barriers();
    vixes();
    exponentials();
    places_of_a_trace();
    places_of_a_batch();
    places_of_the_vix();
    models();
    schedules();
    lengths();
    vix_inputs();
    options();
    barrier_inputs();
    stops();
    endings();
    int missing = 0;
    for (int number = 1; number <= LAST_REFUSAL; number++) missing += !seen[number];
    expect("every refusal was answered", missing == 0);
    printf("%d passed, %d failed\n", checked - failures, failures);
    return failures != 0;
}

#include "qrh.h"
#include <stdio.h>

int main(void) { /* a call at 100, over two paths of one step of a quarter, by one factor */
    const double weights[1] = {1}, discounts[1] = {4}, draws[2] = {0.5, -1};
    const qrh_decimal one = {.low = 1}, four = {.low = 4}, hundred = {.low = 100};
    const qrh_decimal quarter = {.low = 25, .scale = 2}; /* 25 / 10^2 */
    const qrh_model model = {one, {0}, four, one, one, hundred, .factor_count = 1};
    const qrh_schedule schedule = {.count = 1, .segments = {{quarter, 1}}};
    double spots[2]; /* of each path at the end */
    qrh_estimate e = qrh_vanilla(weights, 1, discounts, 1, model, schedule, false, hundred, 2,
                                 draws, 2, spots, 2);
    if (e.number != 0) printf("refused by question %u\n", e.number);
    else printf("price %g, standard error %g\n", e.price, e.price_error);
}

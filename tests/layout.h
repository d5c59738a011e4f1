/* The size of every struct of include/qrh.h and the place of every field. Names do not cross the
   edge: what a field holds in the library is known by its place alone. */
#ifndef QRH_LAYOUT_H
#define QRH_LAYOUT_H

#include "qrh.h"

#define SIZE(type, bytes) _Static_assert(sizeof(type) == bytes, "the size of " #type)
#define FIELD(type, field, at) \
    _Static_assert(offsetof(type, field) == at, "the place of " #type "." #field)
/* An answer begins with its number and its place. */
#define ANSWER(type, bytes) \
    SIZE(type, bytes);      \
    FIELD(type, number, 0); \
    FIELD(type, place, 8)

SIZE(qrh_decimal, 16);
FIELD(qrh_decimal, low, 0);
FIELD(qrh_decimal, high, 8);
FIELD(qrh_decimal, scale, 12);
FIELD(qrh_decimal, negative, 13);

SIZE(qrh_model, 264);
FIELD(qrh_model, a, 0);
FIELD(qrh_model, b, 16);
FIELD(qrh_model, c, 32);
FIELD(qrh_model, lambda, 48);
FIELD(qrh_model, eta, 64);
FIELD(qrh_model, spot, 80);
FIELD(qrh_model, factor_count, 96);
FIELD(qrh_model, factors, 104);

SIZE(qrh_segment, 24);
FIELD(qrh_segment, dt, 0);
FIELD(qrh_segment, steps, 16);

SIZE(qrh_schedule, 1544);
FIELD(qrh_schedule, count, 0);
FIELD(qrh_schedule, segments, 8);

SIZE(qrh_factors, 168);
FIELD(qrh_factors, count, 0);
FIELD(qrh_factors, factors, 8);

SIZE(qrh_vix_payoff, 24);
FIELD(qrh_vix_payoff, future, 0);
FIELD(qrh_vix_payoff, put, 1);
FIELD(qrh_vix_payoff, strike, 8);

ANSWER(qrh_conversion, 48);
FIELD(qrh_conversion, value, 40);

ANSWER(qrh_tracing, 48);
FIELD(qrh_tracing, steps, 40);

ANSWER(qrh_estimate, 96);
FIELD(qrh_estimate, price, 40);
FIELD(qrh_estimate, price_error, 48);
FIELD(qrh_estimate, spot_mean, 56);
FIELD(qrh_estimate, spot_error, 64);
FIELD(qrh_estimate, paths, 72);
FIELD(qrh_estimate, non_positive, 80);
FIELD(qrh_estimate, steps, 88);

ANSWER(qrh_vix_value, 56);
FIELD(qrh_vix_value, squared, 40);
FIELD(qrh_vix_value, index, 48);

ANSWER(qrh_vix_estimate, 88);
FIELD(qrh_vix_estimate, payoff, 40);
FIELD(qrh_vix_estimate, payoff_error, 48);
FIELD(qrh_vix_estimate, index, 56);
FIELD(qrh_vix_estimate, index_error, 64);
FIELD(qrh_vix_estimate, paths, 72);
FIELD(qrh_vix_estimate, steps, 80);

ANSWER(qrh_exponentiation, 48);
FIELD(qrh_exponentiation, squarings, 40);

#undef SIZE
#undef FIELD
#undef ANSWER

#endif

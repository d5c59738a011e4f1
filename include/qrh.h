/* The calls of the core for C. README.md, "Link it", has the library. The rules are those of
   docs/SPECIFICATION.md.

   What the caller has to see to, since no call can ask it:
   - A slice is a pointer to doubles and their number, and the pointer is valid for that many; the
     pointer of an empty slice may be null.
   - A table that a call writes, an output and a workspace included, overlaps nothing else that the
     call is given: no other table and no input.
   - A bool is 0 or 1.
   - The floating-point environment rounds to nearest, and subnormal numbers are neither flushed to
     zero nor taken for zero (FTZ and DAZ are off).

   With that every call is total: it answers any values that its types can hold. An answer begins
   with its number, 0 where the call is answered and else the number of the refusal, and its place,
   0 where there is none. The values of a refused call are zeros, but for the steps taken: a trace
   has them at 22 and a batch at 22 to 25. qrh_vix takes no steps.

   n is the number of weights, N the number of steps of the schedule's segments together. Places
   count from 1.

   The refusals, with their place in brackets:
     1  a Decimal that is not zero has a scale above 28
     2  there are not 1 to 10 weights
     3  there are not as many discounts as weights
     4  a weight or a discount is outside 2^-90 to 2^90 (1 for weights, 2 for discounts; index)
     5  a is below zero        6  c is not above zero        7  lambda is not above zero
     8  eta is not above zero  9  spot is not above zero    10  there are not n factors
    11  there is no segment   12  there are more than 64 segments
    13  a segment's dt is not above zero, or it has no steps (segment)
    14  the segments up to this one have more than 4,096 steps (segment)
    15  the window is not above zero
    16  the workspace is not 5 * dimension^2 doubles long
    17  the norm of the matrix, twice the norm or an entry of its exponential is not finite
    18  the strike is below zero
    19  there are not 2 to 65,536 paths, or in a mirrored batch an odd number of them
    20  there are not exactly as many draws as needed
    21  a table that is lent is not exactly as long as needed
    22  a step is not finite (path; step; 1 for spot, 2 for z, 3 for variance; steps taken)
    23  a path's last VIX squared is not finite (path; none from qrh_vix)
    24  a path's last VIX squared is not above zero (path; none from qrh_vix)
    25  an estimate is not finite (which of the four)
    26  the dimension is not 1 to 67, or a matrix is not dimension^2 doubles long
    27  the barrier is not above zero
    28  there are fewer than 4 paths in a mirrored batch */
#ifndef QRH_H
#define QRH_H

#include <stdbool.h>
#include <stddef.h>
#include <stdint.h>

#ifdef __cplusplus
extern "C" {
#endif

/* (high * 2^64 + low) / 10^scale, negated where `negative` is set. */
typedef struct {
    uint64_t low;
    uint32_t high;
    uint8_t scale;
    bool negative;
} qrh_decimal;

/* The parameters: variance = a * (z - b)^2 + c, and z the sum of weight * factor. The first
   `factor_count` of the initial factors are given. */
typedef struct {
    qrh_decimal a, b, c, lambda, eta, spot;
    size_t factor_count;
    qrh_decimal factors[10];
} qrh_model;

/* `steps` steps of `dt` years each. */
typedef struct {
    qrh_decimal dt;
    uint32_t steps;
} qrh_segment;

/* The first `count` segments, one after another. */
typedef struct {
    size_t count;
    qrh_segment segments[64];
} qrh_schedule;

/* The first `count` factors, at which qrh_vix reads the index. */
typedef struct {
    size_t count;
    qrh_decimal factors[10];
} qrh_factors;

/* A future on the index; or a call or a put on it, at its strike. Of a future `put` and `strike`
   are neither asked nor read. */
typedef struct {
    bool future;
    bool put;
    qrh_decimal strike;
} qrh_vix_payoff;

typedef struct {
    uint32_t number;
    uint64_t place[4];
    double value;
} qrh_conversion;

/* `steps` are the steps taken, the failing one included. */
typedef struct {
    uint32_t number;
    uint64_t place[4];
    uint64_t steps;
} qrh_tracing;

/* The mean payoff and the mean spot at the end of the last segment, each with its standard error.
   A path is non-positive if its spot is at or below zero after any step. */
typedef struct {
    uint32_t number;
    uint64_t place[4];
    double price, price_error, spot_mean, spot_error;
    uint64_t paths, non_positive, steps;
} qrh_estimate;

/* VIX squared, and its root, the index in points. */
typedef struct {
    uint32_t number;
    uint64_t place[4];
    double squared, index;
} qrh_vix_value;

/* The mean payoff and the mean index at the end of the last segment, each with its standard
   error. */
typedef struct {
    uint32_t number;
    uint64_t place[4];
    double payoff, payoff_error, index, index_error;
    uint64_t paths, steps;
} qrh_vix_estimate;

/* How often the scaled matrix was squared. */
typedef struct {
    uint32_t number;
    uint64_t place[4];
    uint64_t squarings;
} qrh_exponentiation;

/* The double that is nearest to d, a tie going to the even significand; zero of either sign is
   +0.0.
   1: d is not zero and its scale is above 28. */
qrh_conversion qrh_convert(qrh_decimal d);

/* The double that is nearest to the exact root of x; a NaN where x is a NaN or below zero. Either
   zero and infinity give themselves. No refusal. */
double qrh_sqrt(double x);

/* One path, from N draws. Tables: spots, variances and z of N + 1 doubles each, and factors of
   (N + 1) * n, point by point; point 0 is the start. Asks 2 to 10, 1, 11 to 14 with 1 of each dt,
   20, 21, and then 22 step by step, as path 1. Nothing is written before 22; at 22 the points
   before the failing step are. */
qrh_tracing qrh_trace(
    const double *weights, size_t weights_length,
    const double *discounts, size_t discounts_length,
    qrh_model model, qrh_schedule schedule,
    const double *draws, size_t draws_length,
    double *spots, size_t spots_length,
    double *variances, size_t variances_length,
    double *z, size_t z_length,
    double *factors, size_t factors_length);

/* The price of a call, or a put, on the spot, from paths * N draws, path by path. Table:
   observations of paths * segments doubles, a row a path and a column a segment: the spot at the
   segment's end. Asks 2 to 10, 1, 11 to 14 with 1 of each dt, 18 and 1 of the strike, 19, 20, 21;
   22 step by step; 25 at the end. Nothing is written before 22; at 22 the observations of segments
   that ended before the failing step are; at 25 all. */
qrh_estimate qrh_vanilla(
    const double *weights, size_t weights_length,
    const double *discounts, size_t discounts_length,
    qrh_model model, qrh_schedule schedule,
    bool put, qrh_decimal strike, size_t paths,
    const double *draws, size_t draws_length,
    double *observations, size_t observations_length);

/* The same over mirrored paths: path 2i takes the draws of path 2i - 1 negated, so there are
   paths / 2 * N draws. Such a pair is one sample of payoff and of spot: the average of its two, so
   that an error is that of paths / 2 averages. Paths, non-positive paths, steps and the table's
   rows are of single paths. 19 asks that paths is even too, and between 19 and 20 stands 28. */
qrh_estimate qrh_mirrored(
    const double *weights, size_t weights_length,
    const double *discounts, size_t discounts_length,
    qrh_model model, qrh_schedule schedule,
    bool put, qrh_decimal strike, size_t paths,
    const double *draws, size_t draws_length,
    double *observations, size_t observations_length);

/* The price of a put on the spot that vanishes at a barrier: a path pays 0 where its lowest spot,
   over the start and all N steps, is at or below the barrier, and else what the put pays. Draws and
   table as in qrh_vanilla. Asks 2 to 10, 1, 11 to 14 with 1 of each dt, 18 and 1 of the strike, 27
   and 1 of the barrier, 19, 20, 21; 22 step by step; 25 at the end. The observations are written as
   in qrh_vanilla. */
qrh_estimate qrh_down_and_out(
    const double *weights, size_t weights_length,
    const double *discounts, size_t discounts_length,
    qrh_model model, qrh_schedule schedule,
    qrh_decimal strike, qrh_decimal barrier, size_t paths,
    const double *draws, size_t draws_length,
    double *observations, size_t observations_length);

/* The same over mirrored paths, as in qrh_mirrored: each path has its own lowest spot, and pays by
   it before its pair is averaged. */
qrh_estimate qrh_mirrored_down_and_out(
    const double *weights, size_t weights_length,
    const double *discounts, size_t discounts_length,
    qrh_model model, qrh_schedule schedule,
    qrh_decimal strike, qrh_decimal barrier, size_t paths,
    const double *draws, size_t draws_length,
    double *observations, size_t observations_length);

/* The VIX over a window of years, at the given factors. The workspace is 5 * dimension^2 doubles,
   where dimension = n + n * (n + 1) / 2 + 2. Asks 2 to 10, 1, 15 and 1 of the window, 16, 17, then
   10 and 1 of the given factors, 23, 24. What the workspace holds afterwards is free, once 16 has
   passed. */
qrh_vix_value qrh_vix(
    const double *weights, size_t weights_length,
    const double *discounts, size_t discounts_length,
    qrh_model model, qrh_decimal window, qrh_factors given,
    double *workspace, size_t workspace_length);

/* The price of a VIX future, call or put. Draws and table as in qrh_vanilla, workspace as in
   qrh_vix; an observation is the VIX squared at the segment's end, unchecked. Asks 2 to 10, 1, 11
   to 14 with 1 of each dt, 15 and 1 of the window, 16, 17, of a call or a put 18 and 1 of the
   strike, 19, 20, 21; 22 step by step; then of each path's last observation 23 and 24, and 25. The
   observations are written as in qrh_vanilla; at 23 to 25 all are. */
qrh_vix_estimate qrh_vix_batch(
    const double *weights, size_t weights_length,
    const double *discounts, size_t discounts_length,
    qrh_model model, qrh_schedule schedule,
    qrh_decimal window, qrh_vix_payoff payoff, size_t paths,
    const double *draws, size_t draws_length,
    double *workspace, size_t workspace_length,
    double *observations, size_t observations_length);

/* The exponential of a square matrix of dimension^2 doubles, row by row, into an output as long.
   The workspace is 5 * dimension^2 doubles. Asks 26, 16, 17. The output is written where the call
   is answered; what the workspace holds afterwards is free, once 16 has passed. */
qrh_exponentiation qrh_exponential(
    size_t dimension,
    const double *input, size_t input_length,
    double *output, size_t output_length,
    double *workspace, size_t workspace_length);

#ifdef __cplusplus
}
#endif

#endif

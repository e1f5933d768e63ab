/* Inside the published baseline: what its two files share. Nothing here is checked. */
#ifndef BENCH_PUBLISHED_H
#define BENCH_PUBLISHED_H

#include "calls.h"
#include "tower.h"

/* IP_REM: a := the remainder of a by the monic b, polynomials over that level. The quotient stays in a's
   coefficients from deg b on. */
void published_divide(const struct tower *t, int level, int64_t *a, const int64_t *b, int64_t *work);

/* IP_SCAL_MUL: a := scalar·a, a polynomial over that level. */
void published_scale(const struct tower *t, int level, int64_t *a, const int64_t *scalar, int64_t *work);

/* IP_LIN: c := c - a·b, polynomials over that level; a is its coefficients, from 0 to a_degree. None
   of a and b is zero. */
void published_subtract_product(const struct tower *t, int level, int64_t *c, const int64_t *a, int64_t a_degree,
                                const int64_t *b, int64_t *work);

/* The calls for inverse and GCD. */
inverse_call published_inverse;
gcd_call published_gcd;

#endif

/* The four calls that are measured, and who answers them. Lengths are in words. A call gives 0 for Done, 100 + level
   for a shown factor, else the number of the refusal. */
#ifndef BENCH_CALLS_H
#define BENCH_CALLS_H

#include <stddef.h>
#include <stdint.h>

/* c := a·b. */
typedef size_t product_call(int64_t p, int64_t n, const int64_t degrees[4], const int64_t *tower, size_t tower_len,
                             const int64_t *a, size_t a_len, const int64_t *b, size_t b_len, int64_t *c, size_t c_len,
                             int64_t *work, size_t work_len);

/* q := the quotient of a by the monic b; the remainder replaces a. */
typedef size_t division_call(int64_t p, int64_t n, const int64_t degrees[4], const int64_t *tower, size_t tower_len,
                              int64_t *a, size_t a_len, const int64_t *b, size_t b_len, int64_t *q, size_t q_len,
                              int64_t *work, size_t work_len);

/* r := the inverse of the element c; or factor := the factor that is shown, and r is kept. */
typedef size_t inverse_call(int64_t p, int64_t n, const int64_t degrees[4], const int64_t *tower, size_t tower_len,
                             const int64_t *c, size_t c_len, int64_t *r, size_t r_len, int64_t *factor,
                             size_t factor_len, int64_t *work, size_t work_len);

/* g := the monic GCD of a and b; or factor := the factor that is shown, and g is kept. */
typedef size_t gcd_call(int64_t p, int64_t n, const int64_t degrees[4], const int64_t *tower, size_t tower_len,
                         const int64_t *a, size_t a_len, const int64_t *b, size_t b_len, int64_t *g, size_t g_len,
                         int64_t *factor, size_t factor_len, int64_t *work, size_t work_len);

struct contender {
    const char *name;
    product_call *product;
    division_call *division;
    inverse_call *inverse;
    gcd_call *gcd;
};

/* The two baselines. They check nothing, refuse nothing, and leave in the work store what they worked with. */
extern const struct contender published, tuned;

#endif

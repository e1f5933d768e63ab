/* Inside the tuned baseline: what its three files share.

   A sum of products of numbers is kept in two words, lo + hi·2^32. Up to four products below 2^62 fit in one word,
   whose halves are then added to lo and hi: nothing is compared and nothing wraps. p is below 2^31.
   Nothing here is checked. */
#ifndef BENCH_TUNED_H
#define BENCH_TUNED_H

#include "calls.h"
#include "tower.h"

/* The number lo + hi·2^32. */
struct sum {
    uint64_t lo, hi;
};

/* A row of such numbers, their two words apart. */
struct sums {
    uint64_t *lo, *hi;
};

/* Adds to t the products a[0]·b[0], a[1]·b[-1], a[2]·b[-2], ... of count pairs of elements of level 1, as polynomials
   of degree 2·d_1 - 2. a and b are counted in elements, of size words. */
typedef void leaf(struct sums t, int64_t size, const int64_t *a, const int64_t *b, int64_t count);

/* p, of so many bits, and 2^(2·bits) divided by p, to find residues without a division. */
struct reciprocal {
    uint64_t p, value;
    int bits;
};

/* A tower, and what its sums ask for. */
struct ring {
    struct tower tower;
    uint64_t two32, two64; /* 2^32 and 2^64 modulo p */
    struct reciprocal reciprocal;
    leaf *add_pairs;
};

static const uint64_t LOW_HALF = 0xffffffff;

/* Number k of a row. */
static inline struct sum load(struct sums t, int64_t k) { return (struct sum){t.lo[k], t.hi[k]}; }

/* Number k of a row := s. */
static inline void store(struct sums t, int64_t k, struct sum s)
{
    t.lo[k] = s.lo;
    t.hi[k] = s.hi;
}

/* s := s + products, which are at most four products of residues. */
static inline void fold(struct sum *s, uint64_t products)
{
    s->lo += products & LOW_HALF;
    s->hi += products >> 32;
}

/* A word that holds a residue, read as 32 bits: then a product is one of 32 by 32 bits. */
static inline uint64_t residue(int64_t word) { return (uint32_t)word; }

/* s modulo p, by one division. */
static inline uint64_t reduced(const struct ring *r, struct sum s)
{
    const uint64_t hi = s.hi + (s.lo >> 32);
    return ((hi >> 32) * r->two64 + (hi & LOW_HALF) * r->two32 + (s.lo & LOW_HALF)) % r->tower.p;
}

/* -x modulo p. */
static inline uint64_t negated(const struct ring *r, uint64_t x) { return x == 0 ? 0 : r->tower.p - x; }

/* s + a[0]·b[0] + a[1]·b[-1] + ... + a[count - 1]·b[1 - count]. */
static inline struct sum add_numbers(struct sum s, const int64_t *a, const int64_t *b, int64_t count)
{
    int64_t j = 0;
    for (; j + 3 < count; j += 4)
        fold(&s, residue(a[j]) * residue(b[-j]) + residue(a[j + 1]) * residue(b[-j - 1]) +
                     residue(a[j + 2]) * residue(b[-j - 2]) + residue(a[j + 3]) * residue(b[-j - 3]));
    if (j < count) {
        uint64_t products = residue(a[j]) * residue(b[-j]);
        if (j + 1 < count)
            products += residue(a[j + 1]) * residue(b[-j - 1]);
        if (j + 2 < count)
            products += residue(a[j + 2]) * residue(b[-j - 2]);
        fold(&s, products);
    }
    return s;
}

/* The leaf for that d_1. */
leaf *tuned_leaf(int64_t d);

/* r := the tower whose polynomials lie in those words, made ready. */
void tuned_find_ring(struct ring *r, int64_t p, int64_t n, const int64_t degrees[4], const int64_t *words);

/* out := start + a[0]·b[0] + a[1]·b[-1] + ... over count pairs of elements of that level; no start is zero. out may be
   one of the others. */
void tuned_add_products(const struct ring *r, int level, const int64_t *a, const int64_t *b, int64_t count,
                        const int64_t *start, int64_t *out, int64_t *work);

/* out := x·y, elements of that level; out may be one of them. */
static inline void multiply_element(const struct ring *r, int level, const int64_t *x, const int64_t *y, int64_t *out,
                                    int64_t *work)
{
    if (level == 0)
        out[0] = (int64_t)(residue(x[0]) * residue(y[0]) % r->tower.p);
    else
        tuned_add_products(r, level, x, y, 1, NULL, out, work);
}

/* a := the remainder of a by b, polynomials over that level; a's degree word is not asked, nothing stands above
   coefficient top. b's leading coefficient has that inverse; no inverse is 1. The quotient, negated, stays in a's
   coefficients from deg b on. */
void tuned_divide(const struct ring *r, int level, int64_t *a, int64_t top, const int64_t *b, const int64_t *inverse,
                  int64_t *work);

/* The calls for inverse and GCD. */
inverse_call tuned_inverse;
gcd_call tuned_gcd;

#endif

/* Baseline: product and division by a tuned design.

   A sum of products in level N is made word by word of the result: for each place (k_N, ..., k_2) of its
   coefficients, all products of level-1 elements that meet there are added up, and only then reduced modulo m_1;
   then the reductions modulo m_2 to m_N follow. No product is made whole. tuned.h says how numbers are added up.

   Over numbers, a remainder by a polynomial of one degree less, the common one in a remainder sequence, has a loop of
   its own. Nothing is checked. */
#include "tuned.h"

/* The sum of a[0]·b[0], a[1]·b[-1], a[2]·b[-2], ... over count pairs of elements of that level, a and b counted in
   elements; and the place in it that is being made: coefficient index[i] in each level i from 2 up. */
struct job {
    const int64_t *a, *b;
    int64_t count;
    int level;
    int64_t index[5];
};

void tuned_find_ring(struct ring *r, int64_t p, int64_t n, const int64_t degrees[4], const int64_t *words)
{
    find_tower(&r->tower, p, n, degrees, words);
    r->two32 = ((uint64_t)1 << 32) % r->tower.p;
    r->two64 = r->two32 * r->two32 % r->tower.p;
    const int bits = 64 - __builtin_clzll(r->tower.p);
    r->reciprocal = (struct reciprocal){r->tower.p, ((uint64_t)1 << 2 * bits) / r->tower.p, bits};
    r->add_pairs = tuned_leaf(degrees[0]);
}

/* out := t modulo m_1, for d_1 = 2. */
static void reduce_quadratic(const struct ring *r, struct sums t, int64_t *out)
{
    const int64_t *m = r->tower.polynomial[1] + 1;
    const uint64_t quotient = negated(r, reduced(r, load(t, 2)));
    struct sum t0 = load(t, 0), t1 = load(t, 1);
    fold(&t0, residue(m[0]) * quotient);
    fold(&t1, residue(m[1]) * quotient);
    out[1] = (int64_t)reduced(r, t0);
    out[2] = (int64_t)reduced(r, t1);
    settle_degree(&r->tower, 0, out, 1);
}

/* out := t, of degree 2·d_1 - 2, modulo m_1. The quotient, negated, replaces t's low words from d_1 on. */
static void reduce(const struct ring *r, struct sums t, int64_t *out)
{
    const int64_t d = r->tower.degree[1], top = 2 * d - 2, *m = r->tower.polynomial[1] + 1;
    int64_t *quotient = (int64_t *)t.lo;
    for (int64_t k = top; k >= d; k--) {
        const int64_t first = excess(k, top - d);
        const struct sum s = add_numbers(load(t, k), m + first, quotient + k - first + d, d - first);
        quotient[k] = (int64_t)negated(r, reduced(r, s));
    }
    for (int64_t k = d - 1; k >= 0; k--) {
        const int64_t first = excess(k, top - d);
        const struct sum s = add_numbers(load(t, k), m + first, quotient + k - first + d, k - first + 1);
        out[1 + k] = (int64_t)reduced(r, s);
    }
    settle_degree(&r->tower, 0, out, d - 1);
}

/* Adds to t the products of level-1 elements that meet at the job's place in a·b, elements of that level. */
static void gather(const struct ring *r, const struct job *job, int level, const int64_t *a, const int64_t *b,
                   struct sums t)
{
    const int64_t k = job->index[level], size = r->tower.size[level - 1];
    const int64_t first = excess(k, b[0]), last = lesser(k, a[0]);
    if (level == 2) {
        if (first <= last)
            r->add_pairs(t, r->tower.size[1], a + 1 + first * size, b + 1 + (k - first) * size, last - first + 1);
        return;
    }
    for (int64_t i = first; i <= last; i++)
        gather(r, job, level - 1, a + 1 + i * size, b + 1 + (k - i) * size, t);
}

/* out := start + the job's sum at its place in level 1; no start is zero. */
static void make_leaf(const struct ring *r, const struct job *job, const int64_t *start, int64_t *out, int64_t *work)
{
    const int64_t d = r->tower.degree[1], size = r->tower.size[job->level];
    const struct sums t = {(uint64_t *)work, (uint64_t *)work + 2 * d - 1};
    memset(work, 0, (size_t)(4 * d - 2) * sizeof *work);
    if (start)
        copy_words(work, start + 1, d);
    if (job->level == 1)
        r->add_pairs(t, r->tower.size[1], job->a, job->b, job->count);
    else
        for (int64_t u = 0; u < job->count; u++)
            gather(r, job, job->level, job->a + u * size, job->b - u * size, t);
    if (d == 2)
        reduce_quadratic(r, t, out);
    else
        reduce(r, t, out);
}

/* out := start + the job's sum at its place in that level; no start is zero. */
static void make(const struct ring *r, struct job *job, int level, const int64_t *start, int64_t *out, int64_t *work)
{
    if (level == 1) {
        make_leaf(r, job, start, out, work);
        return;
    }
    const int64_t d = r->tower.degree[level], size = r->tower.size[level - 1];
    int64_t *rest = work + polynomial_words(&r->tower, level - 1, 2 * d - 2);
    for (int64_t k = 0; k <= 2 * d - 2; k++) {
        job->index[level] = k;
        make(r, job, level - 1, start && k < d ? start + 1 + k * size : NULL, work + 1 + k * size, rest);
    }
    tuned_divide(r, level - 1, work, 2 * d - 2, r->tower.polynomial[level], NULL, rest);
    copy_words(out, work, 1 + d * size);
}

void tuned_add_products(const struct ring *r, int level, const int64_t *a, const int64_t *b, int64_t count,
                        const int64_t *start, int64_t *out, int64_t *work)
{
    if (level == 0) {
        const struct sum s = {start ? (uint64_t)start[0] : 0, 0};
        out[0] = (int64_t)reduced(r, add_numbers(s, a, b, count));
        return;
    }
    struct job job = {.a = a, .b = b, .count = count, .level = level};
    make(r, &job, level, start, out, work);
}

/* element := -element. */
static void negate(const struct ring *r, int level, int64_t *element)
{
    if (level == 0) {
        element[0] = (int64_t)negated(r, (uint64_t)element[0]);
        return;
    }
    for (int64_t j = 0; j <= element[0]; j++)
        negate(r, level - 1, element + 1 + j * r->tower.size[level - 1]);
}

/* x - y, or x if that is negative, without a branch. Both are below 2^63. */
static inline uint64_t less(uint64_t x, uint64_t y)
{
    const int64_t difference = (int64_t)(x - y);
    return (uint64_t)(difference + ((int64_t)y & difference >> 63));
}

/* x modulo p, x below p². The quotient that the reciprocal gives is at most 2 too small. */
static inline uint64_t reduced_short(struct reciprocal by, uint64_t x)
{
    const uint64_t quotient = residue((int64_t)(x >> (by.bits - 1))) * by.value >> (by.bits + 1);
    return less(less(x - residue((int64_t)quotient) * by.p, 2 * by.p), by.p);
}

/* a := a + (u·x + v)·b in the coefficients from 1 to deg b - 1, polynomials over level 0; v and u stand in a from
   deg b on. No coefficient waits for another, so a compiler can make several at once. */
static void add_linear_multiple(const struct ring *r, int64_t *a, const int64_t *b)
{
    const struct reciprocal by = r->reciprocal;
    const int64_t b_degree = b[0];
    const uint64_t v = residue(a[1 + b_degree]), u = residue(a[2 + b_degree]), p_squared = by.p * by.p;
    for (int64_t k = 1; k < b_degree; k++) {
        const uint64_t sum = (uint64_t)a[1 + k] + v * residue(b[1 + k]) + u * residue(b[k]);
        a[1 + k] = (int64_t)reduced_short(by, less(sum, p_squared));
    }
}

void tuned_divide(const struct ring *r, int level, int64_t *a, int64_t top, const int64_t *b, const int64_t *inverse,
                  int64_t *work)
{
    const int64_t b_degree = b[0], size = r->tower.size[level];
    while (top >= b_degree && is_zero(level, a + 1 + top * size))
        top--;
    const int64_t q_degree = top - b_degree;
    for (int64_t k = top; k >= b_degree; k--) {
        const int64_t first = excess(k, q_degree);
        int64_t *a_k = a + 1 + k * size;
        if (first < b_degree)
            tuned_add_products(r, level, b + 1 + first * size, a + 1 + (k - first + b_degree) * size, b_degree - first,
                               a_k, a_k, work);
        if (inverse)
            multiply_element(r, level, a_k, inverse, a_k, work);
        negate(r, level, a_k);
    }
    int64_t k = q_degree < 0 ? -1 : b_degree - 1;
    if (level == 0 && q_degree == 1) {
        add_linear_multiple(r, a, b);
        k = lesser(k, 0);
    }
    for (; k >= 0; k--) {
        const int64_t first = excess(k, q_degree);
        int64_t *a_k = a + 1 + k * size;
        tuned_add_products(r, level, b + 1 + first * size, a + 1 + (k - first + b_degree) * size, k - first + 1, a_k,
                           a_k, work);
    }
    settle_degree(&r->tower, level, a, lesser(top, b_degree - 1));
}

/* The call for product: c := a·b, the whole slot c written. */
static size_t product(int64_t p, int64_t n, const int64_t degrees[4], const int64_t *tower, size_t tower_len,
                       const int64_t *a, size_t a_len, const int64_t *b, size_t b_len, int64_t *c, size_t c_len,
                       int64_t *work, size_t work_len)
{
    (void)tower_len, (void)a_len, (void)b_len, (void)work_len;
    struct ring r;
    tuned_find_ring(&r, p, n, degrees, tower);
    const int level = r.tower.levels;
    const int64_t size = r.tower.size[level], c_degree = a[0] < 0 || b[0] < 0 ? -1 : a[0] + b[0];
    for (int64_t k = 0; k <= c_degree; k++) {
        const int64_t first = excess(k, b[0]), last = lesser(k, a[0]);
        tuned_add_products(&r, level, a + 1 + first * size, b + 1 + (k - first) * size, last - first + 1, NULL,
                           c + 1 + k * size, work);
    }
    settle_degree(&r.tower, level, c, c_degree);
    set_zeros(&r.tower, level, c, c_degree + 1, room(&r.tower, c_len));
    return 0;
}

/* The call for division: q := the quotient, a := the remainder, both slots written whole. */
static size_t division(int64_t p, int64_t n, const int64_t degrees[4], const int64_t *tower, size_t tower_len,
                        int64_t *a, size_t a_len, const int64_t *b, size_t b_len, int64_t *q, size_t q_len,
                        int64_t *work, size_t work_len)
{
    (void)tower_len, (void)a_len, (void)b_len, (void)work_len;
    struct ring r;
    tuned_find_ring(&r, p, n, degrees, tower);
    const int level = r.tower.levels;
    const int64_t a_degree = a[0], b_degree = b[0], q_degree = greater(-1, a_degree - b_degree);
    const int64_t size = r.tower.size[level];
    tuned_divide(&r, level, a, a_degree, b, NULL, work);
    q[0] = q_degree;
    copy_words(q + 1, a + 1 + b_degree * size, (q_degree + 1) * size);
    for (int64_t k = 0; k <= q_degree; k++)
        negate(&r, level, q + 1 + k * size);
    set_zeros(&r.tower, level, a, b_degree, a_degree + 1);
    set_zeros(&r.tower, level, q, q_degree + 1, room(&r.tower, q_len));
    return 0;
}

const struct contender tuned = {"tuned", product, division, tuned_inverse, tuned_gcd};

/* Baseline: product and division by the algorithm of document 001 as published, IP_MUL and IP_REM, and the two small
   ones that inverse and GCD use, IP_SCAL_MUL and IP_LIN.

   A coefficient of the result is a sum of products of coefficients (the Cauchy product). Each product is made
   one level down into T2, whole, and added to T1; T1 is reduced modulo m_N once, at the end of the sum.
   At level 0 the sum of products is kept below p² and taken modulo p once.

   What 001 misprints is repaired: a level's stride, which is S_(r-1), the direction of copies in lines 11 and 21, the
   loop of IP_REM, which counts i, and IP_LIN, which gives c - a·b. Words above a degree are left in form, as document
   01 asks. Nothing is checked. */
#include "published.h"

/* x + y modulo p, both below p, or one of them p. */
static inline int64_t sum_of_numbers(const struct tower *t, int64_t x, int64_t y)
{
    const uint64_t sum = (uint64_t)x + (uint64_t)y;
    return (int64_t)(sum >= t->p ? sum - t->p : sum);
}

/* x - y modulo p, both below p. */
static inline int64_t difference_of_numbers(const struct tower *t, int64_t x, int64_t y)
{
    return sum_of_numbers(t, x, (int64_t)t->p - y);
}

/* x := x + y, elements of that level. */
static void add_element(const struct tower *t, int level, int64_t *x, const int64_t *y)
{
    if (level == 0) {
        x[0] = sum_of_numbers(t, x[0], y[0]);
        return;
    }
    const int64_t size = t->size[level - 1], y_degree = y[0], top = greater(x[0], y_degree);
    for (int64_t j = 0; j <= y_degree; j++)
        add_element(t, level - 1, x + 1 + j * size, y + 1 + j * size);
    settle_degree(t, level - 1, x, top);
}

/* x := x - y, elements of that level. */
static void subtract_element(const struct tower *t, int level, int64_t *x, const int64_t *y)
{
    if (level == 0) {
        x[0] = difference_of_numbers(t, x[0], y[0]);
        return;
    }
    const int64_t size = t->size[level - 1], y_degree = y[0], top = greater(x[0], y_degree);
    for (int64_t j = 0; j <= y_degree; j++)
        subtract_element(t, level - 1, x + 1 + j * size, y + 1 + j * size);
    settle_degree(t, level - 1, x, top);
}

/* x := -x, an element of that level. */
static void negate_element(const struct tower *t, int level, int64_t *x)
{
    if (level == 0) {
        x[0] = x[0] == 0 ? 0 : (int64_t)t->p - x[0];
        return;
    }
    for (int64_t j = 0; j <= x[0]; j++)
        negate_element(t, level - 1, x + 1 + j * t->size[level - 1]);
}

/* IP_ADD: x := x + y, polynomials over that level. The words above x's degree may be anything. */
static void add_polynomial(const struct tower *t, int level, int64_t *x, const int64_t *y)
{
    const int64_t size = t->size[level], x_degree = x[0], y_degree = y[0];
    for (int64_t j = 0; j <= y_degree; j++)
        if (j <= x_degree)
            add_element(t, level, x + 1 + j * size, y + 1 + j * size);
        else
            copy_words(x + 1 + j * size, y + 1 + j * size, size);
    settle_degree(t, level, x, greater(x_degree, y_degree));
}

/* IP_SUB: x := x - y, polynomials over that level. The words above x's degree may be anything. */
static void subtract_polynomial(const struct tower *t, int level, int64_t *x, const int64_t *y)
{
    const int64_t size = t->size[level], x_degree = x[0], y_degree = y[0];
    for (int64_t j = 0; j <= y_degree; j++)
        if (j <= x_degree) {
            subtract_element(t, level, x + 1 + j * size, y + 1 + j * size);
        } else {
            copy_words(x + 1 + j * size, y + 1 + j * size, size);
            negate_element(t, level, x + 1 + j * size);
        }
    settle_degree(t, level, x, greater(x_degree, y_degree));
}

/* sum + a·b, less p² if that is not negative: below p² again. The sign decides; of a comparison with p² clang makes a
   branch here, which nothing predicts. 2p² is below 2^63. */
static inline int64_t add_product(int64_t sum, int64_t a, int64_t b, int64_t p_squared)
{
    sum += a * b;
    const int64_t less = sum - p_squared;
    return less < 0 ? sum : less;
}

/* IP_MUL_NO_EXT: c := a·b, polynomials over level 0. */
static void multiply_numbers(const struct tower *t, const int64_t *a, const int64_t *b, int64_t *c)
{
    const int64_t p_squared = (int64_t)(t->p * t->p);
    const int64_t a_degree = a[0], b_degree = b[0];
    for (int64_t k = 0; k <= a_degree + b_degree; k++) {
        const int64_t first = excess(k, b_degree), last = lesser(k, a_degree);
        int64_t sum = 0;
        for (int64_t i = first; i <= last; i++)
            sum = add_product(sum, a[1 + i], b[1 + k - i], p_squared);
        c[1 + k] = (int64_t)((uint64_t)sum % t->p);
    }
    settle_degree(t, 0, c, a_degree + b_degree);
}

/* IP_REM_NO_EXT: a := the remainder of a by the monic b, polynomials over level 0; the quotient stays above it. */
static void divide_numbers(const struct tower *t, int64_t *a, const int64_t *b)
{
    const int64_t p_squared = (int64_t)(t->p * t->p);
    const int64_t a_degree = a[0], b_degree = b[0], q_degree = a_degree - b_degree;
    for (int64_t k = a_degree; k >= 0; k--) {
        const int64_t first = excess(k, q_degree), last = lesser(k, b_degree - 1);
        int64_t sum = 0;
        for (int64_t i = first; i <= last; i++)
            sum = add_product(sum, a[1 + k - i + b_degree], b[1 + i], p_squared);
        a[1 + k] = difference_of_numbers(t, a[1 + k], (int64_t)((uint64_t)sum % t->p));
    }
    settle_degree(t, 0, a, b_degree - 1);
}

/* T1 modulo m_level, put into an element of that level. */
static void put_reduced(const struct tower *t, int level, int64_t *t1, int64_t *element, int64_t *work)
{
    published_divide(t, level - 1, t1, t->polynomial[level], work);
    put_element(t, level, t1, element);
}

/* IP_MUL: c := a·b, polynomials over that level. Only the coefficients of c up to deg a + deg b are written. */
static void multiply(const struct tower *t, int level, const int64_t *a, const int64_t *b, int64_t *c, int64_t *work)
{
    const int64_t a_degree = a[0], b_degree = b[0], size = t->size[level];
    if (a_degree < 0 || b_degree < 0) {
        c[0] = -1;
        return;
    }
    if (level == 0) {
        multiply_numbers(t, a, b, c);
        return;
    }
    const int64_t words = polynomial_words(t, level - 1, 2 * t->degree[level] - 2);
    int64_t *t1 = work, *t2 = work + words, *rest = work + 2 * words;
    for (int64_t k = 0; k <= a_degree + b_degree; k++) {
        const int64_t first = excess(k, b_degree), last = lesser(k, a_degree);
        t1[0] = -1;
        for (int64_t i = first; i <= last; i++) {
            multiply(t, level - 1, a + 1 + i * size, b + 1 + (k - i) * size, t2, rest);
            add_polynomial(t, level - 1, t1, t2);
        }
        put_reduced(t, level, t1, c + 1 + k * size, rest);
    }
    settle_degree(t, level, c, a_degree + b_degree);
}

void published_divide(const struct tower *t, int level, int64_t *a, const int64_t *b, int64_t *work)
{
    const int64_t a_degree = a[0], b_degree = b[0], q_degree = a_degree - b_degree, size = t->size[level];
    if (q_degree < 0)
        return;
    if (level == 0) {
        divide_numbers(t, a, b);
        return;
    }
    const int64_t words = polynomial_words(t, level - 1, 2 * t->degree[level] - 2);
    int64_t *t1 = work, *t2 = work + words, *rest = work + 2 * words;
    for (int64_t k = a_degree; k >= 0; k--) {
        const int64_t first = excess(k, q_degree), last = lesser(k, b_degree - 1);
        int64_t *a_k = a + 1 + k * size;
        copy_words(t1, a_k, polynomial_words(t, level - 1, a_k[0]));
        for (int64_t i = first; i <= last; i++) {
            multiply(t, level - 1, a + 1 + (k - i + b_degree) * size, b + 1 + i * size, t2, rest);
            subtract_polynomial(t, level - 1, t1, t2);
        }
        put_reduced(t, level, t1, a_k, rest);
    }
    settle_degree(t, level, a, b_degree - 1);
}

/* x := x·y, elements of that level. */
static void multiply_element(const struct tower *t, int level, int64_t *x, const int64_t *y, int64_t *work)
{
    if (level == 0) {
        x[0] = (int64_t)((uint64_t)x[0] * (uint64_t)y[0] % t->p);
        return;
    }
    int64_t *rest = work + polynomial_words(t, level - 1, 2 * t->degree[level] - 2);
    multiply(t, level - 1, x, y, work, rest);
    put_reduced(t, level, work, x, rest);
}

void published_scale(const struct tower *t, int level, int64_t *a, const int64_t *scalar, int64_t *work)
{
    const int64_t a_degree = a[0];
    for (int64_t k = 0; k <= a_degree; k++)
        multiply_element(t, level, a + 1 + k * t->size[level], scalar, work);
    settle_degree(t, level, a, a_degree);
}

/* IP_LIN over level 0. */
static void subtract_product_of_numbers(const struct tower *t, int64_t *c, const int64_t *a, int64_t a_degree,
                                        const int64_t *b)
{
    const int64_t p_squared = (int64_t)(t->p * t->p), b_degree = b[0], top = a_degree + b_degree;
    set_zeros(t, 0, c, c[0] + 1, top + 1);
    for (int64_t k = 0; k <= top; k++) {
        const int64_t first = excess(k, b_degree), last = lesser(k, a_degree);
        int64_t sum = 0;
        for (int64_t i = first; i <= last; i++)
            sum = add_product(sum, a[i], b[1 + k - i], p_squared);
        c[1 + k] = difference_of_numbers(t, c[1 + k], (int64_t)((uint64_t)sum % t->p));
    }
    settle_degree(t, 0, c, greater(c[0], top));
}

void published_subtract_product(const struct tower *t, int level, int64_t *c, const int64_t *a, int64_t a_degree,
                                const int64_t *b, int64_t *work)
{
    const int64_t b_degree = b[0], size = t->size[level], top = a_degree + b_degree;
    if (level == 0) {
        subtract_product_of_numbers(t, c, a, a_degree, b);
        return;
    }
    const int64_t words = polynomial_words(t, level - 1, 2 * t->degree[level] - 2);
    int64_t *t1 = work, *t2 = work + words, *rest = work + 2 * words;
    set_zeros(t, level, c, c[0] + 1, top + 1);
    for (int64_t k = 0; k <= top; k++) {
        const int64_t first = excess(k, b_degree), last = lesser(k, a_degree);
        int64_t *c_k = c + 1 + k * size;
        copy_words(t1, c_k, polynomial_words(t, level - 1, c_k[0]));
        for (int64_t i = first; i <= last; i++) {
            multiply(t, level - 1, a + i * size, b + 1 + (k - i) * size, t2, rest);
            subtract_polynomial(t, level - 1, t1, t2);
        }
        put_reduced(t, level, t1, c_k, rest);
    }
    settle_degree(t, level, c, greater(c[0], top));
}

/* The call for product: c := a·b, the whole slot c written. */
static size_t product(int64_t p, int64_t n, const int64_t degrees[4], const int64_t *tower, size_t tower_len,
                       const int64_t *a, size_t a_len, const int64_t *b, size_t b_len, int64_t *c, size_t c_len,
                       int64_t *work, size_t work_len)
{
    (void)tower_len, (void)a_len, (void)b_len, (void)work_len;
    struct tower t;
    find_tower(&t, p, n, degrees, tower);
    const int64_t written = a[0] < 0 || b[0] < 0 ? 0 : a[0] + b[0] + 1;
    multiply(&t, t.levels, a, b, c, work);
    set_zeros(&t, t.levels, c, written, room(&t, c_len));
    return 0;
}

/* The call for division: q := the quotient, a := the remainder, both slots written whole. */
static size_t division(int64_t p, int64_t n, const int64_t degrees[4], const int64_t *tower, size_t tower_len,
                        int64_t *a, size_t a_len, const int64_t *b, size_t b_len, int64_t *q, size_t q_len,
                        int64_t *work, size_t work_len)
{
    (void)tower_len, (void)a_len, (void)b_len, (void)work_len;
    struct tower t;
    find_tower(&t, p, n, degrees, tower);
    const int64_t a_degree = a[0], b_degree = b[0], q_degree = greater(-1, a_degree - b_degree);
    published_divide(&t, t.levels, a, b, work);
    q[0] = q_degree;
    copy_words(q + 1, a + 1 + b_degree * t.size[t.levels], (q_degree + 1) * t.size[t.levels]);
    set_zeros(&t, t.levels, a, b_degree, a_degree + 1);
    set_zeros(&t, t.levels, q, q_degree + 1, room(&t, q_len));
    return 0;
}

const struct contender published = {"published", product, division, published_inverse, published_gcd};

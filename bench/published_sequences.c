/* Baseline: inverse and GCD by the algorithms of document 001 as published, IP_INV and IP_GCD.

   Every polynomial of a remainder sequence is made monic: its leading coefficient is inverted, and all its coefficients
   and its cofactor's are multiplied by that. Then the other is divided by it, and the cofactors follow. The sequence
   ends when a remainder is zero.

   What 001 misprints in IP_INV is repaired: its slots have P(d_N, N - 1) words, not one less; its polynomials are over
   level N - 1, not N; a factor is one of m_N, not of m_(N-1), and is put where the others are. It begins with (m_N, a),
   not (a, m_N): the first pass of 001 only multiplies by 1 and changes the two.

   As document 01 asks, the sequences go down to the inverse of a number, a fifth slot stands for the answer's, which
   must survive a factor, and the GCD works on copies. Nothing is checked. */
#include "published.h"

/* The extended Euclid on p and c: the inverse, or the factor that c shares with p. */
static size_t invert_number(const struct tower *t, int64_t c, int64_t *inverse, int64_t *factor)
{
    const int64_t p = (int64_t)t->p;
    int64_t r1 = p, r2 = c, s1 = 0, s2 = 1;
    while (r2 != 0) {
        const int64_t q = r1 / r2, r = r1 - q * r2, s = s1 - q * s2;
        r1 = r2, r2 = r, s1 = s2, s2 = s;
    }
    if (r1 > 1) {
        *factor = r1;
        return 100;
    }
    *inverse = s1 < 0 ? s1 + p : s1;
    return 0;
}

/* Interchanges two slots. */
static void swap(int64_t **x, int64_t **y)
{
    int64_t *const z = *x;
    *x = *y;
    *y = z;
}

/* IP_INV: the inverse of c, an element of that level that is not zero. Or a factor, and its number. */
static size_t invert(const struct tower *t, int level, const int64_t *c, int64_t *inverse, int64_t *factor,
                     int64_t *work)
{
    if (level == 0)
        return invert_number(t, c[0], inverse, factor);
    if (is_one(level, c)) {
        copy_words(inverse, c, t->size[level]);
        return 0;
    }
    const int64_t words = polynomial_words(t, level - 1, t->degree[level]), size = t->size[level - 1];
    int64_t *r1 = work, *r2 = r1 + words, *s1 = r2 + words, *s2 = s1 + words, *scalar = s2 + words;
    int64_t *rest = scalar + words;
    copy_words(r1, t->polynomial[level], words);
    copy_words(r2, c, t->size[level]);
    s1[0] = -1;
    s2[0] = 0;
    set_one(t, level - 1, s2 + 1);
    while (r2[0] >= 0) {
        const size_t number = invert(t, level - 1, leading(t, level - 1, r2), scalar, factor, rest);
        if (number != 0)
            return number;
        published_scale(t, level - 1, r2, scalar, rest);
        published_scale(t, level - 1, s2, scalar, rest);
        const int64_t q_degree = r1[0] - r2[0];
        published_divide(t, level - 1, r1, r2, rest);
        published_subtract_product(t, level - 1, s1, r1 + 1 + r2[0] * size, q_degree, s2, rest);
        swap(&r1, &r2);
        swap(&s1, &s2);
    }
    if (r1[0] > 0) {
        put_element(t, level, r1, factor);
        return 100 + (size_t)level;
    }
    put_element(t, level, s1, inverse);
    return 0;
}

/* Makes a polynomial monic if it is not zero. Or a factor, and its number. */
static size_t make_monic(const struct tower *t, int64_t *a, int64_t *scalar, int64_t *factor, int64_t *work)
{
    if (a[0] < 0)
        return 0;
    const size_t number = invert(t, t->levels, leading(t, t->levels, a), scalar, factor, work);
    if (number == 0)
        published_scale(t, t->levels, a, scalar, work);
    return number;
}

/* The call for inverse: r := the inverse of c. */
size_t published_inverse(int64_t p, int64_t n, const int64_t degrees[4], const int64_t *tower, size_t tower_len,
                         const int64_t *c, size_t c_len, int64_t *r, size_t r_len, int64_t *factor, size_t factor_len,
                         int64_t *work, size_t work_len)
{
    (void)tower_len, (void)c_len, (void)r_len, (void)work_len;
    struct tower t;
    find_tower(&t, p, n, degrees, tower);
    return told(&t, invert(&t, t.levels, c, r, factor, work), factor, factor_len);
}

/* The call for GCD, IP_GCD: g := the monic GCD of a and b, the whole slot g written. */
size_t published_gcd(int64_t p, int64_t n, const int64_t degrees[4], const int64_t *tower, size_t tower_len,
                     const int64_t *a, size_t a_len, const int64_t *b, size_t b_len, int64_t *g, size_t g_len,
                     int64_t *factor, size_t factor_len, int64_t *work, size_t work_len)
{
    (void)tower_len, (void)a_len, (void)b_len, (void)work_len;
    struct tower t;
    find_tower(&t, p, n, degrees, tower);
    const int64_t a_words = polynomial_words(&t, t.levels, a[0]), b_words = polynomial_words(&t, t.levels, b[0]);
    int64_t *r1 = work, *r2 = r1 + a_words, *scalar = r2 + b_words, *rest = scalar + 2 * t.size[t.levels];
    copy_words(r1, a, a_words);
    copy_words(r2, b, b_words);
    size_t number = make_monic(&t, r1, scalar, factor, rest);
    while (number == 0 && r2[0] >= 0) {
        number = make_monic(&t, r2, scalar, factor, rest);
        if (number == 0) {
            published_divide(&t, t.levels, r1, r2, rest);
            swap(&r1, &r2);
        }
    }
    if (number != 0)
        return told(&t, number, factor, factor_len);
    copy_words(g, r1, polynomial_words(&t, t.levels, r1[0]));
    set_zeros(&t, t.levels, g, r1[0] + 1, room(&t, g_len));
    return 0;
}

/* Baseline: inverse and GCD by the tuned design.

   No remainder is made monic. Beside each stands the inverse of its leading coefficient, and a division by it
   multiplies only the quotient by that. Where f and g stand with u and v, document 01 has the monic u·f and v·g. Its
   remainder of these is u times the remainder of f by g, so what is inverted next is u times that one's leading
   coefficient. Answers and shown factors are those of document 01; only the last polynomial is made monic.
   Nothing is checked. */
#include "tuned.h"

/* A polynomial of a sequence, the inverse of its leading coefficient, and, for an inverse of c, the cofactor s for
   which s·c is the polynomial modulo m. */
struct row {
    int64_t *polynomial, *inverse, *cofactor;
};

/* The extended Euclid on p and c: the inverse, or the factor that c shares with p. Divisions are of 32 bits. */
static size_t invert_number(const struct ring *r, int64_t c, int64_t *inverse, int64_t *factor)
{
    uint32_t r1 = (uint32_t)r->tower.p, r2 = (uint32_t)c;
    int64_t s1 = 0, s2 = 1;
    while (r2 != 0) {
        const uint32_t q = r1 / r2, rest = r1 - q * r2;
        const int64_t s = s1 - (int64_t)q * s2;
        r1 = r2, r2 = rest, s1 = s2, s2 = s;
    }
    if (r1 > 1) {
        *factor = r1;
        return 100;
    }
    *inverse = s1 < 0 ? s1 + (int64_t)r->tower.p : s1;
    return 0;
}

/* a := scalar·a, a polynomial over that level; the scalar has an inverse, so the degree stays. */
static void scale(const struct ring *r, int level, int64_t *a, const int64_t *scalar, int64_t *work)
{
    if (is_one(level, scalar))
        return;
    for (int64_t k = 0; k <= a[0]; k++) {
        int64_t *a_k = a + 1 + k * r->tower.size[level];
        multiply_element(r, level, a_k, scalar, a_k, work);
    }
}

/* c := c + a·b, polynomials over that level, whose leading product is not zero and stands above c's degree. a is its
   coefficients, from 0 to a_degree. */
static void add_product(const struct ring *r, int level, int64_t *c, const int64_t *a, int64_t a_degree,
                        const int64_t *b, int64_t *work)
{
    const int64_t size = r->tower.size[level], b_degree = b[0];
    for (int64_t k = 0; k <= a_degree + b_degree; k++) {
        const int64_t first = excess(k, b_degree), count = lesser(k, a_degree) - first + 1;
        int64_t *c_k = c + 1 + k * size;
        tuned_add_products(r, level, a + first * size, b + 1 + (k - first) * size, count, k <= c[0] ? c_k : NULL, c_k,
                           work);
    }
    c[0] = a_degree + b_degree;
}

static size_t invert(const struct ring *r, int level, const int64_t *c, int64_t *inverse, int64_t *factor,
                     int64_t *work);

/* f := the remainder of f by g, rows over that level. Or a factor, and its number. The words of the quotient hold, when
   it is used up, what is inverted. */
static size_t take_remainder(const struct ring *r, int level, const struct row *f, const struct row *g, int64_t *factor,
                             int64_t *work)
{
    const int64_t g_degree = g->polynomial[0], q_degree = f->polynomial[0] - g_degree;
    if (q_degree < 0)
        return 0;
    int64_t *quotient = f->polynomial + 1 + g_degree * r->tower.size[level];
    tuned_divide(r, level, f->polynomial, f->polynomial[0], g->polynomial, g->inverse, work);
    if (f->polynomial[0] < 0)
        return 0;
    if (f->cofactor)
        add_product(r, level, f->cofactor, quotient, q_degree, g->cofactor, work);
    multiply_element(r, level, f->inverse, leading(&r->tower, level, f->polynomial), quotient, work);
    const size_t number = invert(r, level, quotient, quotient, factor, work);
    if (number == 0)
        multiply_element(r, level, f->inverse, quotient, f->inverse, work);
    return number;
}

/* One step of a sequence: (f, g) becomes (g, the remainder of f by g). Or a factor, and its number. */
static size_t follow(const struct ring *r, int level, struct row *f, struct row *g, int64_t *factor, int64_t *work)
{
    const size_t number = take_remainder(r, level, f, g, factor, work);
    const struct row h = *f;
    *f = *g;
    *g = h;
    return number;
}

/* The inverse of c, an element of that level that is not zero; it may replace c. Or a factor, and its number. */
static size_t invert(const struct ring *r, int level, const int64_t *c, int64_t *inverse, int64_t *factor,
                     int64_t *work)
{
    const struct tower *t = &r->tower;
    if (level == 0)
        return invert_number(r, c[0], inverse, factor);
    if (is_one(level, c)) {
        memmove(inverse, c, (size_t)t->size[level] * sizeof *c);
        return 0;
    }
    const int64_t words = polynomial_words(t, level - 1, t->degree[level]);
    struct row f = {work, work + 4 * words, work + words};
    struct row g = {work + 2 * words, f.inverse + t->size[level - 1], work + 3 * words};
    int64_t *rest = work + 5 * words;
    copy_words(f.polynomial, t->polynomial[level], words);
    copy_words(g.polynomial, c, t->size[level]);
    set_one(t, level - 1, f.inverse);
    f.cofactor[0] = -1;
    g.cofactor[0] = 0;
    set_one(t, level - 1, g.cofactor + 1);
    size_t number = invert(r, level - 1, leading(t, level - 1, c), g.inverse, factor, rest);
    while (number == 0 && g.polynomial[0] > 0)
        number = follow(r, level - 1, &f, &g, factor, rest);
    if (number != 0)
        return number;
    if (g.polynomial[0] < 0) {
        scale(r, level - 1, f.polynomial, f.inverse, rest);
        put_element(t, level, f.polynomial, factor);
        return 100 + (size_t)level;
    }
    scale(r, level - 1, g.cofactor, g.inverse, rest);
    put_element(t, level, g.cofactor, inverse);
    return 0;
}

/* The inverse that belongs to a row of the GCD, if its polynomial is not zero. Or a factor, and its number. */
static size_t begin(const struct ring *r, const struct row *f, int64_t *factor, int64_t *work)
{
    const int level = r->tower.levels;
    if (f->polynomial[0] < 0)
        return 0;
    return invert(r, level, leading(&r->tower, level, f->polynomial), f->inverse, factor, work);
}

/* The call for inverse: r := the inverse of c. */
size_t tuned_inverse(int64_t p, int64_t n, const int64_t degrees[4], const int64_t *tower, size_t tower_len,
                     const int64_t *c, size_t c_len, int64_t *r, size_t r_len, int64_t *factor, size_t factor_len,
                     int64_t *work, size_t work_len)
{
    (void)tower_len, (void)c_len, (void)r_len, (void)work_len;
    struct ring ring;
    tuned_find_ring(&ring, p, n, degrees, tower);
    return told(&ring.tower, invert(&ring, ring.tower.levels, c, r, factor, work), factor, factor_len);
}

/* The call for GCD: g := the monic GCD of a and b, the whole slot g written. */
size_t tuned_gcd(int64_t p, int64_t n, const int64_t degrees[4], const int64_t *tower, size_t tower_len,
                 const int64_t *a, size_t a_len, const int64_t *b, size_t b_len, int64_t *g, size_t g_len,
                 int64_t *factor, size_t factor_len, int64_t *work, size_t work_len)
{
    (void)tower_len, (void)a_len, (void)b_len, (void)work_len;
    struct ring ring;
    tuned_find_ring(&ring, p, n, degrees, tower);
    const struct tower *t = &ring.tower;
    const int level = t->levels;
    const int64_t a_words = polynomial_words(t, level, a[0]), b_words = polynomial_words(t, level, b[0]);
    int64_t *inverses = work + a_words + b_words, *rest = inverses + 2 * t->size[level];
    struct row first = {work, inverses, NULL}, second = {work + a_words, inverses + t->size[level], NULL};
    copy_words(first.polynomial, a, a_words);
    copy_words(second.polynomial, b, b_words);
    size_t number = begin(&ring, &first, factor, rest);
    if (number == 0)
        number = begin(&ring, &second, factor, rest);
    while (number == 0 && second.polynomial[0] > 0)
        number = follow(&ring, level, &first, &second, factor, rest);
    if (number != 0)
        return told(t, number, factor, factor_len);
    const struct row *last = second.polynomial[0] == 0 ? &second : &first;
    if (last->polynomial[0] >= 0)
        scale(&ring, level, last->polynomial, last->inverse, rest);
    copy_words(g, last->polynomial, polynomial_words(t, level, last->polynomial[0]));
    set_zeros(t, level, g, last->polynomial[0] + 1, room(t, g_len));
    return 0;
}

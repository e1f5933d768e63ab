/* PARI: Flx over Z/p, FlxqX over an extension, which PARI does not ask to be a field. */
#include "stock.h"
#include <pari/pari.h>

static const struct operands *x;
static GEN m, a, b, c, q, r, dividend, *element, *inverse, *left, *right, *g;
static pari_sp taken; /* the stack behind the operands: each run begins there */

static GEN numbers_of(const int64_t *words)
{
    GEN poly = cgetg(words[0] + 3, t_VECSMALL);
    poly[1] = evalvarn(1);
    for (int64_t k = 0; k <= words[0]; k++)
        poly[2 + k] = words[1 + k];
    return Flx_renormalize(poly, words[0] + 3);
}

static GEN poly_of(const int64_t *words)
{
    if (x->load->n == 0)
        return numbers_of(words);
    GEN poly = cgetg(words[0] + 3, t_POL);
    poly[1] = evalsigne(1) | evalvarn(0);
    for (int64_t k = 0; k <= words[0]; k++)
        gel(poly, 2 + k) = numbers_of(words + 1 + k * (int64_t)x->element_len);
    return FlxX_renormalize(poly, words[0] + 3);
}

static void give_numbers(int64_t *words, size_t count, GEN poly)
{
    words[0] = degpol(poly);
    for (size_t k = 0; k < count; k++)
        words[1 + k] = (int64_t)k <= words[0] ? poly[2 + k] : 0;
}

static void give_poly(int64_t *words, size_t count, GEN poly)
{
    if (x->load->n == 0) {
        give_numbers(words, count, poly);
        return;
    }
    words[0] = degpol(poly);
    for (size_t k = 0; k < count; k++) {
        GEN coefficient = (int64_t)k <= words[0] ? gel(poly, 2 + k) : pol0_Flx(1);
        give_numbers(words + 1 + k * x->element_len, x->element_len - 1, coefficient);
    }
}

static void take(const struct operands *operands)
{
    static int begun;
    if (!begun)
        pari_init((size_t)1 << 28, 0);
    begun = 1;
    x = operands;
    m = x->load->n == 0 ? NULL : numbers_of(x->tower);
    a = poly_of(x->a), b = poly_of(x->b), dividend = poly_of(x->dividend);
    element = (GEN *)pari_malloc((size_t)x->inverses * sizeof(GEN));
    inverse = (GEN *)pari_malloc((size_t)x->inverses * sizeof(GEN));
    left = (GEN *)pari_malloc((size_t)x->gcds * sizeof(GEN)), right = (GEN *)pari_malloc((size_t)x->gcds * sizeof(GEN));
    g = (GEN *)pari_malloc((size_t)x->gcds * sizeof(GEN));
    for (long turn = 0; m != NULL && turn < x->inverses; turn++)
        element[turn] = numbers_of(x->element + (size_t)turn * x->element_len);
    for (long turn = 0; turn < x->gcds; turn++) {
        left[turn] = poly_of(x->left + (size_t)turn * x->short_len);
        right[turn] = poly_of(x->right + (size_t)turn * x->short_len);
    }
    taken = avma;
}

/* The answers stay on PARI's stack until the first turn comes again. */
static void run(int operation, long turn)
{
    const ulong p = P;
    if (turn == 0)
        set_avma(taken);
    if (operation == PRODUCT)
        c = m == NULL ? Flx_mul(a, b, p) : FlxqX_mul(a, b, m, p);
    else if (operation == DIVISION)
        q = m == NULL ? Flx_divrem(dividend, b, p, &r) : FlxqX_divrem(dividend, b, m, p, &r);
    else if (operation == INVERSE)
        inverse[turn] = m == NULL ? (GEN)Fl_inv((ulong)x->element[turn], p) : Flxq_inv(element[turn], m, p);
    else
        g[turn] = m == NULL ? Flx_normalize(Flx_gcd(left[turn], right[turn], p), p)
                            : FlxqX_normalize(FlxqX_gcd(left[turn], right[turn], m, p), m, p);
}

static void give(int operation, long turn, int64_t *answer, int64_t *remainder)
{
    const size_t n = (size_t)x->load->degree + 1;
    if (operation == PRODUCT)
        give_poly(answer, 2 * n - 1, c);
    else if (operation == INVERSE && m == NULL)
        answer[0] = (int64_t)inverse[turn];
    else if (operation == INVERSE)
        give_numbers(answer, x->element_len - 1, inverse[turn]);
    else if (operation == GCD)
        give_poly(answer, n, g[turn]);
    else {
        give_poly(answer, n, q);
        give_poly(remainder, 2 * n - 1, r);
    }
}

const struct stock pari = {"PARI", take, run, give};

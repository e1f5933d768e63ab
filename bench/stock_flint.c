/* FLINT: nmod_poly over Z/p, fq_nmod_poly over an extension, which FLINT does not ask to be a field. */
#include "stock.h"
#include <flint/fq_nmod_poly.h>
#include <flint/nmod_poly.h>
#include <stdlib.h>

static const struct operands *x;
static fq_nmod_ctx_t ring;

/* Of N = 0. */
static nmod_poly_t a0, b0, c0, q0, r0, dividend0, *left0, *right0, *g0;
static ulong *inverse0;

/* Of N = 1. */
static fq_nmod_poly_t a1, b1, c1, q1, r1, dividend1, *left1, *right1, *g1;
static fq_nmod_t *element1, *inverse1;

static void set_number_poly(nmod_poly_t poly, const int64_t *words)
{
    nmod_poly_init(poly, P);
    for (int64_t k = 0; k <= words[0]; k++)
        nmod_poly_set_coeff_ui(poly, k, (ulong)words[1 + k]);
}

static void get_number_poly(int64_t *words, size_t count, const nmod_poly_t poly)
{
    for (size_t k = 0; k < count; k++)
        words[1 + k] = (int64_t)nmod_poly_get_coeff_ui(poly, (slong)k);
    words[0] = nmod_poly_degree(poly);
}

static void set_element(fq_nmod_t element, const int64_t *words)
{
    fq_nmod_init(element, ring);
    for (int64_t j = 0; j <= words[0]; j++)
        nmod_poly_set_coeff_ui(element, j, (ulong)words[1 + j]);
}

static void get_element(int64_t *words, const fq_nmod_t element)
{
    get_number_poly(words, x->element_len - 1, element);
}

static void set_poly(fq_nmod_poly_t poly, const int64_t *words)
{
    fq_nmod_poly_init(poly, ring);
    for (int64_t k = 0; k <= words[0]; k++) {
        fq_nmod_t element;
        set_element(element, words + 1 + k * (int64_t)x->element_len);
        fq_nmod_poly_set_coeff(poly, k, element, ring);
        fq_nmod_clear(element, ring);
    }
}

static void get_poly(int64_t *words, size_t count, const fq_nmod_poly_t poly)
{
    fq_nmod_t element;
    fq_nmod_init(element, ring);
    for (size_t k = 0; k < count; k++) {
        fq_nmod_poly_get_coeff(element, poly, (slong)k, ring);
        get_element(words + 1 + k * x->element_len, element);
    }
    fq_nmod_clear(element, ring);
    words[0] = fq_nmod_poly_degree(poly, ring);
}

/* Memory of earlier rows is not given back: a bench ends soon. */
static void take_numbers(void)
{
    set_number_poly(a0, x->a), set_number_poly(b0, x->b), set_number_poly(dividend0, x->dividend);
    nmod_poly_init(c0, P), nmod_poly_init(q0, P), nmod_poly_init(r0, P);
    inverse0 = malloc((size_t)x->inverses * sizeof *inverse0);
    left0 = malloc((size_t)x->gcds * sizeof *left0), right0 = malloc((size_t)x->gcds * sizeof *right0);
    g0 = malloc((size_t)x->gcds * sizeof *g0);
    for (long turn = 0; turn < x->gcds; turn++) {
        set_number_poly(left0[turn], x->left + (size_t)turn * x->short_len);
        set_number_poly(right0[turn], x->right + (size_t)turn * x->short_len);
        nmod_poly_init(g0[turn], P);
    }
}

static void take_extension(void)
{
    nmod_poly_t m;
    set_number_poly(m, x->tower);
    fq_nmod_ctx_init_modulus(ring, m, "z");
    set_poly(a1, x->a), set_poly(b1, x->b), set_poly(dividend1, x->dividend);
    fq_nmod_poly_init(c1, ring), fq_nmod_poly_init(q1, ring), fq_nmod_poly_init(r1, ring);
    element1 = malloc((size_t)x->inverses * sizeof *element1), inverse1 = malloc((size_t)x->inverses * sizeof *inverse1);
    for (long turn = 0; turn < x->inverses; turn++) {
        set_element(element1[turn], x->element + (size_t)turn * x->element_len);
        fq_nmod_init(inverse1[turn], ring);
    }
    left1 = malloc((size_t)x->gcds * sizeof *left1), right1 = malloc((size_t)x->gcds * sizeof *right1);
    g1 = malloc((size_t)x->gcds * sizeof *g1);
    for (long turn = 0; turn < x->gcds; turn++) {
        set_poly(left1[turn], x->left + (size_t)turn * x->short_len);
        set_poly(right1[turn], x->right + (size_t)turn * x->short_len);
        fq_nmod_poly_init(g1[turn], ring);
    }
}

static void take(const struct operands *operands)
{
    x = operands;
    if (x->load->n == 0)
        take_numbers();
    else
        take_extension();
}

static void run_numbers(int operation, long turn)
{
    switch (operation) {
    case PRODUCT:
        nmod_poly_mul(c0, a0, b0);
        break;
    case DIVISION:
        nmod_poly_divrem(q0, r0, dividend0, b0);
        break;
    case INVERSE:
        inverse0[turn] = n_invmod((ulong)x->element[turn], P);
        break;
    default:
        nmod_poly_gcd(g0[turn], left0[turn], right0[turn]);
    }
}

static void run(int operation, long turn)
{
    if (x->load->n == 0) {
        run_numbers(operation, turn);
        return;
    }
    switch (operation) {
    case PRODUCT:
        fq_nmod_poly_mul(c1, a1, b1, ring);
        break;
    case DIVISION:
        fq_nmod_poly_divrem(q1, r1, dividend1, b1, ring);
        break;
    case INVERSE:
        fq_nmod_inv(inverse1[turn], element1[turn], ring);
        break;
    default:
        fq_nmod_poly_gcd(g1[turn], left1[turn], right1[turn], ring);
    }
}

static void give(int operation, long turn, int64_t *answer, int64_t *remainder)
{
    const size_t n = (size_t)x->load->degree + 1;
    const int numbers = x->load->n == 0;
    if (operation == PRODUCT)
        numbers ? get_number_poly(answer, 2 * n - 1, c0) : get_poly(answer, 2 * n - 1, c1);
    else if (operation == INVERSE && numbers)
        answer[0] = (int64_t)inverse0[turn];
    else if (operation == INVERSE)
        get_element(answer, inverse1[turn]);
    else if (operation == GCD)
        numbers ? get_number_poly(answer, n, g0[turn]) : get_poly(answer, n, g1[turn]);
    else {
        numbers ? get_number_poly(answer, n, q0) : get_poly(answer, n, q1);
        numbers ? get_number_poly(remainder, 2 * n - 1, r0) : get_poly(remainder, 2 * n - 1, r1);
    }
}

const struct stock flint = {"FLINT", take, run, give};

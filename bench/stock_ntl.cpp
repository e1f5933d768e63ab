/* NTL: zz_pX over Z/p, zz_pEX over an extension, which NTL does not ask to be a field. */
#include "stock.h"
#include <NTL/lzz_pEX.h>
#include <vector>

using namespace NTL;

namespace {

const struct operands *x;

/* Of N = 0. */
zz_pX a0, b0, c0, q0, r0, dividend0;
std::vector<zz_pX> left0, right0, g0;
std::vector<zz_p> element0, inverse0;

/* Of N = 1. */
zz_pEX a1, b1, c1, q1, r1, dividend1;
std::vector<zz_pEX> left1, right1, g1;
std::vector<zz_pE> element1, inverse1;

zz_pX numbers_of(const int64_t *words)
{
    zz_pX poly;
    for (int64_t k = 0; k <= words[0]; k++)
        SetCoeff(poly, k, to_zz_p((long)words[1 + k]));
    return poly;
}

zz_pEX poly_of(const int64_t *words)
{
    zz_pEX poly;
    for (int64_t k = 0; k <= words[0]; k++)
        SetCoeff(poly, k, to_zz_pE(numbers_of(words + 1 + k * (int64_t)x->element_len)));
    return poly;
}

void give_numbers(int64_t *words, size_t count, const zz_pX &poly)
{
    for (size_t k = 0; k < count; k++)
        words[1 + k] = rep(coeff(poly, (long)k));
    words[0] = deg(poly);
}

void give_poly(int64_t *words, size_t count, const zz_pEX &poly)
{
    for (size_t k = 0; k < count; k++)
        give_numbers(words + 1 + k * x->element_len, x->element_len - 1, rep(coeff(poly, (long)k)));
    words[0] = deg(poly);
}

void take_numbers()
{
    a0 = numbers_of(x->a), b0 = numbers_of(x->b), dividend0 = numbers_of(x->dividend);
    element0.clear(), left0.clear(), right0.clear();
    for (long turn = 0; turn < x->inverses; turn++)
        element0.push_back(to_zz_p((long)x->element[turn]));
    for (long turn = 0; turn < x->gcds; turn++) {
        left0.push_back(numbers_of(x->left + (size_t)turn * x->short_len));
        right0.push_back(numbers_of(x->right + (size_t)turn * x->short_len));
    }
    inverse0.resize((size_t)x->inverses), g0.resize((size_t)x->gcds);
}

void take_extension()
{
    element1.clear(), left1.clear(), right1.clear(), inverse1.clear(), g1.clear();
    zz_pE::init(numbers_of(x->tower));
    a1 = poly_of(x->a), b1 = poly_of(x->b), dividend1 = poly_of(x->dividend);
    for (long turn = 0; turn < x->inverses; turn++)
        element1.push_back(to_zz_pE(numbers_of(x->element + (size_t)turn * x->element_len)));
    for (long turn = 0; turn < x->gcds; turn++) {
        left1.push_back(poly_of(x->left + (size_t)turn * x->short_len));
        right1.push_back(poly_of(x->right + (size_t)turn * x->short_len));
    }
    inverse1.resize((size_t)x->inverses), g1.resize((size_t)x->gcds);
}

void take(const struct operands *operands)
{
    x = operands;
    zz_p::init(P);
    if (x->load->n == 0)
        take_numbers();
    else
        take_extension();
}

void run(int operation, long turn)
{
    const bool numbers = x->load->n == 0;
    const size_t t = (size_t)turn;
    if (operation == PRODUCT)
        numbers ? mul(c0, a0, b0) : mul(c1, a1, b1);
    else if (operation == DIVISION)
        numbers ? DivRem(q0, r0, dividend0, b0) : DivRem(q1, r1, dividend1, b1);
    else if (operation == INVERSE)
        numbers ? inv(inverse0[t], element0[t]) : inv(inverse1[t], element1[t]);
    else
        numbers ? NTL::GCD(g0[t], left0[t], right0[t]) : NTL::GCD(g1[t], left1[t], right1[t]);
}

void give(int operation, long turn, int64_t *answer, int64_t *remainder)
{
    const size_t n = (size_t)x->load->degree + 1, t = (size_t)turn;
    const bool numbers = x->load->n == 0;
    if (operation == PRODUCT)
        numbers ? give_numbers(answer, 2 * n - 1, c0) : give_poly(answer, 2 * n - 1, c1);
    else if (operation == INVERSE && numbers)
        answer[0] = rep(inverse0[t]);
    else if (operation == INVERSE)
        give_numbers(answer, x->element_len - 1, rep(inverse1[t]));
    else if (operation == ::GCD)
        numbers ? give_numbers(answer, n, g0[t]) : give_poly(answer, n, g1[t]);
    else {
        numbers ? give_numbers(answer, n, q0) : give_poly(answer, n, q1);
        numbers ? give_numbers(remainder, 2 * n - 1, r0) : give_poly(remainder, 2 * n - 1, r1);
    }
}

} // namespace

extern "C" const struct stock ntl = {"NTL", take, run, give};

/* The rows, their words and answers: random numbers from a fixed seed, no coefficient zero. */
#include "loads.h"
#include "kernel.h"
#include "tower.h"
#include <stdio.h>
#include <stdlib.h>

enum {
    LONGEST = 70000,   /* words: more than 65,536, which a slot may have; a power of two would align all lists alike */
    MOST_TURNS = 1024, /* operands of an inverse or a GCD, */
    TURN_WORDS = 16384 /* as far as they have room in so many words */
};

const struct contender *const contenders[CONTENDERS] = {
    [KERNEL] = &kernel, [PUBLISHED] = &published, [TUNED] = &tuned};
const char *const operations[OPERATIONS] = {
    [PRODUCT] = "product", [DIVISION] = "division", [INVERSE] = "inverse", [GCD] = "GCD"};
static const char *const answers[OPERATIONS] = {
    [PRODUCT] = "product", [DIVISION] = "quotient", [INVERSE] = "inverse", [GCD] = "GCD"};

const struct load loads[LOADS] = {
    {0, {0}, 8},           {0, {0}, 32},          {0, {0}, 127},
    {1, {2}, 4},           {1, {2}, 16},          {1, {2}, 64},
    {1, {4}, 4},           {1, {4}, 16},          {1, {4}, 64},
    {1, {16}, 4},          {1, {16}, 16},         {1, {16}, 64},
    {2, {2, 30}, 80},      {2, {10, 6}, 80},      {2, {30, 2}, 80},
    {3, {3, 3, 3}, 16},    {4, {2, 2, 2, 2}, 16},
};

/* The words of a load. Every list is lent at the length that its call asks for. Operands of an inverse and of a GCD
   change from turn to turn and lie one behind another: of one alone, called again and again, a processor learns the
   branches. */
static struct {
    const struct load *load;
    struct tower tower;
    int64_t tower_words[LONGEST], a[LONGEST], b[LONGEST], dividend[LONGEST]; /* of product and division, b monic */
    int64_t element[LONGEST], left[LONGEST], right[LONGEST];                 /* of inverse and GCD */
    int64_t work[LONGEST];
    size_t tower_len, short_len, long_len, element_len; /* short: polynomials of degree n; long: of degree 2n */
    size_t work_len[OPERATIONS], answer_len[OPERATIONS];
} x;

/* The answer slots, of every turn. */
struct slots {
    int64_t answer[OPERATIONS][LONGEST], remainder[LONGEST], factor[LONGEST];
};

static struct slots expected, found;

const char *label(const struct load *load)
{
    static char text[LABEL_LENGTH];
    size_t end = (size_t)sprintf(text, "N = %d", (int)load->n);
    for (int64_t i = 0; i < load->n; i++) {
        const char *before = i > 0 ? ", " : load->n > 1 ? ", d = (" : ", d = ";
        end += (size_t)sprintf(text + end, "%s%d", before, (int)load->degrees[i]);
    }
    sprintf(text + end, "%s, degree %d", load->n > 1 ? ")" : "", (int)load->degree);
    return text;
}

/* A number from 1 to p - 1, by xorshift from a fixed seed. */
static int64_t random_number(void)
{
    static uint64_t state = 88172645463325252;
    state ^= state << 13;
    state ^= state >> 7;
    state ^= state << 17;
    return (int64_t)(1 + state % (P - 1));
}

/* An element of that level without a zero in it. */
static void fill_element(int level, int64_t *element)
{
    if (level == 0) {
        element[0] = random_number();
        return;
    }
    element[0] = x.tower.degree[level] - 1;
    for (int64_t j = 0; j < x.tower.degree[level]; j++)
        fill_element(level - 1, element + 1 + j * x.tower.size[level - 1]);
}

/* The coefficients of a polynomial over that level below end. */
static void fill_coefficients(int level, int64_t *polynomial, int64_t end)
{
    for (int64_t k = 0; k < end; k++)
        fill_element(level, polynomial + 1 + k * x.tower.size[level]);
}

/* A polynomial of that degree over that level. */
static void fill_polynomial(int level, int64_t *polynomial, int64_t degree)
{
    polynomial[0] = degree;
    fill_coefficients(level, polynomial, degree + 1);
}

/* A monic polynomial of that degree over that level. */
static void fill_monic(int level, int64_t *polynomial, int64_t degree)
{
    polynomial[0] = degree;
    fill_coefficients(level, polynomial, degree);
    set_one(&x.tower, level, polynomial + 1 + degree * x.tower.size[level]);
}

/* The bytes of so many words. */
static size_t bytes(size_t words) { return words * sizeof(int64_t); }

/* The lengths of all lists, but the tower's; the work words by the formulas of document 01. */
static void find_lengths(void)
{
    const struct tower *t = &x.tower;
    size_t product = 0, inverse = 0;
    for (int i = 1; i <= t->levels; i++) {
        product += 2 * (size_t)polynomial_words(t, i - 1, 2 * t->degree[i] - 2);
        inverse += 5 * (size_t)polynomial_words(t, i - 1, t->degree[i]);
    }
    x.element_len = (size_t)t->size[t->levels];
    x.short_len = (size_t)polynomial_words(t, t->levels, x.load->degree);
    x.long_len = (size_t)polynomial_words(t, t->levels, 2 * x.load->degree);
    x.work_len[PRODUCT] = x.work_len[DIVISION] = product;
    x.work_len[INVERSE] = inverse;
    x.work_len[GCD] = 2 * x.short_len + 2 * x.element_len + inverse;
    x.answer_len[PRODUCT] = x.long_len;
    x.answer_len[DIVISION] = x.answer_len[GCD] = x.short_len;
    x.answer_len[INVERSE] = x.element_len;
}

/* The tower's polynomials, the lengths, and the operands but for the dividend. */
static void fill_words(const struct load *load)
{
    const int level = (int)load->n;
    find_tower(&x.tower, P, load->n, load->degrees, x.tower_words);
    x.load = load;
    x.tower_len = 0;
    for (int i = level; i >= 1; i--) {
        fill_monic(i - 1, x.tower_words + x.tower_len, x.tower.degree[i]);
        x.tower_len += (size_t)polynomial_words(&x.tower, i - 1, x.tower.degree[i]);
    }
    find_lengths();
    fill_polynomial(level, x.a, load->degree);
    fill_monic(level, x.b, load->degree);
    for (long turn = 0; turn < turns(INVERSE); turn++)
        fill_element(level, x.element + (size_t)turn * x.element_len);
    for (long turn = 0; turn < turns(GCD); turn++) {
        fill_polynomial(level, x.left + (size_t)turn * x.short_len, load->degree);
        fill_polynomial(level, x.right + (size_t)turn * x.short_len, load->degree);
    }
}

long turns(int operation)
{
    if (operation == PRODUCT || operation == DIVISION)
        return 1;
    return (long)lesser(MOST_TURNS, TURN_WORDS / (int64_t)x.answer_len[operation]);
}

/* One call; a division starts with a copy of the dividend, which it is going to replace. */
static size_t call_into(struct slots *y, const struct contender *who, int operation, long turn)
{
    const int64_t n = x.load->n, *degrees = x.load->degrees;
    const size_t len = x.answer_len[operation], at = (size_t)turn * len, work_len = x.work_len[operation];
    int64_t *answer = y->answer[operation] + at;
    switch (operation) {
    case PRODUCT:
        return who->product(P, n, degrees, x.tower_words, x.tower_len, x.a, x.short_len, x.b, x.short_len, answer, len,
                            x.work, work_len);
    case DIVISION:
        memcpy(y->remainder, x.dividend, bytes(x.long_len));
        return who->division(P, n, degrees, x.tower_words, x.tower_len, y->remainder, x.long_len, x.b, x.short_len,
                             answer, len, x.work, work_len);
    case INVERSE:
        return who->inverse(P, n, degrees, x.tower_words, x.tower_len, x.element + at, len, answer, len, y->factor,
                            x.element_len, x.work, work_len);
    default:
        return who->gcd(P, n, degrees, x.tower_words, x.tower_len, x.left + at, len, x.right + at, len, answer, len,
                        y->factor, x.element_len, x.work, work_len);
    }
}

struct operands operands(void)
{
    return (struct operands){x.load,  x.tower_words, x.a,           x.b,           x.dividend,     x.element,
                             x.left,  x.right,       x.short_len,   x.element_len, turns(INVERSE), turns(GCD)};
}

int64_t *answer_slot(int operation, long turn)
{
    return found.answer[operation] + (size_t)turn * x.answer_len[operation];
}

int64_t *remainder_slot(void) { return found.remainder; }

size_t call(const struct contender *who, int operation, long turn) { return call_into(&found, who, operation, turn); }

void spoil(int operation, long count)
{
    memset(found.answer[operation], 0x55, bytes((size_t)count * x.answer_len[operation]));
}

void fail(const char *who, int operation, const char *what)
{
    fprintf(stderr, "\n%s, %s by %s: %s\n", label(x.load), operations[operation], who, what);
    exit(1);
}

/* Ends the program at the first word that is not the expected one. */
static void compare_words(const char *who, int operation, const char *list, const int64_t *words,
                          const int64_t *expected_words, size_t count)
{
    char what[100];
    for (size_t i = 0; i < count; i++)
        if (words[i] != expected_words[i]) {
            snprintf(what, sizeof what, "word %zu of the %s is %lld, not %lld", i, list, (long long)words[i],
                     (long long)expected_words[i]);
            fail(who, operation, what);
        }
}

void compare(const char *who, int operation, long count)
{
    compare_words(who, operation, answers[operation], found.answer[operation], expected.answer[operation],
                  (size_t)count * x.answer_len[operation]);
    if (operation == DIVISION)
        compare_words(who, operation, "remainder", found.remainder, expected.remainder, x.long_len);
}

/* c := a·b by the published algorithm, slots of so many words. */
static void multiply(const int64_t *a, const int64_t *b, size_t len, int64_t *c, size_t c_len)
{
    published.product(P, x.load->n, x.load->degrees, x.tower_words, x.tower_len, a, len, b, len, c, c_len, x.work,
                      x.work_len[PRODUCT]);
}

/* The expected product, quotient and remainder, by the published algorithm. The dividend is a·b with other
   coefficients below deg b: its quotient is a, and its remainder is not zero. */
static void expect_product_and_division(void)
{
    call_into(&expected, &published, PRODUCT, 0);
    memcpy(x.dividend, expected.answer[PRODUCT], bytes(x.long_len));
    fill_coefficients(x.tower.levels, x.dividend, x.load->degree);
    call_into(&expected, &published, DIVISION, 0);
    if (memcmp(expected.answer[DIVISION], x.a, bytes(x.short_len)) != 0)
        fail(published.name, DIVISION, "the quotient is not a");
    if (expected.remainder[0] < 0)
        fail(published.name, DIVISION, "the remainder is zero");
}

/* The expected inverses, by the published algorithm: each times its element is 1. */
static void expect_inverses(void)
{
    static int64_t c[LONGEST], r[LONGEST], one[LONGEST], product[LONGEST]; /* polynomials of degree 0, degree word 0 */
    set_one(&x.tower, x.tower.levels, one + 1);
    for (long turn = 0; turn < turns(INVERSE); turn++) {
        const size_t at = (size_t)turn * x.element_len;
        if (call_into(&expected, &published, INVERSE, turn) != 0)
            fail(published.name, INVERSE, "a factor is shown");
        memcpy(c + 1, x.element + at, bytes(x.element_len));
        memcpy(r + 1, expected.answer[INVERSE] + at, bytes(x.element_len));
        multiply(c, r, 1 + x.element_len, product, 1 + x.element_len);
        compare_words(published.name, INVERSE, "inverse times its element", product, one, 1 + x.element_len);
    }
}

/* The expected GCDs: random polynomials have the GCD 1. So that no contender gets through with a 1 that it did not
   find, each must first find a common factor of degree 2 of two polynomials of degree 4. */
static void expect_gcds(void)
{
    static int64_t factor[LONGEST], c[LONGEST], left[LONGEST], right[LONGEST], g[LONGEST];
    const int level = x.tower.levels;
    const size_t len = (size_t)polynomial_words(&x.tower, level, 2);
    const size_t long_len = (size_t)polynomial_words(&x.tower, level, 4);
    fill_monic(level, factor, 2);
    set_zeros(&x.tower, level, factor, 3, 5);
    fill_polynomial(level, c, 2);
    multiply(c, factor, len, left, long_len);
    fill_polynomial(level, c, 2);
    multiply(c, factor, len, right, long_len);
    for (int who = 0; who < CONTENDERS; who++) {
        contenders[who]->gcd(P, x.load->n, x.load->degrees, x.tower_words, x.tower_len, left, long_len, right, long_len,
                             g, long_len, found.factor, x.element_len, x.work, x.work_len[GCD]);
        compare_words(contenders[who]->name, GCD, "GCD that is a known factor", g, factor, long_len);
    }
    for (long turn = 0; turn < turns(GCD); turn++) {
        int64_t *one = expected.answer[GCD] + (size_t)turn * x.short_len;
        one[0] = 0;
        set_one(&x.tower, level, one + 1);
        set_zeros(&x.tower, level, one, 1, x.load->degree + 1);
    }
}

void prepare(const struct load *load)
{
    fill_words(load);
    expect_product_and_division();
    expect_inverses();
    expect_gcds();
}

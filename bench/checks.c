/* What is asked once, before anything is timed, over p = 7, m_1 = z^2 + 5: refusals of the library, and a factor that
   all contenders show. */
#include "kernel.h"
#include "loads.h"
#include <stdio.h>
#include <stdlib.h>
#include <string.h>

/* A call and all that is lent to it. a and b are polynomials, or b's first words the element that is inverted. */
struct lent {
    int64_t degrees[4], tower[4], a[7], b[7], answer[10], factor[3], work[40];
};

/* Calls with one thing wrong: p, b, or the work words; and the number that must be given. The last four have nothing
   wrong and must be done. */
static const struct refusal {
    int operation;
    int64_t p, b[7];
    size_t work_len, number;
} refusals[] = {
    {PRODUCT, 1, {1, 0, 1, 0, 0, 1, 0}, 8, 1},  {PRODUCT, 7, {1, 0, 1, 0, 0, 1, 0}, 7, 7},
    {DIVISION, 1, {1, 0, 1, 0, 0, 1, 0}, 8, 1}, {DIVISION, 7, {1, 0, 1, 0, 0, 1, 0}, 7, 7},
    {DIVISION, 7, {1, 0, 1, 0, 0, 2, 0}, 8, 8}, {INVERSE, 7, {-1, 0, 0}, 20, 9},
    {GCD, 7, {1, 0, 1, 0, 0, 1, 0}, 39, 7},     {PRODUCT, 7, {1, 0, 1, 0, 0, 1, 0}, 8, 0},
    {DIVISION, 7, {1, 0, 1, 0, 0, 1, 0}, 8, 0}, {INVERSE, 7, {1, 0, 1}, 20, 0},
    {GCD, 7, {0, 0, 1, 0, -1, 0, 0}, 40, 0},
};

/* One call over that tower. */
static size_t ask(const struct contender *who, int operation, int64_t p, struct lent *x, size_t work_len)
{
    switch (operation) {
    case PRODUCT:
        return who->product(p, 1, x->degrees, x->tower, 4, x->a, 7, x->b, 7, x->answer, 10, x->work, work_len);
    case DIVISION:
        return who->division(p, 1, x->degrees, x->tower, 4, x->a, 7, x->b, 7, x->answer, 10, x->work, work_len);
    case INVERSE:
        return who->inverse(p, 1, x->degrees, x->tower, 4, x->b, 3, x->answer, 3, x->factor, 3, x->work, work_len);
    default:
        return who->gcd(p, 1, x->degrees, x->tower, 4, x->a, 7, x->b, 7, x->answer, 10, x->factor, 3, x->work,
                        work_len);
    }
}

/* What is lent: the tower, a = 3x + z, that b, and words in the slots to be written. */
static struct lent lend(const int64_t b[7])
{
    struct lent x = {{2}, {2, 5, 0, 1}, {1, 1, 0, 1, 0, 3, 0}, {0}, {9, 9, 9}, {9, 9, 9}, {9, 9, 9}};
    memcpy(x.b, b, sizeof x.b);
    return x;
}

/* Ends the program where such a call gives another number, or is refused and changes a word that is lent to it. */
void check_refusals(void)
{
    for (size_t i = 0; i < sizeof refusals / sizeof refusals[0]; i++) {
        const struct refusal *r = &refusals[i];
        struct lent x = lend(r->b), y = x;
        const size_t number = ask(&kernel, r->operation, r->p, &x, r->work_len);
        const int kept = memcmp(&x, &y, sizeof x) == 0;
        if (number == r->number && kept == (number != 0))
            continue;
        fprintf(stderr, "%s, p = %d, %zu work words: %zu for %zu, lent words %s\n", operations[r->operation],
                (int)r->p, r->work_len, number, r->number, kept ? "kept" : "changed");
        exit(1);
    }
}

/* Ends the program where the inverse of z + 3 does not show that factor of z^2 + 5 at level 1, or changes another lent
   word outside the work store. */
void check_factor(void)
{
    for (int who = 0; who < CONTENDERS; who++) {
        struct lent x = lend((const int64_t[7]){1, 3, 1}), y = x;
        memcpy(y.factor, y.b, sizeof y.factor);
        const size_t number = ask(contenders[who], INVERSE, 7, &x, 20);
        if (number == 101 && memcmp(&x, &y, offsetof(struct lent, work)) == 0)
            continue;
        fprintf(stderr, "inverse of z + 3 by %s: %zu for 101, factor %d %d %d for 1 3 1\n", contenders[who]->name,
                number, (int)x.factor[0], (int)x.factor[1], (int)x.factor[2]);
        exit(1);
    }
}

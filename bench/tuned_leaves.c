/* Baseline: the products of level-1 elements in the tuned design, unrolled for d_1 = 2, 3 and 4. Nothing is checked. */
#include "tuned.h"

/* The leaf for d_1 = 2, two pairs a turn. */
static void add_pairs_2(struct sums t, int64_t size, const int64_t *a, const int64_t *b, int64_t count)
{
    struct sum t0 = load(t, 0), t1 = load(t, 1), t2 = load(t, 2);
    int64_t u = 0;
    for (; u + 1 < count; u += 2, a += 2 * size, b -= 2 * size) {
        const uint64_t a0 = residue(a[1]), a1 = residue(a[2]), b0 = residue(b[1]), b1 = residue(b[2]);
        const int64_t *e = a + size, *f = b - size;
        const uint64_t e0 = residue(e[1]), e1 = residue(e[2]), f0 = residue(f[1]), f1 = residue(f[2]);
        fold(&t0, a0 * b0 + e0 * f0);
        fold(&t1, a0 * b1 + a1 * b0 + e0 * f1 + e1 * f0);
        fold(&t2, a1 * b1 + e1 * f1);
    }
    if (u < count) {
        const uint64_t a0 = residue(a[1]), a1 = residue(a[2]), b0 = residue(b[1]), b1 = residue(b[2]);
        fold(&t0, a0 * b0);
        fold(&t1, a0 * b1 + a1 * b0);
        fold(&t2, a1 * b1);
    }
    store(t, 0, t0), store(t, 1, t1), store(t, 2, t2);
}

/* The leaf for d_1 = 3. */
static void add_pairs_3(struct sums t, int64_t size, const int64_t *a, const int64_t *b, int64_t count)
{
    struct sum t0 = load(t, 0), t1 = load(t, 1), t2 = load(t, 2), t3 = load(t, 3), t4 = load(t, 4);
    for (int64_t u = 0; u < count; u++, a += size, b -= size) {
        const uint64_t a0 = residue(a[1]), a1 = residue(a[2]), a2 = residue(a[3]);
        const uint64_t b0 = residue(b[1]), b1 = residue(b[2]), b2 = residue(b[3]);
        fold(&t0, a0 * b0);
        fold(&t1, a0 * b1 + a1 * b0);
        fold(&t2, a0 * b2 + a1 * b1 + a2 * b0);
        fold(&t3, a1 * b2 + a2 * b1);
        fold(&t4, a2 * b2);
    }
    store(t, 0, t0), store(t, 1, t1), store(t, 2, t2), store(t, 3, t3), store(t, 4, t4);
}

/* The leaf for d_1 = 4, coefficients 0 to 3. */
static void add_pairs_4_low(struct sums t, int64_t size, const int64_t *a, const int64_t *b, int64_t count)
{
    struct sum t0 = load(t, 0), t1 = load(t, 1), t2 = load(t, 2), t3 = load(t, 3);
    for (int64_t u = 0; u < count; u++, a += size, b -= size) {
        const uint64_t a0 = residue(a[1]), a1 = residue(a[2]), a2 = residue(a[3]), a3 = residue(a[4]);
        const uint64_t b0 = residue(b[1]), b1 = residue(b[2]), b2 = residue(b[3]), b3 = residue(b[4]);
        fold(&t0, a0 * b0);
        fold(&t1, a0 * b1 + a1 * b0);
        fold(&t2, a0 * b2 + a1 * b1 + a2 * b0);
        fold(&t3, a0 * b3 + a1 * b2 + a2 * b1 + a3 * b0);
    }
    store(t, 0, t0), store(t, 1, t1), store(t, 2, t2), store(t, 3, t3);
}

/* The leaf for d_1 = 4, coefficients 4 to 6. */
static void add_pairs_4_high(struct sums t, int64_t size, const int64_t *a, const int64_t *b, int64_t count)
{
    struct sum t4 = load(t, 4), t5 = load(t, 5), t6 = load(t, 6);
    for (int64_t u = 0; u < count; u++, a += size, b -= size) {
        const uint64_t a1 = residue(a[2]), a2 = residue(a[3]), a3 = residue(a[4]);
        const uint64_t b1 = residue(b[2]), b2 = residue(b[3]), b3 = residue(b[4]);
        fold(&t4, a1 * b3 + a2 * b2 + a3 * b1);
        fold(&t5, a2 * b3 + a3 * b2);
        fold(&t6, a3 * b3);
    }
    store(t, 4, t4), store(t, 5, t5), store(t, 6, t6);
}

/* The leaf for d_1 = 4, in two walks: one would ask for more registers than there are. */
static void add_pairs_4(struct sums t, int64_t size, const int64_t *a, const int64_t *b, int64_t count)
{
    add_pairs_4_low(t, size, a, b, count);
    add_pairs_4_high(t, size, a, b, count);
}

/* s + the products of width words up from a and down from b, over count pairs, two pairs and two words a turn. */
static inline struct sum add_column(struct sum s, const int64_t *a, const int64_t *b, int64_t width, int64_t size,
                                    int64_t count)
{
    int64_t u = 0;
    for (; u + 1 < count; u += 2, a += 2 * size, b -= 2 * size) {
        const int64_t *e = a + size, *f = b - size;
        int64_t j = 0;
        for (; j + 1 < width; j += 2)
            fold(&s, residue(a[j]) * residue(b[-j]) + residue(e[j]) * residue(f[-j]) +
                         residue(a[j + 1]) * residue(b[-j - 1]) + residue(e[j + 1]) * residue(f[-j - 1]));
        if (j < width)
            fold(&s, residue(a[j]) * residue(b[-j]) + residue(e[j]) * residue(f[-j]));
    }
    return u < count ? add_numbers(s, a, b, width) : s;
}

/* The leaf for any d_1. The degree words are not asked: what stands above them is zero. */
static void add_pairs_any(struct sums t, int64_t size, const int64_t *a, const int64_t *b, int64_t count)
{
    const int64_t d = size - 1;
    for (int64_t k = 0; k <= 2 * d - 2; k++) {
        const int64_t first = excess(k, d - 1), last = lesser(k, d - 1);
        store(t, k, add_column(load(t, k), a + 1 + first, b + 1 + k - first, last - first + 1, size, count));
    }
}

leaf *tuned_leaf(int64_t d)
{
    switch (d) {
    case 2:
        return add_pairs_2;
    case 3:
        return add_pairs_3;
    case 4:
        return add_pairs_4;
    default:
        return add_pairs_any;
    }
}

/* Towers of document 01 and how words hold their elements, for the two baselines and the loads.

     element of level 0         one word, 0 to p - 1
     element of level i >= 1    a degree word, -1 for zero, and d_i elements of level i - 1, lowest first
     polynomial over level i    a degree word and its coefficients, elements of level i, lowest first
     m_i                        a degree word d_i and d_i + 1 elements of level i - 1, the last of them 1

   What stands above a degree is zero in form. The tower's words are m_N first and m_1 last.
   Nothing here is checked. */
#ifndef BENCH_TOWER_H
#define BENCH_TOWER_H

#include <stddef.h>
#include <stdint.h>
#include <string.h>

struct tower {
    uint64_t p;
    int levels;                   /* N */
    int64_t degree[5];            /* d_1 to d_N at 1 to N */
    int64_t size[5];              /* S_0 to S_N: the words of an element of each level */
    const int64_t *polynomial[5]; /* m_1 to m_N at 1 to N */
};

/* The lesser and the greater of two numbers. */
static inline int64_t lesser(int64_t x, int64_t y) { return x < y ? x : y; }
static inline int64_t greater(int64_t x, int64_t y) { return x > y ? x : y; }

/* x - y, or 0 if that is negative. */
static inline int64_t excess(int64_t x, int64_t y) { return x > y ? x - y : 0; }

/* t := the tower whose polynomials lie in those words. */
static inline void find_tower(struct tower *t, int64_t p, int64_t n, const int64_t degrees[4], const int64_t *words)
{
    t->p = (uint64_t)p;
    t->levels = (int)n;
    t->size[0] = 1;
    for (int i = 1; i <= t->levels; i++) {
        t->degree[i] = degrees[i - 1];
        t->size[i] = t->degree[i] * t->size[i - 1] + 1;
    }
    for (int i = t->levels; i >= 1; i--) {
        t->polynomial[i] = words;
        words += t->size[i] + t->size[i - 1];
    }
}

/* The words of a polynomial of that degree: P(degree, level) of document 01. */
static inline int64_t polynomial_words(const struct tower *t, int level, int64_t degree)
{
    return (degree + 1) * t->size[level] + 1;
}

/* The coefficients for which a slot of so many words has room. */
static inline int64_t room(const struct tower *t, size_t words)
{
    return ((int64_t)words - 1) / t->size[t->levels];
}

/* to := from, so many words that do not overlap. */
static inline void copy_words(int64_t *to, const int64_t *from, int64_t count)
{
    memcpy(to, from, (size_t)count * sizeof *to);
}

/* Whether an element in form is zero: its first word tells. */
static inline int is_zero(int level, const int64_t *element)
{
    return level == 0 ? element[0] == 0 : element[0] < 0;
}

/* Whether an element in form is 1. */
static inline int is_one(int level, const int64_t *element)
{
    for (int i = 0; i < level; i++)
        if (element[i] != 0)
            return 0;
    return element[level] == 1;
}

/* element := 0. */
static inline void set_zero(const struct tower *t, int level, int64_t *element)
{
    if (level == 0) {
        element[0] = 0;
        return;
    }
    element[0] = -1;
    if (level == 1) {
        memset(element + 1, 0, (size_t)t->degree[1] * sizeof *element);
        return;
    }
    for (int64_t j = 0; j < t->degree[level]; j++)
        set_zero(t, level - 1, element + 1 + j * t->size[level - 1]);
}

/* element := 1. */
static inline void set_one(const struct tower *t, int level, int64_t *element)
{
    set_zero(t, level, element);
    for (int i = 0; i < level; i++)
        element[i] = 0;
    element[level] = 1;
}

/* The coefficients from first up to, but without, end := 0. */
static inline void set_zeros(const struct tower *t, int level, int64_t *polynomial, int64_t first, int64_t end)
{
    for (int64_t k = first; k < end; k++)
        set_zero(t, level, polynomial + 1 + k * t->size[level]);
}

/* element := a polynomial over the level below, of lower degree than m_level. */
static inline void put_element(const struct tower *t, int level, const int64_t *polynomial, int64_t *element)
{
    copy_words(element, polynomial, polynomial_words(t, level - 1, polynomial[0]));
    set_zeros(t, level - 1, element, polynomial[0] + 1, t->degree[level]);
}

/* The leading coefficient of a polynomial that is not zero. */
static inline const int64_t *leading(const struct tower *t, int level, const int64_t *polynomial)
{
    return polynomial + 1 + polynomial[0] * t->size[level];
}

/* Sets the degree word of a polynomial that has nothing but zeros above coefficient top. */
static inline void settle_degree(const struct tower *t, int level, int64_t *polynomial, int64_t top)
{
    while (top >= 0 && is_zero(level, polynomial + 1 + top * t->size[level]))
        top--;
    polynomial[0] = top;
}

/* The number of a call; a shown factor's buffer gets zeros behind the factor. */
static inline size_t told(const struct tower *t, size_t number, int64_t *factor, size_t factor_len)
{
    for (size_t i = number < 100 ? factor_len : (size_t)t->size[number - 100]; i < factor_len; i++)
        factor[i] = 0;
    return number;
}

#endif

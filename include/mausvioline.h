/* Mausvioline for C: arithmetic, inverse and monic GCD of polynomials in x over a tower of residue rings modulo p.
 *
 * Every call checks every word that it is given and answers with a number:
 *
 *     0                done
 *     1 to 11          refused, by the first of these numbers that applies (the table below)
 *     100 + level      inverse and GCD only: a factor is shown, at level 0 to 4
 *
 * The leading view, which refuses nothing, answers which of its slots it shows. What each call gives for every input
 * is proved of the code; docs/CLAIM.md says what is claimed, docs/MANUAL.md explains the words with examples.
 *
 * Words are signed 64-bit numbers. The tower arrives as p, n, degrees and words:
 *   p        the modulus, 2 to 2,147,483,647; it need not be prime
 *   n        the number of levels, 0 to 4
 *   degrees  four numbers: d_1 to d_n, each 2 to 64, then zeros
 *   tower    m_n first, m_1 last: each a degree word d_i and d_i + 1 elements of the level below, the last of them 1;
 *            no words for n = 0
 * S_0 = 1 and S_i = d_i * S_(i-1) + 1 are the words of an element of level i; S_n is at most 2,048.
 *   element  of level 0: one word, 0 to p - 1; of level i: a degree word, -1 for zero, and d_i elements of level i - 1,
 *            lowest first, those above the degree zero
 *   slot     a polynomial in x: a degree word from -1 to k - 1 and k elements of level n: 1 + k * S_n words, k from 1
 *            to 256, at most 65,536 words
 *
 * number  when
 *   1     p is out of range
 *   2     n or a degree is out of range, or S_n is above 2,048
 *   3     the tower's words have a wrong length or form, or a polynomial is not monic
 *   4     a slot, element or factor buffer has a length that is not allowed (element and factor buffer: S_n words)
 *   5     an input slot or element is not in form; for the work sizes, a degree is not from -1 to 255
 *   6     the answer's slot is too small
 *   7     the work store is shorter than needed
 *   8     the divisor is not monic, or zero
 *   9     the inverse of zero
 *  10     a fraction without residue
 *  11     more remainders than a sequence may take: never given
 *
 * What the caller must keep, since nothing here can check it:
 *   - Every pointer is valid and aligned, and stays the caller's: the library keeps none, allocates nothing and frees
 *     nothing. A list of no words may have any pointer, NULL too.
 *   - Each list has as many words as its length says, degrees has four, sizes three.
 *   - A list that a call may write overlaps no other list that it is given. Lists that are only read may overlap.
 * Calls share nothing, so several threads may call at once, each with its own lists to write.
 *
 * What the answer slots, the factor buffer and the work store hold on entry changes no answer. A call that is refused by
 * 1 to 10 leaves every word as found. Otherwise the whole answer slot is written, the rest of it zeros in form, and the
 * work words that the call needs are 0 afterwards; those beyond are as before.
 */
#ifndef MAUSVIOLINE_H
#define MAUSVIOLINE_H

#include <stddef.h>
#include <stdint.h>

#ifdef __cplusplus
extern "C" {
#endif

/* The answer of a shown factor less its level. */
#define MAUSVIOLINE_FACTOR 100

/* Whether p, n, degrees and the words are those of a tower. Refuses 1 to 3. Writes nothing. */
size_t mausvioline_check_tower(int64_t p, int64_t n, const int64_t degrees[4], const int64_t *tower, size_t tower_len);

/* Whether a is a slot over the tower, in form. Refuses 1 to 5. Writes nothing. */
size_t mausvioline_check_slot(int64_t p, int64_t n, const int64_t degrees[4], const int64_t *tower, size_t tower_len,
                              const int64_t *a, size_t a_len);

/* The work words that product and division, inverse, and GCD need, in this order in sizes, for polynomials of the
 * degrees degree_a and degree_b, -1 for zero. Refuses 2 and 5. Writes sizes, nothing when refused. */
size_t mausvioline_work_sizes(int64_t n, const int64_t degrees[4], int64_t degree_a, int64_t degree_b, size_t sizes[3]);

/* residue := that of numerator/denominator modulo p, 0 to p - 1. Refuses 1, and 10 where the denominator is not positive
 * or shares a divisor above 1 with p. Writes residue, nothing when refused. */
size_t mausvioline_fraction(int64_t p, int64_t numerator, int64_t denominator, uint64_t *residue);

/* Where the leading coefficient of a or b stands, of whichever has the higher degree, of a where they are equal. Answers
 * 1 for a and 2 for b: its words are the count words from start on in that slot itself. Answers 0, with start and count
 * 0, where one of 1 to 5 applies or both are zero. Writes start and count always. a and b may be one slot. */
size_t mausvioline_leading_view(int64_t p, int64_t n, const int64_t degrees[4], const int64_t *tower, size_t tower_len,
                                const int64_t *a, size_t a_len, const int64_t *b, size_t b_len, size_t *start,
                                size_t *count);

/* a := a + b. a needs room for max(deg a, deg b) + 1 coefficients, deg -1 for zero. Refuses 1 to 6. Writes a. */
size_t mausvioline_sum(int64_t p, int64_t n, const int64_t degrees[4], const int64_t *tower, size_t tower_len,
                       int64_t *a, size_t a_len, const int64_t *b, size_t b_len);

/* a := a - b. As the sum. */
size_t mausvioline_difference(int64_t p, int64_t n, const int64_t degrees[4], const int64_t *tower, size_t tower_len,
                              int64_t *a, size_t a_len, const int64_t *b, size_t b_len);

/* c := a * b. c needs room for deg a + deg b + 1 coefficients, 1 where either is zero. Refuses 1 to 7. Writes c and the
 * work store. a and b may be one slot. */
size_t mausvioline_product(int64_t p, int64_t n, const int64_t degrees[4], const int64_t *tower, size_t tower_len,
                           const int64_t *a, size_t a_len, const int64_t *b, size_t b_len, int64_t *c, size_t c_len,
                           int64_t *work, size_t work_len);

/* q := the quotient of a by the monic b, and a := the remainder. q needs room for deg a - deg b + 1 coefficients, and at
 * least 1. Refuses 1 to 8. Writes a, q and the work store. */
size_t mausvioline_division(int64_t p, int64_t n, const int64_t degrees[4], const int64_t *tower, size_t tower_len,
                            int64_t *a, size_t a_len, const int64_t *b, size_t b_len, int64_t *q, size_t q_len,
                            int64_t *work, size_t work_len);

/* r := the inverse of the element c. Or answers 100 + j and shows a factor at level j in the first S_j words of the
 * factor buffer, its other words 0; r then keeps its words, and otherwise the factor buffer its own. A shown factor does
 * not mean that c has no inverse. Refuses 1 to 5, 7, 9 and 11. Writes r or factor, and the work store. */
size_t mausvioline_inverse(int64_t p, int64_t n, const int64_t degrees[4], const int64_t *tower, size_t tower_len,
                           const int64_t *c, size_t c_len, int64_t *r, size_t r_len, int64_t *factor,
                           size_t factor_len, int64_t *work, size_t work_len);

/* g := the monic GCD of a and b, zero where both are. g needs room for max(deg a, deg b) + 1 coefficients, and at least
 * 1. Or answers 100 + j and shows a factor at level j, as the inverse does; g then keeps its words. Refuses 1 to 7 and
 * 11. Writes g or factor, and the work store. a and b may be one slot. */
size_t mausvioline_gcd(int64_t p, int64_t n, const int64_t degrees[4], const int64_t *tower, size_t tower_len,
                       const int64_t *a, size_t a_len, const int64_t *b, size_t b_len, int64_t *g, size_t g_len,
                       int64_t *factor, size_t factor_len, int64_t *work, size_t work_len);

#ifdef __cplusplus
}
#endif

#endif

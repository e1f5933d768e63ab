/* The rows of the table: their words, the calls on them, and the answers that are expected. */
#ifndef BENCH_LOADS_H
#define BENCH_LOADS_H

#include "calls.h"

enum { KERNEL, PUBLISHED, TUNED, CONTENDERS };
enum { PRODUCT, DIVISION, INVERSE, GCD, OPERATIONS };
enum { P = 2147483647, LOADS = 17, LABEL_LENGTH = 40 };

/* A tower and the degree n of its row: a product of degree n by n, a division of degree 2n by n, an inverse of an
   element, and a GCD of two polynomials of degree n. */
struct load {
    int64_t n, degrees[4], degree;
};

extern const struct contender *const contenders[CONTENDERS];
extern const char *const operations[OPERATIONS];
extern const struct load loads[LOADS];

/* The operands of the prepared load, as words: those of product and division, and those of every turn of inverse and GCD,
   one behind another, element_len or short_len words each. */
struct operands {
    const struct load *load;
    const int64_t *tower, *a, *b, *dividend, *element, *left, *right;
    size_t short_len, element_len;
    long inverses, gcds;
};
struct operands operands(void);

/* A load's name, such as "N = 2, d = (2, 30), degree 80". */
const char *label(const struct load *load);

/* Makes a load's words and the expected answers; ends the program where they cannot be right. */
void prepare(const struct load *load);

/* How many operands the prepared load has for that operation. */
long turns(int operation);

/* One call on the operands of that turn. */
size_t call(const struct contender *who, int operation, long turn);

/* Where an answer of that turn stands, and the remainder of a division. */
int64_t *answer_slot(int operation, long turn);
int64_t *remainder_slot(void);

/* Spoils the answer slots of that many turns. */
void spoil(int operation, long count);

/* Ends the program where a word in the answer slots of that many turns is not the expected one. */
void compare(const char *who, int operation, long count);

/* Ends the program: that one's call on the prepared load went wrong. */
void fail(const char *who, int operation, const char *what);

/* Calls of the library that it must refuse, and a factor that all must show; ends the program where one does not. */
void check_refusals(void);
void check_factor(void);

#endif

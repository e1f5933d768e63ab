/* Stock systems, measured beside the library where they are installed: FLINT, NTL and PARI, on the rows with N = 0 and
   1, by their own types for polynomials over Z/p and over Z/p[z] modulo m_1. A system takes the prepared operands in
   its own form first; that, and giving the answers back as words, is not measured. */
#ifndef BENCH_STOCK_H
#define BENCH_STOCK_H

#include "loads.h"

#ifdef __cplusplus
extern "C" {
#endif

struct stock {
    const char *name;
    void (*take)(const struct operands *operands); /* what an earlier row left is let go */
    void (*run)(int operation, long turn);
    void (*give)(int operation, long turn, int64_t *answer, int64_t *remainder);
};

extern const struct stock flint, ntl, pari;

#ifdef __cplusplus
}
#endif

#endif

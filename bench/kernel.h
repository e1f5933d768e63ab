/* The proved library, crate capi, as a contender. Unlike the baselines it checks every word that it is given and clears
   the work words that it needs. */
#ifndef BENCH_KERNEL_H
#define BENCH_KERNEL_H

#include "../include/mausvioline.h"
#include "calls.h"

static const struct contender kernel = {"kernel", mausvioline_product, mausvioline_division, mausvioline_inverse,
                                        mausvioline_gcd};

#endif

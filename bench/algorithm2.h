// The algorithms of document 002 that the kernels are measured against. Every function stands in another translation unit than its callers and is not
// inlined, so that a call is a call. A width is 1 to 32, and vectors are well formed.
#ifndef ALGORITHM2_H
#define ALGORITHM2_H

#include "planes.h"

// Document 002, section 7.5, algorithm 2: the product by columns.
[[gnu::noinline]] Planes algorithm2(uint32_t w, uint32_t ma, uint32_t va, uint32_t mb, uint32_t vb);

// One column of it: bit k of the product, 2 where it is unknown.
[[gnu::noinline]] uint32_t algorithm2_bit(uint32_t ma, uint32_t va, uint32_t mb, uint32_t vb, uint32_t k);

// Document 002, section 6: the sum bit by bit.
[[gnu::noinline]] Planes add_by_bits(uint32_t w, uint32_t ma, uint32_t va, uint32_t mb, uint32_t vb);

#endif

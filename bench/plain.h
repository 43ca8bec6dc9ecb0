// The plain arithmetic that the fast kernels are held against. As the kernels do, it stands in another translation unit than its
// callers and is not inlined, so that a call is a call.
#ifndef PLAIN_H
#define PLAIN_H

#include "planes.h"

// The least that an add needs: the wrapping sums of the least and of the greatest operands.
[[gnu::noinline]] Planes two_sums(uint32_t ma, uint32_t va, uint32_t mb, uint32_t vb);

// The product of known operands.
[[gnu::noinline]] Planes plain_product(uint32_t w, uint32_t a, uint32_t b);

#endif

#include "plain.h"

Planes two_sums(uint32_t ma, uint32_t va, uint32_t mb, uint32_t vb)
{
    return {va + vb, (va | ma) + (vb | mb)};
}

Planes plain_product(uint32_t w, uint32_t a, uint32_t b)
{
    return {0, a * b & ones(w)};
}

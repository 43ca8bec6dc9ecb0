// Document 002, algorithm 1 ("line n" is its line n) with the extremes of equation 21: the fast abstract addition of section 6.
#include "algorithm2.h"

Planes add_by_bits(uint32_t w, uint32_t ma, uint32_t va, uint32_t mb, uint32_t vb)
{
    Planes c = {0, 0};
    for (uint32_t k = 0; k < w; k++) { // line 2
        uint32_t lowest = ones(k + 1); // the bits 0 to k
        uint64_t h_min = uint64_t{va & lowest} + (vb & lowest);               // line 3, equation 21
        uint64_t h_max = uint64_t{(va | ma) & lowest} + ((vb | mb) & lowest); // line 4, equation 21
        if (h_min >> k != h_max >> k)                                         // line 5, equation 16
            c.mask |= uint32_t{1} << k;                                       // line 6
        else
            c.value |= static_cast<uint32_t>(h_min >> k & 1) << k;            // line 8
    }
    return c; // line 11
}

// A vector as two words: mask bit 1 means that the place is unknown, else the value's bit is the place's bit.
#ifndef PLANES_H
#define PLANES_H

#include <cstdint>

struct Planes {
    uint32_t mask, value;
};

// The word whose lowest bits are 1, as many as the width says, 1 to 32.
inline uint32_t ones(uint32_t width)
{
    return UINT32_MAX >> (32 - width);
}

// The best vector that covers both.
inline Planes join(Planes x, Planes y)
{
    uint32_t mask = x.mask | y.mask | (x.value ^ y.value);
    return {mask, x.value & ~mask};
}

#endif

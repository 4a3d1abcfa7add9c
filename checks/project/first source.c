#include "low bits.h"

unsigned first(unsigned x)
{
    CLEARED(x);
    return low_bits(next(x),
                    LENGTH);
}

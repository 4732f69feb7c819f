#include "lamps.h"

#include <stddef.h>

uint32_t lamps_of(const struct load *load, const struct bench *state)
{
    uint32_t lamps = 0;
    for (unsigned row = 1; row <= load->row_count; row++)
        if (open_window(row_of(load, row), progress_of(state, row)->finished) != NULL)
            lamps |= UINT32_C(1) << (row - 1);
    return lamps;
}

uint32_t ones_of(uint32_t word)
{
    uint32_t ones = 0;
    for (; word != 0; word >>= 1)
        ones += word & 1;
    return ones;
}

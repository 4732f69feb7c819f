/* Whole numbers as bytes, the lowest first. */
#ifndef LITTLE_ENDIAN_H
#define LITTLE_ENDIAN_H

#include <stdint.h>

static inline uint16_t get_2(const uint8_t *at)
{
    return (uint16_t)(at[0] | at[1] << 8);
}

static inline uint32_t get_4(const uint8_t *at)
{
    return (uint32_t)get_2(at) | (uint32_t)get_2(at + 2) << 16;
}

static inline uint8_t *put_1(uint8_t *at, uint8_t number)
{
    at[0] = number;
    return at + 1;
}

static inline uint8_t *put_2(uint8_t *at, uint16_t number)
{
    at[0] = (uint8_t)(number & 0xFF);
    at[1] = (uint8_t)(number >> 8);
    return at + 2;
}

static inline uint8_t *put_4(uint8_t *at, uint32_t number)
{
    return put_2(put_2(at, (uint16_t)(number & 0xFFFF)), (uint16_t)(number >> 16));
}

#endif

/* Numbers in bytes, lowest byte first: what the C programs of the harness share. */
#ifndef NUMBERS_H
#define NUMBERS_H

#include <stdint.h>

static inline void put_u16(uint8_t *at, uint32_t number)
{
    at[0] = (uint8_t)number;
    at[1] = (uint8_t)(number >> 8);
}

static inline void put_u32(uint8_t *at, uint32_t number)
{
    put_u16(at, number);
    put_u16(at + 2, number >> 16);
}

static inline uint32_t get_u16(const uint8_t *at)
{
    return (uint32_t)at[0] | (uint32_t)at[1] << 8;
}

static inline uint32_t get_u32(const uint8_t *at)
{
    return get_u16(at) | get_u16(at + 2) << 16;
}

#endif

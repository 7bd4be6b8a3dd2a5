/* Numbers as files store them, and floats by their patterns. */
#ifndef BYTES_H
#define BYTES_H

#include <stdbool.h>
#include <stdint.h>
#include <string.h>

static inline uint16_t u16_at(const uint8_t *at) { return (uint16_t)(at[0] | at[1] << 8); }
static inline uint32_t u32_at(const uint8_t *at) { return u16_at(at) | (uint32_t)u16_at(at + 2) << 16; }
static inline uint64_t u64_at(const uint8_t *at) { return u32_at(at) | (uint64_t)u32_at(at + 4) << 32; }

/* As networks have them: the high byte first. */
static inline uint16_t u16_turned_at(const uint8_t *at) { return (uint16_t)(at[0] << 8 | at[1]); }
static inline uint32_t u32_turned_at(const uint8_t *at)
{
    return (uint32_t)u16_turned_at(at) << 16 | u16_turned_at(at + 2);
}

static inline uint32_t bits_of(float x)
{
    uint32_t bits;
    memcpy(&bits, &x, 4);
    return bits;
}

static inline bool is_nan(uint32_t bits) { return (bits & 0x7fffffffu) > 0x7f800000u; }

#endif

/* The rival with its CRC-16 by steps of 64 bits, and its CRC-5, without a table. */
#define NAME(f) wide_##f
#include "rival.h"

static inline uint16_t step8(uint16_t r, unsigned b) {
    unsigned t = r >> 8 ^ b;
    t ^= t >> 4;
    return (uint16_t)(r << 8 ^ t << 12 ^ t << 5 ^ t);
}
static inline uint16_t step16(uint16_t r, unsigned w) {
    unsigned x = (r ^ w) & 0xFFFF, t = x ^ x >> 4, q = t ^ t >> 8 ^ x >> 11;
    return (uint16_t)(q << 12 ^ q << 5 ^ q);
}
static inline uint16_t step_few(uint16_t r, unsigned b, unsigned k) {
    unsigned t = r >> (16 - k) ^ b;
    t ^= t >> 4;
    return (uint16_t)(r << k ^ t << 12 ^ t << 5 ^ t);
}
static inline uint16_t step64(uint16_t r, uint64_t w) {
    uint64_t x = (uint64_t)r << 48 ^ w;
    x ^= x >> 32;
    x ^= x >> 16 ^ x >> 44;
    x ^= x >> 8 ^ x >> 22 ^ x >> 32;
    x ^= x >> 4 ^ x >> 11 ^ x >> 16;
    return (uint16_t)(x << 12 ^ x << 5 ^ x);
}

/* a Query's last 18 bits modulo the CRC-5's generator, by its square; its code and the preset come to 10h */
static inline int crc5_wrong(const uint8_t *f) {
    unsigned v = (f[0] & 15u) << 14 | (unsigned)f[1] << 6 | f[2] >> 2, t = v >> 10;
    t ^= t >> 4;
    v ^= t << 6 ^ t;
    t = v >> 5 & 31;
    t ^= t >> 2 ^ t >> 4;
    return ((v ^ t << 3 ^ t) & 31) != 0x10;
}

#define WORDS_AT_ONCE 4
#include "tag.h"

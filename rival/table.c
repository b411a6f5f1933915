/* The rival with its CRC-16 by a byte table, and its CRC-5 by one for each byte of a Query. */
#define NAME(f) table_##f
#include "rival.h"

static uint16_t table[256];
static uint8_t five[3][256]; /* what each byte of a Query adds to its CRC-5, the preset with the first */

void table_start(void) {
    for (unsigned at = 0; at < 3; at++)
        for (unsigned i = 0; i < 256; i++) {
            unsigned r = 0, v = i << 14 >> 8 * at ^ (at ? 0 : 0x09 << 17);
            for (int k = 21; k >= 0; k--) r = (r << 1 ^ (v >> k & 1)) ^ (r & 16 ? 0x29 : 0);
            five[at][i] = (uint8_t)r;
        }
    for (unsigned i = 0; i < 256; i++) {
        unsigned r = i << 8;
        for (int k = 0; k < 8; k++) r = (r << 1 ^ (r & 0x8000 ? 0x1021 : 0)) & 0xFFFF;
        table[i] = (uint16_t)r;
    }
}

static inline uint16_t step8(uint16_t r, unsigned b) { return (uint16_t)(r << 8 ^ table[r >> 8 ^ b]); }
static inline uint16_t step16(uint16_t r, unsigned w) { return step8(step8(r, w >> 8), w & 255); }
/* k < 8 bits, the low ones of b */
static inline uint16_t step_few(uint16_t r, unsigned b, unsigned k) { return (uint16_t)(r << k ^ table[r >> (16 - k) ^ b]); }

static inline int crc5_wrong(const uint8_t *f) { return (five[0][f[0]] ^ five[1][f[1]] ^ five[2][f[2]]) != 0; }

#define WORDS_AT_ONCE 1
#include "tag.h"

/* Numbers of four bytes, and the checksum of write-ahead logs. */
#include <stddef.h>
#include <stdint.h>

static inline uint32_t big(const uint8_t *b) {
    return (uint32_t)b[0] << 24 | (uint32_t)b[1] << 16 | (uint32_t)b[2] << 8 | b[3];
}

static inline uint32_t little(const uint8_t *b) {
    return (uint32_t)b[3] << 24 | (uint32_t)b[2] << 16 | (uint32_t)b[1] << 8 | b[0];
}

/* Adds n bytes, a multiple of 8, to the two sums. */
static inline void add(uint32_t sum[2], const uint8_t *b, size_t n, int is_big) {
    uint32_t s0 = sum[0], s1 = sum[1];
    if (is_big)
        for (size_t i = 0; i < n; i += 8) {
            s0 += big(b + i) + s1;
            s1 += big(b + i + 4) + s0;
        }
    else
        for (size_t i = 0; i < n; i += 8) {
            s0 += little(b + i) + s1;
            s1 += little(b + i + 4) + s0;
        }
    sum[0] = s0;
    sum[1] = s1;
}

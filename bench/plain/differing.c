// The differing bits of two bodies, as far as the shorter goes.

#include <stddef.h>
#include <stdint.h>
#include <string.h>

uint16_t c_differing(const uint8_t *a, size_t a_len, const uint8_t *b, size_t b_len)
{
    size_t n = a_len < b_len ? a_len : b_len;
    size_t i = 0;
    unsigned d = 0;
    for (; n - i >= 8; i += 8) {
        uint64_t x, y;
        memcpy(&x, a + i, 8);
        memcpy(&y, b + i, 8);
        d += __builtin_popcountll(x ^ y);
    }
    if (n - i >= 4) {
        uint32_t x, y;
        memcpy(&x, a + i, 4);
        memcpy(&y, b + i, 4);
        d += __builtin_popcountll(x ^ y);
        i += 4;
    }
    for (; i < n; i++)
        d += __builtin_popcountll(a[i] ^ b[i]);
    return d;
}

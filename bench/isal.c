#include "isal.h"

#ifdef HAVE_ISAL
#include <isa-l/crc.h>

/*
 * Sets the upper parts of the vector registers to 0. This must follow each call of ISA-L: its CRC for AVX-512 returns
 * with numbers in them, and then SSE instructions, which keep the upper parts, are slower until somebody clears them.
 */
static void clear_upper_parts(void) {
    if (__builtin_cpu_supports("avx"))
        __asm__ volatile("vzeroupper");
}

static uint16_t base(uint16_t seed, const uint8_t *block, size_t length) {
    uint16_t found = crc16_t10dif_base(seed, (uint8_t *)block, length);
    clear_upper_parts();
    return found;
}

static uint16_t crc(uint16_t seed, const uint8_t *block, size_t length) {
    uint16_t found = crc16_t10dif(seed, block, length);
    clear_upper_parts();
    return found;
}

static uint16_t copy(uint16_t seed, uint8_t *to, const uint8_t *block, size_t length) {
    uint16_t found = crc16_t10dif_copy(seed, to, (uint8_t *)block, length);
    clear_upper_parts();
    return found;
}

const struct isal isal = {.installed = true, .base = base, .crc = crc, .copy = copy};
#else
const struct isal isal = {.installed = false};
#endif

/* ISA-L's CRCs for T10-DIF. */
#ifndef ISAL_H
#define ISAL_H

#include <stdbool.h>
#include <stddef.h>
#include <stdint.h>

/* ISA-L's functions, each followed by vzeroupper; all are NULL where ISA-L is not installed. */
struct isal {
    bool installed;
    /* Returns the CRC of a block, by ISA-L's table loop: crc16_t10dif_base. */
    uint16_t (*base)(uint16_t seed, const uint8_t *block, size_t length);
    /* Returns the CRC of a block, by the fastest code that ISA-L has for this processor: crc16_t10dif. */
    uint16_t (*crc)(uint16_t seed, const uint8_t *block, size_t length);
    /* Copies a block and returns its CRC: crc16_t10dif_copy. */
    uint16_t (*copy)(uint16_t seed, uint8_t *to, const uint8_t *block, size_t length);
};

extern const struct isal isal;

#endif

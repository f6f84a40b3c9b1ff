/*
 * The guard of a block by itself, from the crate blockguard. libgaroalva has no such call, so this header is not in
 * include/, and build/libblockguard.a is not installed. The benchmark uses both too.
 */
#ifndef BLOCK_GUARD_H
#define BLOCK_GUARD_H

#include <stddef.h>
#include <stdint.h>

/*
 * block_guard - compute the guard of a block.
 * guard_type     GAROALVA_GUARD_CRC or GAROALVA_GUARD_CHECKSUM; any other number counts as the latter
 * seed           for a CRC the register before the first byte, for a checksum the number that the words are added to
 * block          holds the block's bytes; may be null if length is 0
 * length         bytes of the block; a checksum counts a last odd byte as the high byte of a word
 *
 * Returns the register after the last byte, or the inverted sum.
 */
uint16_t block_guard(uint32_t guard_type, uint16_t seed, const uint8_t *block, size_t length);

#endif

/*
 * Tests of block_guard: the papers' numbers, then random blocks of every length up to LONGEST. Their guards are
 * compared with a CRC and a checksum that are written here, and with ISA-L's CRC if the test is built with ISA-L.
 */
#include "block_guard.h"
#include <garoalva.h>
#include <stdio.h>
#include <stdlib.h>
#ifdef HAVE_ISAL
#include <isa-l/crc.h>
#endif

enum { LONGEST = 9000, ALIGNMENTS = 8, MOST_PRINTED = 10 };

struct block {
    const uint8_t *bytes;
    size_t length;
    size_t alignment; /* how many bytes after the start of its heap block it begins; 0 for a constant */
};

static unsigned long comparisons, failures;

/* Counts a comparison of the guard that block_guard returned with another one, and prints the first ones that fail. */
static void compare(const char *with, uint16_t seed, struct block b, uint16_t returned, uint16_t guard) {
    comparisons++;
    if (returned == guard)
        return;
    failures++;
    if (failures <= MOST_PRINTED)
        fprintf(stderr, "%s: %zu bytes, alignment %zu, seed %04X: block_guard returns %04X, not %04X\n", with, b.length,
                b.alignment, seed, returned, guard);
}

/* --- the guards again, as their definitions say --- */

/* Divides by SBC-3's polynomial, bit by bit. */
static uint16_t divided_crc(uint16_t seed, struct block b) {
    const uint32_t polynomial = 0x18BB7;
    uint32_t remainder = seed;
    for (size_t i = 0; i < b.length; i++) {
        remainder ^= (uint32_t)b.bytes[i] << 8;
        for (int bit = 0; bit < 8; bit++) {
            remainder <<= 1;
            if (remainder >> 16 != 0)
                remainder ^= polynomial;
        }
    }
    return (uint16_t)remainder;
}

/* Adds the words one by one, and each carry at once. */
static uint16_t added_checksum(uint16_t seed, struct block b) {
    uint32_t sum = seed;
    for (size_t i = 0; i < b.length; i++) {
        sum += i % 2 == 0 ? (uint32_t)b.bytes[i] << 8 : b.bytes[i];
        sum = (sum & 0xFFFF) + (sum >> 16);
    }
    return (uint16_t)~sum;
}

#ifdef HAVE_ISAL
static const char isal_part[] = "with ISA-L";

/* vzeroupper need not follow: it changes the speed alone. */
static void compare_with_isal(uint16_t seed, struct block b, uint16_t crc) {
    compare("ISA-L", seed, b, crc, crc16_t10dif(seed, b.bytes, b.length));
}
#else
static const char isal_part[] = "without ISA-L";

static void compare_with_isal(uint16_t seed, struct block b, uint16_t crc) {
    (void)seed;
    (void)b;
    (void)crc;
}
#endif

/* --- numbers from the papers --- */

static const uint8_t zeros[32] = {0};
static const uint8_t two_ff[32] = {0xFF, 0xFF};
static const uint8_t all_ff[32] = {0xFF, 0xFF, 0xFF, 0xFF, 0xFF, 0xFF, 0xFF, 0xFF, 0xFF, 0xFF, 0xFF,
                                   0xFF, 0xFF, 0xFF, 0xFF, 0xFF, 0xFF, 0xFF, 0xFF, 0xFF, 0xFF, 0xFF,
                                   0xFF, 0xFF, 0xFF, 0xFF, 0xFF, 0xFF, 0xFF, 0xFF, 0xFF, 0xFF};
static const uint8_t rising[32] = {0,  1,  2,  3,  4,  5,  6,  7,  8,  9,  10, 11, 12, 13, 14, 15,
                                   16, 17, 18, 19, 20, 21, 22, 23, 24, 25, 26, 27, 28, 29, 30, 31};
static const uint8_t falling[32] = {0xFF, 0xFE, 0xFD, 0xFC, 0xFB, 0xFA, 0xF9, 0xF8, 0xF7, 0xF6, 0xF5,
                                    0xF4, 0xF3, 0xF2, 0xF1, 0xF0, 0xEF, 0xEE, 0xED, 0xEC, 0xEB, 0xEA,
                                    0xE9, 0xE8, 0xE7, 0xE6, 0xE5, 0xE4, 0xE3, 0xE2, 0xE1, 0xE0};
static const uint8_t rfc1071[8] = {0x00, 0x01, 0xF2, 0x03, 0xF4, 0xF5, 0xF6, 0xF7};
static const uint8_t one_to_four[8] = {0, 1, 0, 2, 0, 3, 0, 4};
static const uint8_t carry[8] = {0xFF, 0xFF, 0, 1};

/* SBC-3's blocks of 32 bytes, one of them with seed FFFF too; RFC 1071's example; the scope paper's cases E, F and G;
 * no byte at all. */
static const struct {
    const char *name;
    uint32_t guard_type;
    uint16_t seed;
    const uint8_t *bytes;
    size_t length;
    uint16_t guard;
} papers[] = {
    {"SBC-3, 00", GAROALVA_GUARD_CRC, 0, zeros, sizeof zeros, 0},
    {"00, seed FFFF", GAROALVA_GUARD_CRC, 0xFFFF, zeros, sizeof zeros, 0x21B8},
    {"SBC-3, FF", GAROALVA_GUARD_CRC, 0, all_ff, sizeof all_ff, 0xA293},
    {"SBC-3, 00 01 .. 1F", GAROALVA_GUARD_CRC, 0, rising, sizeof rising, 0x0224},
    {"SBC-3, FF FF 00 .. 00", GAROALVA_GUARD_CRC, 0, two_ff, sizeof two_ff, 0x21B8},
    {"SBC-3, FF FE .. E0", GAROALVA_GUARD_CRC, 0, falling, sizeof falling, 0xA0B7},
    {"RFC 1071", GAROALVA_GUARD_CHECKSUM, 0, rfc1071, sizeof rfc1071, 0x220D},
    {"E", GAROALVA_GUARD_CHECKSUM, 0, zeros, 8, 0xFFFF},
    {"E, seed FFFF", GAROALVA_GUARD_CHECKSUM, 0xFFFF, zeros, 8, 0},
    {"F", GAROALVA_GUARD_CHECKSUM, 0, one_to_four, sizeof one_to_four, 0xFFF5},
    {"F, seed FFFF", GAROALVA_GUARD_CHECKSUM, 0xFFFF, one_to_four, sizeof one_to_four, 0xFFF5},
    {"G", GAROALVA_GUARD_CHECKSUM, 0, carry, sizeof carry, 0xFFFE},
    {"null pointer", GAROALVA_GUARD_CRC, 0x1234, NULL, 0, 0x1234},
    {"null pointer, checksum", GAROALVA_GUARD_CHECKSUM, 0x1234, NULL, 0, 0xEDCB},
};

static void test_papers(void) {
    for (size_t i = 0; i < sizeof papers / sizeof *papers; i++) {
        struct block b = {papers[i].bytes, papers[i].length, 0};
        uint16_t guard = block_guard(papers[i].guard_type, papers[i].seed, b.bytes, b.length);
        compare(papers[i].name, papers[i].seed, b, guard, papers[i].guard);
    }
}

/* --- random blocks --- */

/* Marsaglia's xorshift. It returns the same numbers in each run, so that a failure comes again. */
static uint32_t random_number(void) {
    static uint32_t x = 1;
    x ^= x << 13;
    x ^= x >> 17;
    x ^= x << 5;
    return x;
}

/* Returns the length of a block's next part, which may be 0. The library takes different ways below 16, 512 and 1,024
 * bytes and from there on. Each of the limits is equally likely, so that parts go each of these ways. */
static size_t random_part(size_t rest) {
    static const size_t limits[] = {16, 512, 1024, LONGEST};
    size_t limit = limits[random_number() % (sizeof limits / sizeof *limits)];
    size_t length = random_number() % limit;
    return length < rest ? length : rest;
}

/* Computes the CRC of a block in random parts. Each part goes on from the register that the one before it left. */
static uint16_t crc_in_parts(uint16_t seed, struct block b) {
    uint16_t crc = seed;
    for (size_t at = 0, length; at < b.length; at += length) {
        length = random_part(b.length - at);
        crc = block_guard(GAROALVA_GUARD_CRC, crc, b.bytes + at, length);
    }
    return crc;
}

static void test_block(uint16_t seed, struct block b) {
    uint16_t crc = block_guard(GAROALVA_GUARD_CRC, seed, b.bytes, b.length);
    uint16_t checksum = block_guard(GAROALVA_GUARD_CHECKSUM, seed, b.bytes, b.length);
    compare("division", seed, b, crc, divided_crc(seed, b));
    compare("parts", seed, b, crc_in_parts(seed, b), crc);
    compare("sum", seed, b, checksum, added_checksum(seed, b));
    compare_with_isal(seed, b, crc);
}

/* Tests a random block. It ends where its heap block ends, and the bytes before it are not set, so that valgrind
 * notices if bytes outside are used. */
static void test_random(size_t length, size_t alignment) {
    uint8_t *memory = malloc(alignment + length);
    if (memory == NULL) {
        fputs("out of memory\n", stderr);
        exit(EXIT_FAILURE);
    }
    for (size_t i = alignment; i < alignment + length; i++)
        memory[i] = (uint8_t)(random_number() >> 24);
    test_block((uint16_t)random_number(), (struct block){memory + alignment, length, alignment});
    free(memory);
}

int main(void) {
    test_papers();
    for (size_t length = 0; length <= LONGEST; length++) {
        for (size_t alignment = 1; alignment <= ALIGNMENTS; alignment++)
            test_random(length, alignment);
    }
    printf("guard: %lu comparisons %s, %lu failed\n", comparisons, isal_part, failures);
    return failures == 0 ? EXIT_SUCCESS : EXIT_FAILURE;
}

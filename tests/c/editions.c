/* The editions of reference tags: which configure accepts, and what each counts. */
#include "tests.h"

/* Returns configure's answer for a domain on either side. A refused configure leaves the key as it was. */
static uint64_t answer_for(garoalva_domain domain, bool on_wire) {
    garoalva_configuration configuration = {.layout = {.entries = {{.count = STREAM}}, .used = 1, .repeat = 1}};
    if (on_wire)
        configuration.signature.wire = domain;
    else
        configuration.signature.memory = domain;
    garoalva_key fresh = garoalva_fresh();
    uint8_t memory[STREAM] = {0};
    garoalva_configure_result configured = garoalva_configure(fresh, memory, STREAM, configuration);
    if (configured.answer != GAROALVA_ANSWER_DONE)
        CHECK(same_key(configured.key, fresh));
    return configured.answer;
}

/* The first case is source code that was written for version 0.3: it names no edition. */
static void test_answers(void) {
    const struct {
        uint32_t kind, block_size, edition;
        uint64_t answer;
    } cases[] = {{GAROALVA_KIND_T10_DIF, 8, 0, GAROALVA_ANSWER_EDITION},
                 {GAROALVA_KIND_T10_DIF, 8, GAROALVA_EDITION_1, GAROALVA_ANSWER_DONE},
                 {GAROALVA_KIND_T10_DIF, 8, GAROALVA_EDITION_2, GAROALVA_ANSWER_EDITION},
                 {GAROALVA_KIND_T10_DIF, 512, 0, GAROALVA_ANSWER_EDITION},
                 {GAROALVA_KIND_T10_DIF, 512, GAROALVA_EDITION_1, GAROALVA_ANSWER_DONE},
                 {GAROALVA_KIND_T10_DIF, 512, GAROALVA_EDITION_2, GAROALVA_ANSWER_DONE},
                 {GAROALVA_KIND_T10_DIF, 512, 3, GAROALVA_ANSWER_EDITION},
                 {GAROALVA_KIND_T10_DIF, 520, GAROALVA_EDITION_2, GAROALVA_ANSWER_EDITION},
                 {GAROALVA_KIND_T10_DIF, 4096, GAROALVA_EDITION_2, GAROALVA_ANSWER_DONE},
                 {GAROALVA_KIND_T10_DIF, 4, 3, GAROALVA_ANSWER_BAD_DOMAIN},
                 {GAROALVA_KIND_NONE, 520, 3, GAROALVA_ANSWER_DONE}};
    for (size_t i = 0; i < sizeof cases / sizeof *cases; i++) {
        garoalva_domain domain = signed_domain(GAROALVA_GUARD_CRC);
        domain.kind = cases[i].kind;
        domain.block_size = cases[i].block_size;
        domain.edition = cases[i].edition;
        CHECK(answer_for(domain, false) == cases[i].answer);
        CHECK(answer_for(domain, true) == cases[i].answer);
    }
}

enum { SECTORS = 8, LARGE_BLOCK = SECTORS * GAROALVA_SECTOR_SIZE, LARGE_BLOCKS = 3 };
enum { LARGE_DATA = LARGE_BLOCKS * LARGE_BLOCK, LARGE_UNIT = LARGE_BLOCK + GAROALVA_FIELD_SIZE };

static uint32_t tag_after(const uint8_t *wire, size_t block) {
    const uint8_t *tag = wire + block * LARGE_UNIT + LARGE_BLOCK + 4;
    return (uint32_t)tag[0] << 24 | (uint32_t)tag[1] << 16 | (uint32_t)tag[2] << 8 | tag[3];
}

/* Sends three blocks of 4,096 bytes whose first tag is 0xFFFFFFFC. Their tags grow by this step, modulo 2^32. */
static void check_step(uint32_t edition, uint32_t step) {
    static uint8_t memory[LARGE_DATA], wire[LARGE_BLOCKS * LARGE_UNIT];
    garoalva_configuration configuration = {.layout = {.entries = {{.count = LARGE_DATA}}, .used = 1, .repeat = 1}};
    configuration.signature.wire = signed_domain(GAROALVA_GUARD_CHECKSUM);
    configuration.signature.wire.block_size = LARGE_BLOCK;
    configuration.signature.wire.reference_tag = 0xFFFFFFFC;
    configuration.signature.wire.edition = edition;
    garoalva_configure_result configured = garoalva_configure(garoalva_fresh(), memory, LARGE_DATA, configuration);
    CHECK(configured.answer == GAROALVA_ANSWER_DONE);
    garoalva_transfer_result sent = garoalva_send(configured.key, memory, LARGE_DATA, wire, sizeof wire, 0, LARGE_DATA);
    CHECK(sent.answer == GAROALVA_ANSWER_DONE);
    for (uint32_t block = 0; block < LARGE_BLOCKS; block++)
        CHECK(tag_after(wire, block) == 0xFFFFFFFC + block * step);
}

void test_editions(void) {
    test_answers();
    check_step(GAROALVA_EDITION_1, 1);
    check_step(GAROALVA_EDITION_2, SECTORS);
}

/* Every call that is lent bytes, with a null pointer and the length 0, accepted and refused. */
#include "tests.h"
#include <string.h>

/* A key with a seal of no version. */
static garoalva_key damaged_key(garoalva_key key) {
    key.seal ^= 0xFF;
    return key;
}

static void check_configure(garoalva_key key, garoalva_configuration configuration, uint64_t answer) {
    garoalva_configure_result configured = garoalva_configure(key, NULL, 0, configuration);
    CHECK(configured.answer == answer);
    CHECK(same_key(configured.key, key));
}

/* Memory of length 0 holds no piece, so configure refuses every layout over it. */
static void test_configure(void) {
    garoalva_configuration good = {.layout = {.entries = {{.count = 1}}, .used = 1, .repeat = 1}};
    garoalva_configuration bad_domain = good, no_entries = good;
    bad_domain.signature.wire.kind = 2;
    no_entries.layout.used = 0;
    check_configure(garoalva_fresh(), good, GAROALVA_ANSWER_OUTSIDE_MEMORY);
    check_configure(garoalva_fresh(), bad_domain, GAROALVA_ANSWER_BAD_DOMAIN);
    check_configure(garoalva_fresh(), no_entries, GAROALVA_ANSWER_MALFORMED_LAYOUT);
    check_configure(damaged_key(garoalva_fresh()), good, GAROALVA_ANSWER_NOT_A_KEY);
}

/* Sends and receives over this memory and a null wire. Both return this answer, move nothing and change nothing. */
static void check_transfers(garoalva_key key, uint8_t *memory, size_t memory_length, uint64_t offset,
                            uint64_t data_length, uint64_t answer) {
    garoalva_transfer_result results[] = {garoalva_send(key, memory, memory_length, NULL, 0, offset, data_length),
                                          garoalva_receive(key, memory, memory_length, NULL, 0, offset, data_length)};
    for (size_t i = 0; i < 2; i++) {
        CHECK(results[i].answer == answer);
        CHECK(results[i].taken == 0 && results[i].written == 0);
        CHECK(same_key(results[i].key, key));
    }
}

static void test_transfers(garoalva_key key) {
    uint8_t memory[STREAM], before[STREAM];
    memset(before, 0xA5, STREAM);
    memcpy(memory, before, STREAM);
    check_transfers(key, memory, STREAM, 0, 0, GAROALVA_ANSWER_DONE);
    check_transfers(key, memory, STREAM, STREAM, 0, GAROALVA_ANSWER_DONE);
    check_transfers(key, memory, STREAM, STREAM + 1, 0, GAROALVA_ANSWER_PAST_LAYOUT);
    check_transfers(key, memory, STREAM, 0, DATA, GAROALVA_ANSWER_SHORT_WIRE);
    check_transfers(key, NULL, 0, 0, 0, GAROALVA_ANSWER_MEMORY_LENGTH);
    check_transfers(key, NULL, 0, 0, DATA, GAROALVA_ANSWER_MEMORY_LENGTH);
    check_transfers(garoalva_fresh(), NULL, 0, 0, 0, GAROALVA_ANSWER_NOT_CONFIGURED);
    check_transfers(damaged_key(key), NULL, 0, 0, 0, GAROALVA_ANSWER_NOT_A_KEY);
    CHECK(memcmp(memory, before, STREAM) == 0);
}

static void check_open(garoalva_key key, uint64_t answer) {
    garoalva_open_result opened = garoalva_open(key, NULL, 0, 0, 0);
    CHECK(opened.answer == answer);
    CHECK(same_key(opened.key, key));
}

static void test_open(garoalva_key key) {
    check_open(key, GAROALVA_ANSWER_MEMORY_LENGTH);
    check_open(garoalva_fresh(), GAROALVA_ANSWER_NOT_CONFIGURED);
    check_open(damaged_key(key), GAROALVA_ANSWER_NOT_A_KEY);
}

/* A null packet is accepted: totals, session and memory stay. With a null memory it is refused, with any packet. */
static void check_empty_packet(garoalva_packet_result packet, uint8_t *memory) {
    uint8_t before[STREAM], byte = 0;
    memcpy(before, memory, STREAM);
    garoalva_packet_result accepted = garoalva_packet(packet.session, memory, STREAM, NULL, 0);
    CHECK(accepted.answer == GAROALVA_ANSWER_DONE);
    CHECK(accepted.taken == packet.taken && accepted.written == packet.written);
    CHECK(same_session(accepted.session, packet.session));
    CHECK(memcmp(memory, before, STREAM) == 0);
    garoalva_packet_result refused[] = {garoalva_packet(packet.session, NULL, 0, NULL, 0),
                                        garoalva_packet(packet.session, NULL, 0, &byte, 1)};
    for (size_t i = 0; i < 2; i++) {
        CHECK(refused[i].answer == GAROALVA_ANSWER_MEMORY_LENGTH);
        CHECK(refused[i].taken == 0 && refused[i].written == 0);
        CHECK(same_session(refused[i].session, packet.session));
    }
}

static void check_no_session(garoalva_session session) {
    garoalva_packet_result packet = garoalva_packet(session, NULL, 0, NULL, 0);
    CHECK(packet.answer == GAROALVA_ANSWER_NOT_A_SESSION);
    CHECK(same_session(packet.session, session));
}

/* Receives byte by byte, with null packets before each byte and after the last. */
static void test_packets(garoalva_key key, size_t wire_length, uint64_t data_length) {
    uint8_t memory[STREAM] = {0}, wire[STREAM] = {0};
    garoalva_open_result opened = garoalva_open(key, memory, STREAM, 0, data_length);
    CHECK(opened.answer == GAROALVA_ANSWER_DONE);
    garoalva_packet_result packet = {.session = opened.session};
    for (size_t i = 0; i < wire_length; i++) {
        check_empty_packet(packet, memory);
        packet = garoalva_packet(packet.session, memory, STREAM, &wire[i], 1);
        CHECK(packet.answer == GAROALVA_ANSWER_DONE);
    }
    check_empty_packet(packet, memory);
    garoalva_finish_result finished = garoalva_finish(packet.session);
    CHECK(finished.answer == GAROALVA_ANSWER_DONE);
    check_no_session(finished.session);
}

static void test_sides(garoalva_domain memory, garoalva_domain wire) {
    garoalva_key key = configured_key(memory, wire);
    test_transfers(key);
    test_open(key);
    test_packets(key, wire.kind == GAROALVA_KIND_T10_DIF ? STREAM : DATA, DATA);
    test_packets(key, 0, 0);
}

void test_null_pointers(void) {
    garoalva_domain none = {.kind = GAROALVA_KIND_NONE};
    garoalva_domain crc = signed_domain(GAROALVA_GUARD_CRC), checksum = signed_domain(GAROALVA_GUARD_CHECKSUM);
    test_configure();
    check_no_session((garoalva_session){0});
    test_sides(none, none);
    test_sides(none, crc);
    test_sides(none, checksum);
    test_sides(crc, none);
    test_sides(crc, crc);
    test_sides(crc, checksum);
}

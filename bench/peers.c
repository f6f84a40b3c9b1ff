#include "peers.h"
#include "by_value.h"
#include "isal.h"
#include "ours.h"
#include <string.h>

/* Copies a block and returns its guard. */
typedef uint16_t (*guarded_copy)(uint16_t seed, uint8_t *to, const uint8_t *from, size_t length);

static uint16_t crc_table[256];

void make_crc_table(void) {
    for (uint32_t byte = 0; byte < 256; byte++) {
        uint32_t remainder = byte << 8;
        for (int bit = 0; bit < 8; bit++)
            remainder = remainder << 1 ^ (remainder & 0x8000 ? 0x8BB7 : 0);
        crc_table[byte] = (uint16_t)remainder;
    }
}

uint16_t table_crc(uint16_t seed, const uint8_t *data, size_t length) {
    uint16_t crc = seed;
    for (size_t i = 0; i < length; i++)
        crc = (uint16_t)(crc << 8 ^ crc_table[crc >> 8 ^ data[i]]);
    return crc;
}

uint16_t byte_checksum(uint16_t seed, const uint8_t *data, size_t length) {
    uint32_t sum = seed;
    for (size_t i = 0; i < length; i += 2)
        sum += (uint32_t)(data[i] << 8 | data[i + 1]);
    while (sum > 0xFFFF)
        sum = (sum & 0xFFFF) + (sum >> 16);
    return (uint16_t)~sum;
}

static uint16_t copy_with_table(uint16_t seed, uint8_t *to, const uint8_t *from, size_t length) {
    memcpy(to, from, length);
    return table_crc(seed, from, length);
}

static uint16_t copy_with_checksum(uint16_t seed, uint8_t *to, const uint8_t *from, size_t length) {
    memcpy(to, from, length);
    return byte_checksum(seed, from, length);
}

static uint16_t copy_without_guard(uint16_t seed, uint8_t *to, const uint8_t *from, size_t length) {
    memcpy(to, from, length);
    return seed;
}

void put_reference(uint8_t *field, size_t index) {
    uint32_t tag = (uint32_t)(REFERENCE_TAG + index);
    field[4] = (uint8_t)(tag >> 24);
    field[5] = (uint8_t)(tag >> 16);
    field[6] = (uint8_t)(tag >> 8);
    field[7] = (uint8_t)tag;
}

void put_field(uint8_t *field, uint16_t guard, size_t index) {
    field[0] = (uint8_t)(guard >> 8);
    field[1] = (uint8_t)guard;
    field[2] = APPLICATION_TAG >> 8;
    field[3] = APPLICATION_TAG & 0xFF;
    put_reference(field, index);
}

static bool is_field(const uint8_t *field, uint16_t guard, size_t index) {
    uint8_t right[FIELD];
    put_field(right, guard, index);
    return memcmp(field, right, FIELD) == 0;
}

static void move_block(struct scene *s, enum direction direction, guarded_copy copy, uint8_t *in_memory,
                       uint8_t *on_wire, size_t index) {
    size_t block = s->shape.block;
    const uint8_t *from = direction == SEND ? in_memory : on_wire;
    uint8_t *to = direction == SEND ? on_wire : in_memory;
    uint16_t guard = copy(scene_seed(s), to, from, block);
    if (s->shape.signing == PLAIN)
        return;
    bool copying = s->shape.signing == COPYING;
    if (copying)
        memcpy(to + block, from + block, FIELD);
    else if (direction == SEND)
        put_field(to + block, guard, index);
    if (copying || direction == RECEIVE)
        s->bad_blocks += !is_field(from + block, guard, index);
}

static void move_blocks(struct scene *s, enum direction direction, guarded_copy copy) {
    size_t per_piece = s->shape.blocks / s->shape.pieces;
    uint8_t *on_wire = s->wire;
    size_t index = 0;
    for (size_t piece = 0; piece < s->shape.pieces; piece++) {
        uint8_t *in_memory = s->memory + piece * s->stride;
        for (size_t i = 0; i < per_piece; i++) {
            move_block(s, direction, copy, in_memory, on_wire, index++);
            in_memory += s->memory_unit;
            on_wire += s->wire_unit;
        }
    }
}

void run_loop(struct scene *s, enum direction direction) {
    switch (s->shape.signing) {
    case PLAIN:
        move_blocks(s, direction, copy_without_guard);
        break;
    case CHECKSUM:
        move_blocks(s, direction, copy_with_checksum);
        break;
    default:
        move_blocks(s, direction, copy_with_table);
    }
}

static uint16_t copy_with_isal(uint16_t seed, uint8_t *to, const uint8_t *from, size_t length) {
    memcpy(to, from, length);
    return isal.crc(seed, from, length);
}

void run_isal(struct scene *s, enum direction direction) { move_blocks(s, direction, copy_with_isal); }

void run_isal_copy(struct scene *s, enum direction direction) { move_blocks(s, direction, isal.copy); }

void run_memcpy(struct scene *s, enum direction direction) {
    bool plain = s->shape.signing == PLAIN;
    uint8_t *wire = plain ? s->wire : s->spare, *memory = plain ? s->memory : s->spare;
    for (size_t i = 0; i < s->shape.pieces; i++) {
        if (direction == SEND)
            memcpy(wire + i * s->piece, s->memory + i * s->stride, s->piece);
        else
            memcpy(memory + i * s->stride, s->wire + i * s->piece, s->piece);
    }
}

typedef garoalva_packet_result (*packet_call)(garoalva_session session, uint8_t *memory, size_t memory_length,
                                              const uint8_t *bytes, size_t length);

static void run_calls(struct scene *s, packet_call call) {
    garoalva_packet_result packet = {.session = open_session(s, 0)};
    for (size_t from = 0; from < s->wire_length; from += PACKET) {
        size_t length = s->wire_length - from < PACKET ? s->wire_length - from : PACKET;
        packet = call(packet.session, s->memory, s->memory_length, s->wire + from, length);
        if (packet.answer != GAROALVA_ANSWER_DONE)
            fail("a packet in C was refused", s);
    }
    finish_session(s, packet.session);
}

void run_untested(struct scene *s, enum direction direction) {
    (void)direction;
    run_calls(s, packet_untested);
}

void run_by_hand(struct scene *s, enum direction direction) {
    (void)direction;
    run_calls(s, packet_by_hand);
}

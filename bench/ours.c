#include "ours.h"

static size_t layout_offset(const struct scene *s, size_t call) {
    return call * (s->shape.blocks / s->calls) * s->memory_unit;
}

static garoalva_transfer_result transfer(struct scene *s, enum direction direction, size_t call) {
    size_t offset = layout_offset(s, call), data = s->data_length / s->calls;
    size_t wire_length = s->wire_length / s->calls;
    uint8_t *wire = s->wire + call * wire_length;
    if (direction == SEND)
        return garoalva_send(s->key, s->memory, s->memory_length, wire, wire_length, offset, data);
    return garoalva_receive(s->key, s->memory, s->memory_length, wire, wire_length, offset, data);
}

void run_ours(struct scene *s, enum direction direction) {
    for (size_t call = 0; call < s->calls; call++) {
        garoalva_transfer_result transferred = transfer(s, direction, call);
        if (transferred.answer != GAROALVA_ANSWER_DONE)
            fail("a transfer was refused", s);
        s->key = transferred.key;
    }
}

garoalva_session open_session(struct scene *s, size_t call) {
    garoalva_open_result opened =
        garoalva_open(s->key, s->memory, s->memory_length, layout_offset(s, call), s->data_length / s->calls);
    if (opened.answer != GAROALVA_ANSWER_DONE)
        fail("open was refused", s);
    return opened.session;
}

garoalva_session receive_packets(struct scene *s, garoalva_session session, size_t from, size_t to) {
    garoalva_packet_result packet = {.session = session};
    while (from < to) {
        size_t length = to - from < PACKET ? to - from : PACKET;
        packet = garoalva_packet(packet.session, s->memory, s->memory_length, s->wire + from, length);
        if (packet.answer != GAROALVA_ANSWER_DONE)
            fail("a packet was refused", s);
        from += length;
    }
    return packet.session;
}

void finish_session(struct scene *s, garoalva_session session) {
    garoalva_finish_result finished = garoalva_finish(session);
    if (finished.answer != GAROALVA_ANSWER_DONE)
        fail("finish was refused", s);
    s->key = finished.key;
}

void run_packets(struct scene *s, enum direction direction) {
    (void)direction;
    size_t share = s->wire_length / s->calls;
    for (size_t call = 0; call < s->calls; call++)
        finish_session(s, receive_packets(s, open_session(s, call), call * share, (call + 1) * share));
}

size_t packet_count(const struct scene *s) { return (s->wire_length + PACKET - 1) / PACKET; }

void run_empty(struct scene *s, enum direction direction) {
    (void)direction;
    garoalva_packet_result packet = {.session = open_session(s, 0)};
    for (size_t i = 0; i < packet_count(s); i++) {
        packet = garoalva_packet(packet.session, s->memory, s->memory_length, s->wire, 0);
        if (packet.answer != GAROALVA_ANSWER_DONE)
            fail("an empty packet was refused", s);
    }
}

bool found_error(struct scene *s) {
    garoalva_check_result checked = garoalva_check(s->key);
    s->key = checked.key;
    return checked.answer != GAROALVA_ANSWER_DONE || checked.error.type != GAROALVA_ERROR_NONE;
}

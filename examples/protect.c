/*
 * Protects a buffer, sends it, receives it by packets, damages one bit on the wire, receives it again, and prints what
 * garoalva_check returns each time. The program looks at every answer, and goes on with the key or session that a call
 * returned.
 */
#include <garoalva.h>
#include <inttypes.h>
#include <stdio.h>
#include <stdlib.h>

enum { BLOCK = 512, BLOCKS = 8, DATA = BLOCKS * BLOCK, WIRE = BLOCKS * (BLOCK + GAROALVA_FIELD_SIZE), PACKET = 1500 };

static void stop_if_refused(const char *call, uint64_t answer) {
    if (answer != GAROALVA_ANSWER_DONE) {
        fprintf(stderr, "%s was refused: %s\n", call, garoalva_answer_text(answer));
        exit(EXIT_FAILURE);
    }
}

static garoalva_key configured_key(const uint8_t *memory) {
    garoalva_configuration configuration = {
        .layout = {.entries = {{.start = 0, .count = DATA, .skip = 0}}, .used = 1, .repeat = 1},
        .signature = {.memory = {.kind = GAROALVA_KIND_NONE},
                      .wire = {.kind = GAROALVA_KIND_T10_DIF,
                               .block_size = BLOCK,
                               .guard_type = GAROALVA_GUARD_CRC,
                               .seed = 0xFFFF,
                               .application_tag = 0x1234,
                               .reference_tag = 1000,
                               .flags = GAROALVA_REMAP,
                               .edition = GAROALVA_EDITION_1},
                      .check_mask = GAROALVA_MASK_GUARD | GAROALVA_MASK_APPLICATION | GAROALVA_MASK_REFERENCE}};
    garoalva_configure_result configured = garoalva_configure(garoalva_fresh(), memory, DATA, configuration);
    stop_if_refused("configure", configured.answer);
    return configured.key;
}

static garoalva_key receive_by_packets(garoalva_key key, uint8_t *memory, const uint8_t *wire) {
    garoalva_open_result opened = garoalva_open(key, memory, DATA, 0, DATA);
    stop_if_refused("open", opened.answer);
    garoalva_packet_result packet = {.session = opened.session};
    for (size_t at = 0; at < WIRE; at += PACKET) {
        size_t length = WIRE - at < PACKET ? WIRE - at : PACKET;
        packet = garoalva_packet(packet.session, memory, DATA, wire + at, length);
        stop_if_refused("packet", packet.answer);
        printf("packet of %zu bytes: %" PRIu64 " taken, %" PRIu64 " written\n", length, packet.taken, packet.written);
    }
    garoalva_finish_result finished = garoalva_finish(packet.session);
    stop_if_refused("finish", finished.answer);
    return finished.key;
}

static garoalva_key print_check(garoalva_key key) {
    garoalva_check_result checked = garoalva_check(key);
    stop_if_refused("check", checked.answer);
    char text[GAROALVA_ERROR_TEXT_SIZE];
    garoalva_error_text(checked.error, text, sizeof text);
    printf("check: %s\n", text);
    return checked.key;
}

int main(void) {
    static uint8_t memory[DATA], wire[WIRE];
    for (size_t i = 0; i < DATA; i++)
        memory[i] = (uint8_t)(i * 7);
    garoalva_transfer_result sent = garoalva_send(configured_key(memory), memory, DATA, wire, WIRE, 0, DATA);
    stop_if_refused("send", sent.answer);
    printf("sent: %" PRIu64 " taken, %" PRIu64 " written\n", sent.taken, sent.written);
    garoalva_key key = print_check(receive_by_packets(sent.key, memory, wire));
    wire[3 * (BLOCK + GAROALVA_FIELD_SIZE) + 100] ^= 1;
    puts("damaged: one bit of block 3");
    print_check(receive_by_packets(key, memory, wire));
    return EXIT_SUCCESS;
}

/* A library that does nothing. tests/versions/run compiles it with a changed header, whose keys have a field `more`. */
#include "garoalva.h"

garoalva_key garoalva_fresh(void) { return (garoalva_key){.more = {0}}; }

garoalva_configure_result garoalva_configure(garoalva_key key, const uint8_t *memory, size_t memory_length,
                                             garoalva_configuration configuration) {
    (void)memory, (void)memory_length, (void)configuration;
    return (garoalva_configure_result){.key = key};
}

garoalva_transfer_result garoalva_send(garoalva_key key, const uint8_t *memory, size_t memory_length, uint8_t *wire,
                                       size_t wire_length, uint64_t offset, uint64_t data_length) {
    (void)memory, (void)memory_length, (void)wire, (void)wire_length, (void)offset, (void)data_length;
    return (garoalva_transfer_result){.key = key};
}

garoalva_transfer_result garoalva_receive(garoalva_key key, uint8_t *memory, size_t memory_length, const uint8_t *wire,
                                          size_t wire_length, uint64_t offset, uint64_t data_length) {
    (void)memory, (void)memory_length, (void)wire, (void)wire_length, (void)offset, (void)data_length;
    return (garoalva_transfer_result){.key = key};
}

garoalva_check_result garoalva_check(garoalva_key key) { return (garoalva_check_result){.key = key}; }

garoalva_open_result garoalva_open(garoalva_key key, const uint8_t *memory, size_t memory_length, uint64_t offset,
                                   uint64_t data_length) {
    (void)memory, (void)memory_length, (void)offset, (void)data_length;
    return (garoalva_open_result){.key = key};
}

garoalva_packet_result garoalva_packet(garoalva_session session, uint8_t *memory, size_t memory_length,
                                       const uint8_t *bytes, size_t bytes_length) {
    (void)memory, (void)memory_length, (void)bytes, (void)bytes_length;
    return (garoalva_packet_result){.session = session};
}

garoalva_finish_result garoalva_finish(garoalva_session session) {
    return (garoalva_finish_result){.key = session.key};
}

garoalva_abandon_result garoalva_abandon(garoalva_session session) {
    return (garoalva_abandon_result){.key = session.key};
}

const char *garoalva_version(void) { return GAROALVA_VERSION; }

const char *garoalva_answer_text(uint64_t answer) { return answer == GAROALVA_ANSWER_DONE ? "done" : "refused"; }

size_t garoalva_error_text(garoalva_error error, char *text, size_t size) {
    (void)text, (void)size;
    return error.type;
}

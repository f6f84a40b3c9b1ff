/* These calls have a file of their own, so that the compiler cannot inline them into their callers. */
#include "by_value.h"
#include <stdbool.h>
#include <string.h>

/* The seals: "GAROKEY" and "GAROSES", then the struct version. */
static const uint64_t key_seal = 0x4741524F4B455900 | GAROALVA_STRUCT_VERSION;
static const uint64_t session_seal = 0x4741524F53455300 | GAROALVA_STRUCT_VERSION;

/* Moves both sides of the session forward by this many bytes. It takes a pointer: by value the session would be copied
 * once more. */
static void advance(garoalva_session *session, size_t length) {
    session->input.index += length;
    session->output.index = session->input.index;
}

garoalva_packet_result packet_untested(garoalva_session session, uint8_t *memory, size_t memory_length,
                                       const uint8_t *bytes, size_t length) {
    (void)memory_length;
    memcpy(memory + session.input.index, bytes, length);
    advance(&session, length);
    return (garoalva_packet_result){.session = session, .taken = session.input.index, .written = session.output.index};
}

static uint64_t piece_start(const garoalva_entry *e, uint64_t repeat) {
    return e->start + repeat * ((uint64_t)e->count + e->skip);
}

/* Returns the number of the layout's bytes, or 0 if the layout is not valid over this memory. */
static uint64_t total_of(const garoalva_layout *l, uint64_t memory_length) {
    if (l->used == 0 || l->used > GAROALVA_ENTRIES || l->repeat == 0 ||
        (uint64_t)l->used * l->repeat > GAROALVA_PIECES || memory_length > GAROALVA_MEMORY_LIMIT)
        return 0;
    uint64_t sum = 0;
    for (uint32_t i = 0; i < l->used; i++) {
        const garoalva_entry *e = &l->entries[i];
        if (e->count == 0 || e->start > memory_length || piece_start(e, l->repeat - 1) + e->count > memory_length)
            return 0;
        sum += e->count;
    }
    sum *= l->repeat;
    return sum <= memory_length ? sum : 0;
}

static bool error_valid(const garoalva_error *e) {
    return e->type == 0 ? (e->actual | e->expected | e->offset | e->differing) == 0
                        : e->type <= GAROALVA_ERROR_APPLICATION;
}

/* Whether this is a side of an unsigned session, in which each byte is a block. */
static bool side_valid(const garoalva_side *s) { return s->at == 0 && s->odd < 2 && s->spare == 0; }

/* Whether this is a session with no signature that garoalva_open, or a packet, may have returned. */
static bool session_valid(const garoalva_session *s, uint64_t total) {
    const garoalva_key *k = &s->key;
    const garoalva_signature *g = &k->signature;
    return s->seal == session_seal && k->seal == key_seal && k->configured == 1 && total > 0 && g->memory.kind == 0 &&
           g->wire.kind == 0 && g->attribute_flags == 0 && g->spare == 0 && s->spare == 0 && error_valid(&k->error) &&
           error_valid(&s->error) && side_valid(&s->input) && side_valid(&s->output) && s->data_length <= total &&
           s->offset <= total - s->data_length && s->input.index <= s->data_length && s->output.index == s->input.index;
}

/* Writes the bytes to memory, from byte `at` of the layout on. */
static void place(const garoalva_layout *l, uint64_t total, uint64_t at, uint8_t *memory, const uint8_t *bytes,
                  size_t length) {
    uint64_t span = total / l->repeat, repeat = at / span, x = at % span;
    uint32_t i = 0;
    while (length > 0) {
        const garoalva_entry *e = &l->entries[i];
        if (x < e->count) {
            size_t run = e->count - x < length ? e->count - x : length;
            memcpy(memory + piece_start(e, repeat) + x, bytes, run);
            bytes += run;
            length -= run;
            x = 0;
        } else {
            x -= e->count;
        }
        if (++i == l->used) {
            i = 0;
            repeat++;
        }
    }
}

garoalva_packet_result packet_by_hand(garoalva_session session, uint8_t *memory, size_t memory_length,
                                      const uint8_t *bytes, size_t length) {
    uint64_t total = total_of(&session.key.layout, session.key.memory_length);
    if (!session_valid(&session, total))
        return (garoalva_packet_result){.session = session, .answer = GAROALVA_ANSWER_NOT_A_SESSION};
    if (memory_length != session.key.memory_length)
        return (garoalva_packet_result){.session = session, .answer = GAROALVA_ANSWER_MEMORY_LENGTH};
    if (length > session.data_length - session.input.index)
        return (garoalva_packet_result){.session = session, .answer = GAROALVA_ANSWER_LONG_PACKET};
    place(&session.key.layout, total, session.offset + session.input.index, memory, bytes, length);
    advance(&session, length);
    return (garoalva_packet_result){.session = session, .taken = session.input.index, .written = session.output.index};
}

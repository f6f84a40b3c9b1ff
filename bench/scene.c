#include "scene.h"
#include "buffers.h"
#include "peers.h"
#include <stdio.h>
#include <stdlib.h>

enum { GAP = 64 };

const char *const signing_names[SIGNINGS] = {"plain", "CRC seed 0", "CRC seed FFFF", "checksum",
                                             "both signed, copying"};

void fail(const char *what, const struct scene *s) {
    fprintf(stderr, "bench: %s: %s, blocks of %zu, %zu bytes, %zu pieces\n", what, signing_names[s->shape.signing],
            s->shape.block, s->data_length, s->shape.pieces);
    exit(EXIT_FAILURE);
}

size_t memory_unit(enum signing signing, size_t block) { return block + (signing == COPYING ? FIELD : 0); }

uint16_t scene_seed(const struct scene *s) { return s->shape.signing == CRC_ONES ? 0xFFFF : 0; }

uint8_t *block_in_memory(const struct scene *s, size_t index) {
    size_t per_piece = s->shape.blocks / s->shape.pieces;
    return s->memory + index / per_piece * s->stride + index % per_piece * s->memory_unit;
}

uint8_t *block_on_wire(const struct scene *s, size_t index) { return s->wire + index * s->wire_unit; }

static garoalva_domain domain(const struct scene *s, bool is_signed) {
    return (garoalva_domain){
        .kind = is_signed ? GAROALVA_KIND_T10_DIF : GAROALVA_KIND_NONE,
        .block_size = (uint32_t)s->shape.block,
        .guard_type = s->shape.signing == CHECKSUM ? GAROALVA_GUARD_CHECKSUM : GAROALVA_GUARD_CRC,
        .reference_tag = REFERENCE_TAG,
        .seed = scene_seed(s),
        .application_tag = APPLICATION_TAG,
        .flags = GAROALVA_REMAP,
        .edition = GAROALVA_EDITION_1,
    };
}

/* The pieces lie in memory one after the other, with a gap between: repeat 0 of all entries, then repeat 1, and so on.
 */
static garoalva_layout layout(const struct scene *s) {
    uint32_t used = s->shape.pieces < GAROALVA_ENTRIES ? (uint32_t)s->shape.pieces : GAROALVA_ENTRIES;
    garoalva_layout made = {.used = used, .repeat = (uint32_t)s->shape.pieces / used};
    for (uint32_t i = 0; i < used; i++) {
        made.entries[i] = (garoalva_entry){
            .start = i * s->stride, .count = (uint32_t)s->piece, .skip = (uint32_t)(used * s->stride - s->piece)};
    }
    return made;
}

static garoalva_key key(const struct scene *s) {
    garoalva_configuration configuration = {
        .layout = layout(s),
        .signature = {.memory = domain(s, s->shape.signing == COPYING),
                      .wire = domain(s, s->shape.signing != PLAIN),
                      .check_mask = 0xFF},
    };
    garoalva_configure_result configured =
        garoalva_configure(garoalva_fresh(), s->memory, s->memory_length, configuration);
    if (configured.answer != GAROALVA_ANSWER_DONE)
        fail("configure was refused", s);
    return configured.key;
}

static void fill_memory(struct scene *s) {
    uint32_t pattern = 1;
    for (size_t i = 0; i < s->shape.blocks; i++) {
        uint8_t *block = block_in_memory(s, i);
        pattern = fill_pattern(pattern, block, s->shape.block);
        if (s->shape.signing == COPYING)
            put_field(block + s->shape.block, table_crc(0, block, s->shape.block), i);
    }
}

struct scene make_scene(struct shape shape) {
    struct scene s = {.shape = shape, .calls = 1};
    s.memory_unit = memory_unit(shape.signing, shape.block);
    s.wire_unit = shape.block + (shape.signing == PLAIN ? 0 : FIELD);
    s.piece = shape.blocks / shape.pieces * s.memory_unit;
    s.stride = s.piece + (shape.pieces == 1 ? 0 : GAP);
    s.memory_length = shape.pieces * s.stride;
    s.wire_length = shape.blocks * s.wire_unit;
    s.data_length = shape.blocks * shape.block;
    s.memory = make_buffer(s.memory_length);
    s.wire = make_buffer(s.wire_length);
    s.spare = make_buffer(s.memory_length > s.wire_length ? s.memory_length : s.wire_length);
    s.key = key(&s);
    fill_memory(&s);
    run_loop(&s, SEND);
    return s;
}

void cut_scene(struct scene *s, size_t calls) {
    size_t per_call = s->shape.blocks / calls;
    s->calls = calls;
    for (size_t i = 0; i < s->shape.blocks; i++) {
        if (s->shape.signing != PLAIN)
            put_reference(block_on_wire(s, i) + s->shape.block, i % per_call);
        if (s->shape.signing == COPYING)
            put_reference(block_in_memory(s, i) + s->shape.block, i % per_call);
    }
}

void free_scene(struct scene *s) {
    free(s->memory);
    free(s->wire);
    free(s->spare);
}

/* A transfer to be measured: its streams, the layout of its memory, its key. */
#ifndef SCENE_H
#define SCENE_H

#include <garoalva.h>
#include <stdbool.h>

enum { FIELD = GAROALVA_FIELD_SIZE, APPLICATION_TAG = 0x1234, REFERENCE_TAG = 1000 };

enum direction { SEND, RECEIVE };

/* How wire and memory are signed. With COPYING both have the same CRC domain, so that fields are copied. */
enum signing { PLAIN, CRC_ZERO, CRC_ONES, CHECKSUM, COPYING, SIGNINGS };

extern const char *const signing_names[SIGNINGS];

struct shape {
    enum signing signing;
    size_t block; /* data bytes of a block; with PLAIN it only sets the sizes below */
    size_t blocks;
    size_t pieces; /* pieces of memory, each with the same number of whole blocks */
};

struct scene {
    struct shape shape;
    size_t memory_unit, wire_unit; /* bytes of a block in each stream, with its field if it has one */
    size_t piece, stride;          /* bytes of a piece, and from the start of one piece to the start of the next */
    size_t memory_length, wire_length, data_length;
    uint8_t *memory, *wire;
    uint8_t *spare; /* room for either stream */
    size_t calls;   /* calls of the library, each of which moves an equal share of the blocks; 1 at first */
    garoalva_key key;
    size_t bad_blocks; /* bad blocks that peers have found */
};

/* Makes a scene. Memory holds a pattern, with right fields if it is signed; the wire holds what a send of it writes. */
struct scene make_scene(struct shape shape);
void free_scene(struct scene *s);

/* Makes the library move the blocks in this many calls, each of which begins the reference tags anew. Peers still move
 * all blocks in one run. */
void cut_scene(struct scene *s, size_t calls);

size_t memory_unit(enum signing signing, size_t block);
uint16_t scene_seed(const struct scene *s);
uint8_t *block_in_memory(const struct scene *s, size_t index);
uint8_t *block_on_wire(const struct scene *s, size_t index);

_Noreturn void fail(const char *what, const struct scene *s);

#endif

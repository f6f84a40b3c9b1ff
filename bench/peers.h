/* The peers that the library is compared with. Each does the whole job of a scene, block by block. */
#ifndef PEERS_H
#define PEERS_H

#include "scene.h"

/* Must be called before all other functions here. */
void make_crc_table(void);

/* Return the guard of a block: a CRC by a table, and a checksum of an even number of bytes, read one by one. */
uint16_t table_crc(uint16_t seed, const uint8_t *data, size_t length);
uint16_t byte_checksum(uint16_t seed, const uint8_t *data, size_t length);
/* Write the field of the block with this index, and its reference tag alone. */
void put_field(uint8_t *field, uint16_t guard, size_t index);
void put_reference(uint8_t *field, size_t index);

/* Runs a guard loop in plain C, then memcpy. The loop is one of the two above. */
void run_loop(struct scene *s, enum direction direction);
/* Run ISA-L's crc16_t10dif, then memcpy; and its crc16_t10dif_copy. Both need ISA-L, and neither is for checksums. */
void run_isal(struct scene *s, enum direction direction);
void run_isal_copy(struct scene *s, enum direction direction);
/* Receives packets by a call that tests nothing, for unsigned scenes of one piece: the least cost of a call by value.
 */
void run_untested(struct scene *s, enum direction direction);
/* Receives packets by the call written by hand, for unsigned scenes. */
void run_by_hand(struct scene *s, enum direction direction);
/* Copies the memory stream's bytes, piece by piece, without guards and fields. If the scene is signed they go to the
 * spare buffer, so that memory and wire keep their fields. */
void run_memcpy(struct scene *s, enum direction direction);

#endif

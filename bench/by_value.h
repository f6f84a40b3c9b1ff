/* Calls in C with the arguments and the result of garoalva_packet, by value. */
#ifndef BY_VALUE_H
#define BY_VALUE_H

#include <garoalva.h>

/* Does the least that such a call can do: it copies the bytes and counts them, for a session with no signature over one
 * piece that begins at the memory's first byte. It tests nothing. */
garoalva_packet_result packet_untested(garoalva_session session, uint8_t *memory, size_t memory_length,
                                       const uint8_t *bytes, size_t length);
/* The packet call written by hand in C, without a proof, for sessions with no signature; it refuses any other. It tests
 * the session as garoalva_packet must, so that no struct makes it touch a byte that it was not lent. */
garoalva_packet_result packet_by_hand(garoalva_session session, uint8_t *memory, size_t memory_length,
                                      const uint8_t *bytes, size_t length);

#endif

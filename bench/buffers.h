/* Buffers, and a pattern to fill them with. */
#ifndef BUFFERS_H
#define BUFFERS_H

#include <stddef.h>
#include <stdint.h>

/* Returns a buffer of zeros that begins with a page. The caller frees it. */
uint8_t *make_buffer(size_t length);
/* Fills bytes with numbers that look random and follow from the state. Returns the state to go on with. */
uint32_t fill_pattern(uint32_t state, uint8_t *bytes, size_t length);

#endif

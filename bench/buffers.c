#include "buffers.h"
#include <stdio.h>
#include <stdlib.h>
#include <string.h>

enum { PAGE = 4096 };

uint8_t *make_buffer(size_t length) {
    uint8_t *bytes = aligned_alloc(PAGE, (length + PAGE - 1) / PAGE * PAGE);
    if (bytes == NULL) {
        fputs("bench: out of memory\n", stderr);
        exit(EXIT_FAILURE);
    }
    memset(bytes, 0, length);
    return bytes;
}

uint32_t fill_pattern(uint32_t state, uint8_t *bytes, size_t length) {
    for (size_t i = 0; i < length; i++) {
        state = state * 1103515245u + 12345u;
        bytes[i] = (uint8_t)(state >> 16);
    }
    return state;
}

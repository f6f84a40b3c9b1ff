/* Words for answers and errors, and the version. The Rust crate says the same words, and its tests compare them. */
#include "garoalva.h"
#include <inttypes.h>
#include <stdio.h>

const char *garoalva_version(void) { return GAROALVA_VERSION; }

const char *garoalva_answer_text(uint64_t answer) {
    switch (answer) {
    case GAROALVA_ANSWER_DONE:
        return "done";
    case GAROALVA_ANSWER_BAD_DOMAIN:
        return "a domain's kind, block size, guard type, seed or flags, or the attribute flags, are not valid";
    case GAROALVA_ANSWER_ESCAPE_TAG:
        return "a domain with an escape flag has the application tag 0xFFFF, so that its blocks could go unchecked";
    case GAROALVA_ANSWER_COPY_MASK:
        return "a copy mask is given, but the two sides are not both signed with one block size";
    case GAROALVA_ANSWER_BLOCK_SIZES:
        return "the two sides are signed with different block sizes";
    case GAROALVA_ANSWER_MALFORMED_LAYOUT:
        return "the layout has no entries or too many, a repeat or count of 0, or too many pieces";
    case GAROALVA_ANSWER_OUTSIDE_MEMORY:
        return "a piece of the layout ends beyond the memory";
    case GAROALVA_ANSWER_OVERLAP:
        return "two pieces of the layout share a byte";
    case GAROALVA_ANSWER_MEMORY_LENGTH:
        return "the memory is longer than the limit, or not of the configured length";
    case GAROALVA_ANSWER_PARTIAL_BLOCK:
        return "the data length is not a multiple of the block size";
    case GAROALVA_ANSWER_PAST_LAYOUT:
        return "the memory stream ends beyond the layout";
    case GAROALVA_ANSWER_SHORT_WIRE:
        return "the wire buffer is shorter than the wire stream";
    case GAROALVA_ANSWER_LONG_PACKET:
        return "the packet is longer than the wire bytes still to come";
    case GAROALVA_ANSWER_BYTES_TO_COME:
        return "not all wire bytes have arrived";
    case GAROALVA_ANSWER_NOT_CONFIGURED:
        return "the key was never configured";
    case GAROALVA_ANSWER_EDITION:
        return "a domain's edition is not 1 or 2, or it is 2 and the block size is not a multiple of 512";
    case GAROALVA_ANSWER_NOT_A_KEY:
        return "the struct is not a key of the library's version; an accepted open, a refused finish and a refused "
               "abandon return none";
    case GAROALVA_ANSWER_NOT_A_SESSION:
        return "the struct is not a session of the library's version; a refused open and an accepted finish return "
               "none";
    default:
        return "unknown answer";
    }
}

/* The guard and the tags by error type: the name of each, its first byte in a field, and how many bytes it has. */
static const struct tag {
    const char *name;
    int first;
    int bytes;
} tags[] = {[GAROALVA_ERROR_GUARD] = {"guard", 0, 2},
            [GAROALVA_ERROR_REFERENCE] = {"reference tag", 4, 4},
            [GAROALVA_ERROR_APPLICATION] = {"application tag", 2, 2}};

/* The words for a set of up to four bytes: 8 stands for byte 0, 4 for byte 1, 2 for byte 2 and 1 for byte 3. */
static const char *const byte_sets[] = {"no byte",       "byte 3",           "byte 2",           "bytes 2 and 3",
                                        "byte 1",        "bytes 1 and 3",    "bytes 1 and 2",    "bytes 1, 2 and 3",
                                        "byte 0",        "bytes 0 and 3",    "bytes 0 and 2",    "bytes 0, 2 and 3",
                                        "bytes 0 and 1", "bytes 0, 1 and 3", "bytes 0, 1 and 2", "bytes 0, 1, 2 and 3"};

/* Returns the tag's bytes in a mask, as a number of byte_sets. */
static uint32_t byte_set(uint32_t mask, const struct tag *tag) {
    uint32_t from_first = mask << tag->first & 0xFF;
    return from_first >> (8 - tag->bytes) << (4 - tag->bytes);
}

enum { DIFFERING_TEXT_SIZE = 64 };

/* Writes which bytes differ, as in "; checked bytes 0 and 1 of the guard differ", or nothing if the set is empty,
 * as it is only in an error that no call found. */
static void write_differing(uint32_t set, const struct tag *tag, char text[DIFFERING_TEXT_SIZE]) {
    int is_one = (set & (set - 1)) == 0;
    text[0] = 0;
    if (set != 0)
        snprintf(text, DIFFERING_TEXT_SIZE, "; checked %s of the %s differ%s", byte_sets[set], tag->name,
                 is_one ? "s" : "");
}

size_t garoalva_error_text(garoalva_error error, char *text, size_t size) {
    /* POSIX lets snprintf refuse a size above INT_MAX, and no text needs more than this. */
    size_t room = size < GAROALVA_ERROR_TEXT_SIZE ? size : GAROALVA_ERROR_TEXT_SIZE;
    if (error.type == GAROALVA_ERROR_NONE)
        return (size_t)snprintf(text, room, "no error");
    if (error.type > GAROALVA_ERROR_APPLICATION)
        return (size_t)snprintf(text, room, "unknown error type");
    const struct tag *tag = &tags[error.type];
    int digits = 2 * tag->bytes;
    char differing[DIFFERING_TEXT_SIZE];
    write_differing(byte_set(error.differing, tag), tag, differing);
    return (size_t)snprintf(text, room,
                            "bad %s in the block at byte %" PRIu32 " of the input stream: its field says 0x%0*" PRIX32
                            ", the rule gives 0x%0*" PRIX32 "%s",
                            tag->name, error.offset, digits, error.expected, digits, error.actual, differing);
}

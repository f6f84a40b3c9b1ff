/* The texts of answers and errors. That each is the Rust crate's is tested there. */
#include "tests.h"
#include <string.h>

enum { BUFFER = 2 * GAROALVA_ERROR_TEXT_SIZE, UNTOUCHED = 0x7E };

static const uint64_t answers[] = {
    GAROALVA_ANSWER_DONE,           GAROALVA_ANSWER_BAD_DOMAIN,    GAROALVA_ANSWER_ESCAPE_TAG,
    GAROALVA_ANSWER_COPY_MASK,      GAROALVA_ANSWER_BLOCK_SIZES,   GAROALVA_ANSWER_MALFORMED_LAYOUT,
    GAROALVA_ANSWER_OUTSIDE_MEMORY, GAROALVA_ANSWER_OVERLAP,       GAROALVA_ANSWER_MEMORY_LENGTH,
    GAROALVA_ANSWER_PARTIAL_BLOCK,  GAROALVA_ANSWER_PAST_LAYOUT,   GAROALVA_ANSWER_SHORT_WIRE,
    GAROALVA_ANSWER_LONG_PACKET,    GAROALVA_ANSWER_BYTES_TO_COME, GAROALVA_ANSWER_NOT_CONFIGURED,
    GAROALVA_ANSWER_EDITION,        GAROALVA_ANSWER_NOT_A_KEY,     GAROALVA_ANSWER_NOT_A_SESSION};
enum { ANSWERS = sizeof answers / sizeof *answers };

static bool is_known(const char *text) { return strcmp(text, "unknown answer") != 0; }

/* Every answer has words of its own, without a full stop or a line end, and no other number has any. */
static void test_answer_texts(void) {
    for (size_t i = 0; i < ANSWERS; i++) {
        const char *text = garoalva_answer_text(answers[i]);
        CHECK(is_known(text) && strlen(text) > 0 && strpbrk(text, ".\n") == NULL);
        for (size_t j = 0; j < i; j++)
            CHECK(strcmp(text, garoalva_answer_text(answers[j])) != 0);
    }
    size_t known = 0;
    for (uint64_t answer = 0; answer < 70000; answer++)
        known += is_known(garoalva_answer_text(answer));
    CHECK(known == ANSWERS);
    CHECK(!is_known(garoalva_answer_text(UINT64_MAX)));
    CHECK(!is_known(garoalva_answer_text((uint64_t)1 << 32)));
    CHECK(strcmp(garoalva_answer_text(GAROALVA_ANSWER_DONE), "done") == 0);
    CHECK(strcmp(garoalva_answer_text(GAROALVA_ANSWER_NOT_CONFIGURED), "the key was never configured") == 0);
}

/* The text in a buffer of this size: as much as fits, a final 0, and no byte more. */
static void check_cut(garoalva_error error, const char *text, size_t size) {
    char buffer[BUFFER], wanted[BUFFER];
    size_t length = strlen(text), kept = length < size ? length : size - 1;
    memset(buffer, UNTOUCHED, BUFFER);
    memset(wanted, UNTOUCHED, BUFFER);
    if (size > 0) {
        memcpy(wanted, text, kept);
        wanted[kept] = 0;
    }
    CHECK(garoalva_error_text(error, buffer, size) == length);
    CHECK(memcmp(buffer, wanted, BUFFER) == 0);
}

static void check_error_text(garoalva_error error, const char *text) {
    for (size_t size = 0; size <= strlen(text) + 2; size++)
        check_cut(error, text, size);
    check_cut(error, text, BUFFER);
    check_cut(error, text, SIZE_MAX);
    CHECK(garoalva_error_text(error, NULL, 0) == strlen(text));
    CHECK(strlen(text) < GAROALVA_ERROR_TEXT_SIZE);
}

/* A text for each type and for sets of bytes. The numbers are narrower than their field, which shows how many digits
 * are printed. Bits of other tags, and above the eight, are not said. */
static void test_error_texts(void) {
    static const struct {
        uint32_t type;
        uint32_t differing;
        const char *text;
    } rows[] = {
        {GAROALVA_ERROR_NONE, 0, "no error"},
        {GAROALVA_ERROR_GUARD, GAROALVA_MASK_GUARD,
         "bad guard in the block at byte 4160 of the input stream: its field says 0x00AB, the rule gives 0x09CD; "
         "checked bytes 0 and 1 of the guard differ"},
        {GAROALVA_ERROR_GUARD, 0x7F,
         "bad guard in the block at byte 4160 of the input stream: its field says 0x00AB, the rule gives 0x09CD; "
         "checked byte 1 of the guard differs"},
        {GAROALVA_ERROR_REFERENCE, GAROALVA_MASK_REFERENCE,
         "bad reference tag in the block at byte 4160 of the input stream: its field says 0x000000AB, the rule gives "
         "0x000009CD; checked bytes 0, 1, 2 and 3 of the reference tag differ"},
        {GAROALVA_ERROR_REFERENCE, 0xFFFFFF0B,
         "bad reference tag in the block at byte 4160 of the input stream: its field says 0x000000AB, the rule gives "
         "0x000009CD; checked bytes 0, 2 and 3 of the reference tag differ"},
        {GAROALVA_ERROR_APPLICATION, GAROALVA_MASK_APPLICATION,
         "bad application tag in the block at byte 4160 of the input stream: its field says 0x00AB, the rule gives "
         "0x09CD; checked bytes 0 and 1 of the application tag differ"},
        {GAROALVA_ERROR_APPLICATION, 0xEF,
         "bad application tag in the block at byte 4160 of the input stream: its field says 0x00AB, the rule gives "
         "0x09CD; checked byte 0 of the application tag differs"},
        {GAROALVA_ERROR_APPLICATION, 0xCF,
         "bad application tag in the block at byte 4160 of the input stream: its field says 0x00AB, the rule gives "
         "0x09CD"},
        {GAROALVA_ERROR_APPLICATION + 1, 0, "unknown error type"},
        {UINT32_MAX, UINT32_MAX, "unknown error type"},
    };
    for (size_t i = 0; i < sizeof rows / sizeof *rows; i++) {
        garoalva_error error = {
            .type = rows[i].type, .actual = 0x9CD, .expected = 0xAB, .offset = 4160, .differing = rows[i].differing};
        check_error_text(error, rows[i].text);
    }
}

/* No guard or tag is so wide, but a struct that came from elsewhere may hold such numbers. */
static void test_longest_texts(void) {
    garoalva_error application = {GAROALVA_ERROR_APPLICATION, UINT32_MAX, UINT32_MAX, UINT32_MAX, UINT32_MAX};
    check_error_text(application,
                     "bad application tag in the block at byte 4294967295 of the input stream: its field says "
                     "0xFFFFFFFF, the rule gives 0xFFFFFFFF; checked bytes 0 and 1 of the application tag differ");
    garoalva_error reference = {GAROALVA_ERROR_REFERENCE, UINT32_MAX, UINT32_MAX, UINT32_MAX, UINT32_MAX};
    check_error_text(reference,
                     "bad reference tag in the block at byte 4294967295 of the input stream: its field says "
                     "0xFFFFFFFF, the rule gives 0xFFFFFFFF; checked bytes 0, 1, 2 and 3 of the reference tag differ");
}

/* The rule book's case C: the data's guard is 0x9CD9, its field says 0. */
static void test_found_error(void) {
    garoalva_domain none = {.kind = GAROALVA_KIND_NONE};
    uint8_t memory[STREAM] = {0};
    const uint8_t wire[STREAM] = {0, 0, 0, 0, 0, 0, 0, 1, 0x8B, 0xB7, 0x12, 0x34, 0xFF, 0xFF, 0xFF, 0xFF,
                                  0, 0, 0, 0, 0, 0, 0, 2, 0x00, 0x00, 0x12, 0x34, 0x00, 0x00, 0x00, 0x00};
    garoalva_key key = configured_key(none, signed_domain(GAROALVA_GUARD_CRC));
    garoalva_transfer_result received = garoalva_receive(key, memory, STREAM, wire, STREAM, 0, DATA);
    CHECK(received.answer == GAROALVA_ANSWER_DONE);
    garoalva_check_result checked = garoalva_check(received.key);
    CHECK(checked.answer == GAROALVA_ANSWER_DONE);
    CHECK(checked.error.differing == GAROALVA_MASK_GUARD);
    check_error_text(checked.error, "bad guard in the block at byte 16 of the input stream: its field says 0x0000, the "
                                    "rule gives 0x9CD9; checked bytes 0 and 1 of the guard differ");
    garoalva_check_result again = garoalva_check(checked.key);
    CHECK(again.answer == GAROALVA_ANSWER_DONE);
    check_error_text(again.error, "no error");
}

void test_texts(void) {
    test_answer_texts();
    test_error_texts();
    test_longest_texts();
    test_found_error();
}

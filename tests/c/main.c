/* main VERSION..: runs the tests. Each VERSION must be the library's. */
#include "tests.h"
#include <stdio.h>
#include <stdlib.h>
#include <string.h>

static int checks, failures;

void check(bool holds, const char *condition, const char *file, int line) {
    checks++;
    if (!holds) {
        failures++;
        fprintf(stderr, "%s:%d: does not hold: %s\n", file, line, condition);
    }
}

garoalva_domain signed_domain(uint32_t guard_type) {
    return (garoalva_domain){.kind = GAROALVA_KIND_T10_DIF,
                             .block_size = BLOCK,
                             .guard_type = guard_type,
                             .application_tag = 0x1234,
                             .reference_tag = 0xFFFFFFFF,
                             .flags = GAROALVA_REMAP,
                             .edition = GAROALVA_EDITION_1};
}

garoalva_key configured_key(garoalva_domain memory, garoalva_domain wire) {
    garoalva_configuration configuration = {
        .layout = {.entries = {{.start = 0, .count = STREAM}}, .used = 1, .repeat = 1},
        .signature = {.memory = memory, .wire = wire, .check_mask = 0xFF}};
    uint8_t bytes[STREAM] = {0};
    garoalva_configure_result configured = garoalva_configure(garoalva_fresh(), bytes, STREAM, configuration);
    CHECK(configured.answer == GAROALVA_ANSWER_DONE);
    return configured.key;
}

bool same_key(garoalva_key a, garoalva_key b) { return memcmp(&a, &b, sizeof a) == 0; }

bool same_session(garoalva_session a, garoalva_session b) { return memcmp(&a, &b, sizeof a) == 0; }

int main(int count, char **arguments) {
    test_null_pointers();
    test_copies();
    test_editions();
    test_texts();
    test_versions(count - 1, arguments + 1);
    printf("C API: %d checks, %d failed\n", checks, failures);
    return failures == 0 ? EXIT_SUCCESS : EXIT_FAILURE;
}

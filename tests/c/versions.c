/* One version everywhere: 0.N.P, where N is the struct version in the seals of keys and sessions. */
#include "tests.h"
#include <stdio.h>
#include <string.h>

static uint64_t struct_version(uint64_t seal) { return seal & 0xFF; }

void test_versions(int count, char **versions) {
    garoalva_domain none = {.kind = GAROALVA_KIND_NONE};
    uint8_t memory[STREAM] = {0};
    garoalva_open_result opened = garoalva_open(configured_key(none, none), memory, STREAM, 0, DATA);
    CHECK(opened.answer == GAROALVA_ANSWER_DONE);
    CHECK(struct_version(garoalva_fresh().seal) == GAROALVA_STRUCT_VERSION);
    CHECK(struct_version(opened.session.seal) == GAROALVA_STRUCT_VERSION);
    char start[16];
    snprintf(start, sizeof start, "0.%d.", GAROALVA_STRUCT_VERSION);
    CHECK(strncmp(start, GAROALVA_VERSION, strlen(start)) == 0);
    CHECK(strcmp(GAROALVA_VERSION, garoalva_version()) == 0);
    CHECK(count > 0);
    for (int i = 0; i < count; i++)
        CHECK(strcmp(GAROALVA_VERSION, versions[i]) == 0);
}

/* Tests of the C API that need no model: null pointers, copies of keys and sessions, editions, texts and versions. */
#ifndef TESTS_H
#define TESTS_H

#include <garoalva.h>
#include <stdbool.h>

/* Counts a condition, and prints it with its place if it does not hold. */
#define CHECK(condition) check((condition), #condition, __FILE__, __LINE__)
void check(bool holds, const char *condition, const char *file, int line);

void test_null_pointers(void);
void test_copies(void);
void test_editions(void);
void test_texts(void);
/* Holds each of these versions, and the struct version, to the library's own. */
void test_versions(int count, char **versions);

enum { BLOCK = 8, DATA = 2 * BLOCK, STREAM = DATA + 2 * GAROALVA_FIELD_SIZE };

/* A domain of edition 1 with blocks of 8 bytes, application tag 0x1234 and reference tags from 0xFFFFFFFF on. */
garoalva_domain signed_domain(uint32_t guard_type);
/* A key for these two sides, over STREAM bytes of memory in one piece. All bytes of a field are checked. */
garoalva_key configured_key(garoalva_domain memory, garoalva_domain wire);

/* Whether two structs are the same bit by bit. */
bool same_key(garoalva_key a, garoalva_key b);
bool same_session(garoalva_session a, garoalva_session b);

#endif

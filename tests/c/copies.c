/* What the header says of results without a key or session, and of old copies of keys and sessions. */
#include "tests.h"
#include <string.h>

/* Makes each call on a struct that is not a key: all are refused, and return the struct as it was. */
static void check_no_key(garoalva_key key) {
    uint8_t bytes[STREAM] = {0};
    garoalva_configuration configuration = {.layout = key.layout, .signature = key.signature};
    garoalva_configure_result configured = garoalva_configure(key, bytes, STREAM, configuration);
    garoalva_transfer_result sent = garoalva_send(key, bytes, STREAM, NULL, 0, 0, 0);
    garoalva_transfer_result received = garoalva_receive(key, bytes, STREAM, NULL, 0, 0, 0);
    garoalva_check_result checked = garoalva_check(key);
    garoalva_open_result opened = garoalva_open(key, bytes, STREAM, 0, 0);
    const uint64_t answers[] = {configured.answer, sent.answer, received.answer, checked.answer, opened.answer};
    const garoalva_key keys[] = {configured.key, sent.key, received.key, checked.key, opened.key};
    for (size_t i = 0; i < 5; i++) {
        CHECK(answers[i] == GAROALVA_ANSWER_NOT_A_KEY);
        CHECK(same_key(keys[i], key));
    }
}

/* Makes each call on a struct that is not a session: all are refused, and none returns a key. */
static void check_no_session(garoalva_session session) {
    uint8_t memory[STREAM] = {0};
    garoalva_packet_result packet = garoalva_packet(session, memory, STREAM, NULL, 0);
    garoalva_finish_result finished = garoalva_finish(session);
    garoalva_abandon_result abandoned = garoalva_abandon(session);
    CHECK(packet.answer == GAROALVA_ANSWER_NOT_A_SESSION && same_session(packet.session, session));
    CHECK(finished.answer == GAROALVA_ANSWER_NOT_A_SESSION && same_session(finished.session, session));
    CHECK(abandoned.answer == GAROALVA_ANSWER_NOT_A_SESSION);
    check_no_key(finished.key);
    check_no_key(abandoned.key);
}

static garoalva_key without_seal(garoalva_key key) {
    key.seal = 0;
    return key;
}

/* An accepted open and a refused finish return the key without its seal. An accepted finish returns it with its seal.
 */
static void test_open_to_finish(garoalva_key key) {
    uint8_t memory[STREAM] = {0}, wire[DATA] = {0};
    garoalva_open_result opened = garoalva_open(key, memory, STREAM, 0, DATA);
    CHECK(opened.answer == GAROALVA_ANSWER_DONE);
    CHECK(same_key(opened.key, without_seal(key)));
    check_no_key(opened.key);
    garoalva_finish_result early = garoalva_finish(opened.session);
    CHECK(early.answer == GAROALVA_ANSWER_BYTES_TO_COME);
    CHECK(same_key(early.key, without_seal(key)));
    check_no_key(early.key);
    garoalva_packet_result packet = garoalva_packet(early.session, memory, STREAM, wire, DATA);
    CHECK(packet.answer == GAROALVA_ANSWER_DONE);
    garoalva_finish_result finished = garoalva_finish(packet.session);
    CHECK(finished.answer == GAROALVA_ANSWER_DONE);
    CHECK(same_key(finished.key, key));
    check_no_session(finished.session);
}

/* A refused open returns the key as it was, and no session. */
static void test_refused_open(garoalva_key key) {
    uint8_t memory[STREAM] = {0};
    garoalva_open_result refused = garoalva_open(key, memory, STREAM, STREAM, DATA);
    CHECK(refused.answer == GAROALVA_ANSWER_PAST_LAYOUT);
    CHECK(same_key(refused.key, key));
    check_no_session(refused.session);
}

/* After a damaged receive an old copy of the key still says that there is no error. */
static void test_old_key(void) {
    garoalva_domain none = {.kind = GAROALVA_KIND_NONE};
    const uint8_t damaged[STREAM] = {1};
    uint8_t memory[STREAM] = {0};
    garoalva_key old = configured_key(none, signed_domain(GAROALVA_GUARD_CRC));
    garoalva_transfer_result received = garoalva_receive(old, memory, STREAM, damaged, STREAM, 0, DATA);
    CHECK(received.answer == GAROALVA_ANSWER_DONE);
    garoalva_check_result of_old = garoalva_check(old), of_returned = garoalva_check(received.key);
    CHECK(of_old.answer == GAROALVA_ANSWER_DONE && of_old.error.type == GAROALVA_ERROR_NONE);
    CHECK(of_returned.answer == GAROALVA_ANSWER_DONE && of_returned.error.type == GAROALVA_ERROR_GUARD);
}

/* An old copy of a session writes a packet where it stood, even if the session has ended, and can be ended again. */
static void test_old_session(garoalva_key key) {
    const uint8_t wire[DATA] = {1, 2, 3, 4, 5, 6, 7, 8, 9, 10, 11, 12, 13, 14, 15, 16};
    uint8_t memory[STREAM] = {0};
    garoalva_session old = garoalva_open(key, memory, STREAM, 0, DATA).session;
    garoalva_packet_result packet = garoalva_packet(old, memory, STREAM, wire, DATA);
    CHECK(packet.answer == GAROALVA_ANSWER_DONE && memcmp(memory, wire, DATA) == 0);
    garoalva_finish_result finished = garoalva_finish(packet.session);
    CHECK(finished.answer == GAROALVA_ANSWER_DONE);
    garoalva_packet_result replayed = garoalva_packet(old, memory, STREAM, wire + BLOCK, BLOCK);
    CHECK(replayed.answer == GAROALVA_ANSWER_DONE && replayed.taken == BLOCK);
    CHECK(memcmp(memory, wire + BLOCK, BLOCK) == 0);
    garoalva_finish_result again = garoalva_finish(packet.session);
    CHECK(again.answer == GAROALVA_ANSWER_DONE);
    garoalva_abandon_result abandoned = garoalva_abandon(packet.session);
    CHECK(abandoned.answer == GAROALVA_ANSWER_DONE);
}

void test_copies(void) {
    garoalva_domain none = {.kind = GAROALVA_KIND_NONE};
    garoalva_key key = configured_key(none, none);
    test_open_to_finish(key);
    test_refused_open(key);
    check_no_key((garoalva_key){0});
    check_no_session((garoalva_session){0});
    test_old_key();
    test_old_session(key);
}

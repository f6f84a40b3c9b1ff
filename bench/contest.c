#include "contest.h"
#include "isal.h"
#include "ours.h"
#include "peers.h"
#include <stdlib.h>
#include <string.h>

typedef void (*run)(struct scene *s, enum direction direction);

static const run runs[CONTENDERS] = {[OURS] = run_ours,         [PACKETS] = run_packets,     [EMPTY] = run_empty,
                                     [UNTESTED] = run_untested, [BY_HAND] = run_by_hand,     [LOOP] = run_loop,
                                     [ISAL] = run_isal,         [ISAL_COPY] = run_isal_copy, [MEMCPY] = run_memcpy};

static bool takes_part(enum contender c, const struct scene *s, enum direction direction) {
    enum signing signing = s->shape.signing;
    bool crc = signing != PLAIN && signing != CHECKSUM;
    switch (c) {
    case PACKETS:
        return direction == RECEIVE;
    case EMPTY:
    case BY_HAND:
        return direction == RECEIVE && signing == PLAIN;
    case UNTESTED:
        return direction == RECEIVE && signing == PLAIN && s->shape.pieces == 1;
    case LOOP:
        return signing != PLAIN;
    case ISAL:
    case ISAL_COPY:
        return isal.installed && crc;
    default:
        return true;
    }
}

static bool checks(const struct scene *s, enum direction direction) {
    return s->shape.signing == COPYING || (s->shape.signing != PLAIN && direction == RECEIVE);
}

/* Runs a contender, and returns whether it found a bad block. */
static bool found_bad(enum contender c, struct scene *s, enum direction direction) {
    s->bad_blocks = 0;
    runs[c](s, direction);
    bool ours = c == OURS || c == PACKETS;
    return ours ? found_error(s) : s->bad_blocks != 0;
}

static void verify_bytes(enum contender c, struct scene *s, enum direction direction, const uint8_t *right) {
    uint8_t *target = direction == SEND ? s->wire : s->memory;
    size_t length = direction == SEND ? s->wire_length : s->memory_length;
    memset(target, 0, length);
    if (found_bad(c, s, direction))
        fail("a bad block was found where there is none", s);
    if (memcmp(target, right, length) != 0)
        fail("contenders don't write the same bytes", s);
}

static void verify_damage(enum contender c, struct scene *s, enum direction direction) {
    size_t middle = s->shape.blocks / 2;
    uint8_t *damaged = direction == SEND ? block_in_memory(s, middle) : block_on_wire(s, middle);
    *damaged ^= 1;
    if (!found_bad(c, s, direction))
        fail("a damaged block was missed", s);
    *damaged ^= 1;
    found_bad(c, s, direction);
}

void verify(struct scene *s, enum direction direction) {
    const uint8_t *target = direction == SEND ? s->wire : s->memory;
    size_t length = direction == SEND ? s->wire_length : s->memory_length;
    uint8_t *right = malloc(length);
    if (right == NULL)
        fail("out of memory", s);
    memcpy(right, target, length);
    for (enum contender c = OURS; c < MEMCPY; c++) {
        if (!takes_part(c, s, direction) || c == EMPTY)
            continue;
        verify_bytes(c, s, direction, right);
        if (checks(s, direction))
            verify_damage(c, s, direction);
    }
    free(right);
}

/* A contender's run on a scene. */
struct turn {
    run run;
    struct scene *s;
    enum direction direction;
};

static void repeat_turn(const void *work, size_t times) {
    const struct turn *t = work;
    for (size_t i = 0; i < times; i++)
        t->run(t->s, t->direction);
}

double timed_run(enum contender c, struct scene *s, enum direction direction) {
    struct turn turn = {runs[c], s, direction};
    return timed_job(&(struct job){.repeat = repeat_turn, .work = &turn});
}

struct times measure(struct scene *s, enum direction direction, struct effort effort) {
    struct turn turns[CONTENDERS];
    struct job jobs[CONTENDERS] = {{0}};
    for (enum contender c = OURS; c < CONTENDERS; c++) {
        turns[c] = (struct turn){runs[c], s, direction};
        if (takes_part(c, s, direction))
            jobs[c] = (struct job){.repeat = repeat_turn, .work = &turns[c]};
    }
    measure_jobs(jobs, CONTENDERS, effort);
    struct times means;
    for (enum contender c = OURS; c < CONTENDERS; c++)
        means.seconds[c] = jobs[c].seconds;
    return means;
}

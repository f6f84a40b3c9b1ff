/* The contenders that are measured on a scene: that they agree, and how long each takes. */
#ifndef CONTEST_H
#define CONTEST_H

#include "scene.h"
#include "timing.h"

enum contender { OURS, PACKETS, EMPTY, UNTESTED, BY_HAND, LOOP, ISAL, ISAL_COPY, MEMCPY, CONTENDERS };

/* The seconds that a run takes; 0 for a contender that doesn't take part. */
struct times {
    double seconds[CONTENDERS];
};

/* Ends the program unless all contenders that take part write the same bytes and find a damaged block. */
void verify(struct scene *s, enum direction direction);
/* Returns the time of each contender, as measure_jobs measures it. */
struct times measure(struct scene *s, enum direction direction, struct effort effort);
/* Returns the time of one run of one contender, with the stack as it is. */
double timed_run(enum contender c, struct scene *s, enum direction direction);

#endif

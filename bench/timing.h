/* How long jobs take that are run in turns. */
#ifndef TIMING_H
#define TIMING_H

#include <stdbool.h>
#include <stddef.h>

/*
 * Where structs lie on the stack changes the speed of a call, of ours by up to a factor of two, and is chance in a
 * program. So each job is measured with the stack at several places of a page, and its figure is the mean.
 */
enum { MOST_PLACEMENTS = 16 };

/* How much time is spent on a measurement. */
struct effort {
    int rounds;            /* at least */
    double seconds_each;   /* at least */
    size_t placements;     /* of the stack */
    size_t few_placements; /* for runs so long that the guards or the memory take all their time */
    bool quick;            /* some figures are left out */
};

/* Something that is measured. The caller sets what it runs, and measure_jobs sets the time. */
struct job {
    void (*repeat)(const void *work, size_t times); /* runs the work this many times; NULL if there is nothing to run */
    const void *work;
    double seconds; /* the time of one run; 0 if there is nothing to run */
};

/* Returns the processor time of this thread in seconds. Other programs on the machine don't count. */
double processor_time(void);

/* Sets the time of each job: the fastest run at each placement of the stack, and the mean of these. */
void measure_jobs(struct job *jobs, size_t count, struct effort effort);
/* Returns the time of one run of a job, with the stack as it is. */
double timed_job(const struct job *job);

#endif

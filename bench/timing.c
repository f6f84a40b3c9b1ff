#include "timing.h"
#include <time.h>

enum { PAGE = 4096 };

/* A sample takes at least this long, so that reading the clock doesn't matter. */
static const double sample_seconds = 2e-4;
/* A run that takes longer than this is measured with few placements. */
static const double long_run = 1e-3;

double processor_time(void) {
    struct timespec now;
    clock_gettime(CLOCK_THREAD_CPUTIME_ID, &now);
    return (double)now.tv_sec + (double)now.tv_nsec * 1e-9;
}

static double timed_runs(const struct job *job, size_t shift, size_t times) {
    volatile char moved[shift + 1]; /* moves the stack below it; it is used, so that the compiler keeps it */
    moved[0] = 0;
    (void)moved[0];
    double start = processor_time();
    job->repeat(job->work, times);
    return (processor_time() - start) / (double)times;
}

double timed_job(const struct job *job) { return timed_runs(job, 0, 1); }

/* The measurements of a job so far: the best time at each placement, each of a batch of runs. */
struct series {
    size_t batch; /* runs in a batch; 0 if there is nothing to run */
    size_t placements;
    double best[MOST_PLACEMENTS];
    double spent;
};

/* The first run warms up. From the time of the second follows how many runs make a sample. */
static struct series first_series(const struct job *job, struct effort effort) {
    if (job->repeat == NULL)
        return (struct series){0};
    timed_job(job);
    double seconds = timed_job(job);
    return (struct series){.batch = 1 + (size_t)(sample_seconds / seconds),
                           .placements = seconds > long_run ? effort.few_placements : effort.placements};
}

static void add_round(struct series *x, const struct job *job) {
    for (size_t i = 0; i < x->placements; i++) {
        double seconds = timed_runs(job, i * (PAGE / x->placements), x->batch);
        x->spent += seconds * (double)x->batch;
        if (x->best[i] == 0 || seconds < x->best[i])
            x->best[i] = seconds;
    }
}

static double mean(const struct series *x) {
    double sum = 0;
    for (size_t i = 0; i < x->placements; i++)
        sum += x->best[i];
    return x->placements == 0 ? 0 : sum / (double)x->placements;
}

/* The jobs take turns, so that other work on the machine affects all of them alike. */
void measure_jobs(struct job *jobs, size_t count, struct effort effort) {
    struct series series[count];
    for (size_t i = 0; i < count; i++)
        series[i] = first_series(&jobs[i], effort);
    bool more = true;
    for (int round = 0; more; round++) {
        more = false;
        for (size_t i = 0; i < count; i++) {
            if (series[i].batch == 0 || (round >= effort.rounds && series[i].spent >= effort.seconds_each))
                continue;
            add_round(&series[i], &jobs[i]);
            more = true;
        }
    }
    for (size_t i = 0; i < count; i++)
        jobs[i].seconds = mean(&series[i]);
}

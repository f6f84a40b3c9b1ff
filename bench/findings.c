#include "findings.h"
#include "cells.h"
#include <stdio.h>

const size_t block_sizes[BLOCK_SIZES] = {512, 520, 4096, 4160};
const size_t guard_sizes[GUARD_SIZES] = {512, 520, 1496, 4096, 4160};
const size_t plain_counts[PLAIN_COUNTS] = {1, 4, 16, 64, 256, 1024};

/* A cost that grows by at most this factor is called flat. */
static const double flat = 1.25;

static const char *const comparison_names[COMPARISONS] = {
    [GUARD_TO_BASE] = "guard by itself to ISA-L's base",
    [GUARD_TO_SIMD] = "guard by itself to ISA-L's SIMD",
    [TRANSFER_TO_COPY] = "send and receive to ISA-L's copy",
    [TRANSFER_TO_LOOP] = "send and receive to the C loop",
};

/* The least ratio of our speed with CRC to a peer's, for blocks of one size. */
struct bar {
    enum comparison comparison;
    size_t block;
    double least;
};

static const struct bar bars[BARS] = {
    {GUARD_TO_BASE, 512, 20},     {GUARD_TO_BASE, 520, 20},      {GUARD_TO_BASE, 1496, 22},
    {GUARD_TO_BASE, 4096, 36},    {GUARD_TO_BASE, 4160, 36},     {GUARD_TO_SIMD, 512, 0.28},
    {GUARD_TO_SIMD, 4096, 0.35},  {TRANSFER_TO_COPY, 512, 0.45}, {TRANSFER_TO_COPY, 4096, 0.75},
    {TRANSFER_TO_LOOP, 512, 14},  {TRANSFER_TO_LOOP, 520, 14},   {TRANSFER_TO_LOOP, 4096, 26},
    {TRANSFER_TO_LOOP, 4160, 26},
};

static void keep(struct finding *f, double value, const char *where) {
    f->value = value;
    f->seen = true;
    snprintf(f->where, sizeof f->where, "%s", where);
}

void keep_highest(struct finding *f, double value, const char *where) {
    if (!f->seen || value > f->value)
        keep(f, value, where);
}

void keep_lowest(struct finding *f, double value, const char *where) {
    if (!f->seen || value < f->value)
        keep(f, value, where);
}

void keep_for_bar(struct findings *f, enum comparison comparison, size_t block, double ratio, const char *where) {
    for (size_t i = 0; i < BARS; i++) {
        if (bars[i].comparison == comparison && bars[i].block == block)
            keep_lowest(&f->bars[i], ratio, where);
    }
}

static void print_verdict(const char *claim, const char *of, const struct finding *f, bool holds) {
    if (f->seen)
        printf("| %s%s | %.3f (%s) | %s |\n", claim, of, f->value, f->where, holds ? "holds" : "**does not hold**");
}

static void print_at_most(const char *claim, const struct finding per_signing[SIGNINGS], double limit) {
    for (enum signing i = PLAIN; i < SIGNINGS; i++)
        print_verdict(claim, signing_names[i], &per_signing[i], per_signing[i].value <= limit);
}

/* Prints a verdict on speeds relative to a peer's, each with the size at which it was measured. */
static void print_at_least(const char *claim, const struct finding *found, const size_t *sizes, size_t count,
                           double limit) {
    for (size_t i = 0; i < count; i++) {
        char of[32];
        snprintf(of, sizeof of, "%zu", sizes[i]);
        print_verdict(claim, of, &found[i], found[i].value >= limit);
    }
}

static void print_reported(const char *what, const struct finding *f) {
    if (f->seen)
        printf("| %s | %.3f (%s) | reported, not held to anything |\n", what, f->value, f->where);
}

void print_verdicts(const struct findings *f) {
    printf("\n## What it must show\n\n"
           "Each line has the worst figure measured, of sends, receives and packets or of what it names. Flat: within "
           "%.2f.\n\n"
           "| Claim | Measured | Verdict |\n|---|---|---|\n",
           flat);
    print_at_most("Cost per byte flat from 64 KiB to 16 MiB, over the same memory: ", f->call_growth, flat);
    print_at_most("Cost per byte flat from 64 KiB to 16 MiB, in buffers of their own: ", f->length_growth, flat);
    print_at_least("Unsigned transfers at 0.5 of memcpy or better at pieces of 4,096 bytes, so many of them: ",
                   f->plain_to_memcpy, plain_counts, PLAIN_COUNTS, 0.5);
    print_at_least("Checksum guard by itself faster than a byte-wise C loop, blocks of ", f->checksum_guard_to_loop,
                   guard_sizes, GUARD_SIZES, 1);
    print_at_least("Send and receive with checksums faster than that loop with memcpy, blocks of ", f->checksum_to_loop,
                   block_sizes, BLOCK_SIZES, 1);
    print_at_most("Packets of 1,500 bytes within 1.3 of the one-call time: ", f->packets_to_call, 1.3);
    print_at_most("No growth with the number of packets before: ", f->later_packets, flat);
    print_reported("Plain packets of 1,500 bytes in C, by value, nothing tested, to the one-call time",
                   &f->untested_to_call);
    print_reported("Plain packets of 1,500 bytes by hand in C, to the one-call time", &f->by_hand_to_call);
}

static void print_bar(const struct bar *bar, const struct finding *f) {
    const char *verdict = !f->seen ? "not measured" : f->value >= bar->least ? "reached" : "**not reached**";
    printf("| %-32s | %5zu |", comparison_names[bar->comparison], bar->block);
    print_cell(bar->least, 3);
    print_cell(f->seen ? f->value : 0, 3);
    printf(" %-15s | %s |\n", verdict, f->seen ? f->where : "");
}

void print_bars(const struct findings *f) {
    printf("\n## The bars of the CRC\n\n"
           "Our speed with CRC as a ratio to a peer's: of the guard by itself in cache, with the ratio over 64 MiB\n"
           "beside it, and of the worst row of send and receive. A bar that is not reached does not fail the run:\n"
           "the bars were set on an AMD Zen 4 and may not fit another processor. Without ISA-L its bars are not\n"
           "measured, and a quick run leaves out some sizes.\n\n"
           "| CRC                              | block | at least | measured | verdict         | where |\n"
           "|---|---:|---:|---:|---|---|\n");
    for (size_t i = 0; i < BARS; i++)
        print_bar(&bars[i], &f->bars[i]);
}

/* The worst figures of the tables, and the verdicts on what the benchmark must show. */
#ifndef FINDINGS_H
#define FINDINGS_H

#include "scene.h"

enum { BLOCK_SIZES = 4, GUARD_SIZES = 5, PLAIN_COUNTS = 6, BARS = 13 };

/* The block sizes of transfers, and those at which guards are measured by themselves. */
extern const size_t block_sizes[BLOCK_SIZES], guard_sizes[GUARD_SIZES];
/* The numbers of pieces of 4,096 bytes at which unsigned transfers are compared with memcpy. */
extern const size_t plain_counts[PLAIN_COUNTS];

/* What the bars of the CRC compare: our guard by itself, or our send and receive, with ISA-L or with the C loop. */
enum comparison { GUARD_TO_BASE, GUARD_TO_SIMD, TRANSFER_TO_COPY, TRANSFER_TO_LOOP, COMPARISONS };

/* The worst figure of a claim, and where it was measured. */
struct finding {
    double value;
    char where[96];
    bool seen;
};

struct findings {
    struct finding length_growth[SIGNINGS]; /* cost per byte, of the dearest length to the shortest */
    struct finding call_growth[SIGNINGS];   /* the same, with all lengths over the same memory */
    struct finding plain_to_memcpy[PLAIN_COUNTS];
    struct finding checksum_to_loop[BLOCK_SIZES];       /* guard and copy */
    struct finding checksum_guard_to_loop[GUARD_SIZES]; /* the guard by itself */
    struct finding packets_to_call[SIGNINGS];           /* time of packets to that of one call */
    struct finding later_packets[SIGNINGS]; /* cost per packet, of the dearest tenth of a session to its first */
    struct finding untested_to_call;        /* time of plain packets by a C call that tests nothing, to one call */
    struct finding by_hand_to_call;         /* time of plain packets by a C call written by hand, to one call */
    struct finding bars[BARS];              /* our speed with CRC to a peer's */
};

void keep_highest(struct finding *f, double value, const char *where);
void keep_lowest(struct finding *f, double value, const char *where);
/* Keeps the lowest ratio of our speed with CRC to a peer's, if there is a bar for it at this block size. */
void keep_for_bar(struct findings *f, enum comparison comparison, size_t block, double ratio, const char *where);

void print_verdicts(const struct findings *f);
/* Prints which bars of the CRC were reached. */
void print_bars(const struct findings *f);

#endif

/* The library's transfers, compared with the peers. */
#include "cells.h"
#include "isal.h"
#include "ours.h"
#include "tables.h"
#include <stdio.h>

enum { MANY_PIECES = 64 };

static const char *const direction_names[] = {"send", "receive"};

static void print_row(const struct scene *s, const char *name, struct times t, enum contender us) {
    printf("| %-7s | %-20s | %6zu |", name, signing_names[s->shape.signing], s->shape.pieces);
    print_speed(s->data_length, t.seconds[us]);
    for (enum contender c = LOOP; c < CONTENDERS; c++)
        print_speed(s->data_length, t.seconds[c]);
    for (enum contender c = LOOP; c < CONTENDERS; c++)
        print_ratio(t.seconds[c], t.seconds[us]);
    if (us == PACKETS)
        printf(" %8.2f |\n", t.seconds[PACKETS] / t.seconds[OURS]);
    else
        printf(" %8s |\n", "");
}

static const char *place(const struct scene *s, const char *name, double seconds) {
    static char text[80];
    snprintf(text, sizeof text, "%s, blocks of %zu, pieces: %zu, %.0f MB/s", name, s->shape.block, s->shape.pieces,
             megabytes_per_second(s->data_length, seconds));
    return text;
}

static void keep_crc(const struct scene *s, enum direction direction, struct times t, struct findings *f) {
    const double ours = t.seconds[OURS];
    char where[80];
    snprintf(where, sizeof where, "%s, %s, pieces: %zu, %.0f MB/s", direction_names[direction],
             signing_names[s->shape.signing], s->shape.pieces, megabytes_per_second(s->data_length, ours));
    keep_for_bar(f, TRANSFER_TO_LOOP, s->shape.block, t.seconds[LOOP] / ours, where);
    if (isal.installed)
        keep_for_bar(f, TRANSFER_TO_COPY, s->shape.block, t.seconds[ISAL_COPY] / ours, where);
}

static void keep_ratios(const struct scene *s, enum direction direction, struct times t, struct findings *f) {
    const double ours = t.seconds[OURS], packets = t.seconds[PACKETS];
    enum signing signing = s->shape.signing;
    for (size_t i = 0; i < BLOCK_SIZES; i++) {
        if (signing == CHECKSUM && s->shape.block == block_sizes[i])
            keep_lowest(&f->checksum_to_loop[i], t.seconds[LOOP] / ours, place(s, direction_names[direction], ours));
    }
    if (signing != PLAIN && signing != CHECKSUM)
        keep_crc(s, direction, t, f);
    if (direction == RECEIVE)
        keep_highest(&f->packets_to_call[signing], packets / ours, place(s, "packets", packets));
}

static void print_scene(struct shape shape, struct effort effort, struct findings *f) {
    struct scene s = make_scene(shape);
    for (enum direction direction = SEND; direction <= RECEIVE; direction++) {
        verify(&s, direction);
        struct times t = measure(&s, direction, effort);
        print_row(&s, direction_names[direction], t, OURS);
        if (direction == RECEIVE)
            print_row(&s, "packets", t, PACKETS);
        keep_ratios(&s, direction, t, f);
    }
    free_scene(&s);
    fflush(stdout);
}

static void print_block_size(size_t block, struct effort effort, struct findings *f) {
    size_t data = effort.quick ? 300000 : 1200000;
    size_t blocks = data / block / MANY_PIECES * MANY_PIECES;
    printf("\n### Blocks of %zu bytes, %zu of them\n\n"
           "| call    | signed               | pieces |     ours |   C loop |    ISA-L | ISA-L cp |   memcpy "
           "|  / loop | / ISA-L |    / cp | /memcpy | one call |\n"
           "|---|---|---:|---:|---:|---:|---:|---:|---:|---:|---:|---:|---:|\n",
           block, blocks);
    for (enum signing signing = PLAIN; signing < SIGNINGS; signing++) {
        print_scene((struct shape){signing, block, blocks, 1}, effort, f);
        print_scene((struct shape){signing, block, blocks, MANY_PIECES}, effort, f);
    }
}

void print_transfers(struct effort effort, struct findings *f) {
    printf(
        "\n## Transfers, in MB of data per second\n\n"
        "Each row is the whole job: guard, copy and field for each block. C loop: a table CRC or a byte-wise\n"
        "checksum, then memcpy. ISA-L: its crc16_t10dif, then memcpy. ISA-L cp: its crc16_t10dif_copy. memcpy: the\n"
        "bytes alone, piece by piece. Then our speed as a ratio to each. Packets have %d bytes; one call: their time\n"
        "to that of one receive.\n",
        PACKET);
    for (size_t i = 0; i < BLOCK_SIZES; i++)
        print_block_size(block_sizes[i], effort, f);
}

void print_calls(struct effort effort, struct findings *f) {
    static const size_t pieces[] = {1, 16, MANY_PIECES};
    static const enum contender callers[] = {UNTESTED, BY_HAND, EMPTY, PACKETS, OURS};
    printf(
        "\n## What a packet costs whatever its length, in ns, nothing signed\n\n"
        "Packets of %d bytes by two calls in C that take and give what ours does: one tests nothing and knows no\n"
        "layout but one piece, one is the packet call by hand, for unsigned sessions alone and without a proof; ours\n"
        "without a byte; ours with %d bytes; and the share of so many bytes in one receive. Then the times of the two\n"
        "in C to that share. They are as the compiler above builds them.\n\n"
        "| pieces | untested |  by hand |    empty |     ours |    share | untested |  by hand |\n"
        "|---:|---:|---:|---:|---:|---:|---:|---:|\n",
        PACKET, PACKET);
    for (size_t i = 0; i < sizeof pieces / sizeof *pieces; i++) {
        struct scene s = make_scene((struct shape){PLAIN, 4096, 256, pieces[i]});
        verify(&s, RECEIVE);
        struct times t = measure(&s, RECEIVE, effort);
        double untested = t.seconds[UNTESTED] / t.seconds[OURS], by_hand = t.seconds[BY_HAND] / t.seconds[OURS];
        printf("| %6zu |", pieces[i]);
        for (size_t j = 0; j < sizeof callers / sizeof *callers; j++)
            print_cell(t.seconds[callers[j]] / (double)packet_count(&s) * 1e9, 0);
        print_cell(untested, 2);
        print_cell(by_hand, 2);
        puts("");
        char where[32];
        snprintf(where, sizeof where, "pieces: %zu", pieces[i]);
        if (untested > 0)
            keep_highest(&f->untested_to_call, untested, where);
        keep_highest(&f->by_hand_to_call, by_hand, where);
        free_scene(&s);
    }
}

void print_plain_pieces(struct effort effort, struct findings *f) {
    printf("\n## Unsigned transfers over pieces of 4,096 bytes, in MB per second\n\n"
           "| call    | pieces |     ours |   memcpy | /memcpy |\n|---|---:|---:|---:|---:|\n");
    for (size_t i = 0; i < PLAIN_COUNTS; i++) {
        struct scene s = make_scene((struct shape){PLAIN, 4096, plain_counts[i], plain_counts[i]});
        for (enum direction direction = SEND; direction <= RECEIVE; direction++) {
            struct times t = measure(&s, direction, effort);
            printf("| %-7s | %6zu |", direction_names[direction], plain_counts[i]);
            print_speed(s.data_length, t.seconds[OURS]);
            print_speed(s.data_length, t.seconds[MEMCPY]);
            print_ratio(t.seconds[MEMCPY], t.seconds[OURS]);
            puts("");
            keep_lowest(&f->plain_to_memcpy[i], t.seconds[MEMCPY] / t.seconds[OURS], direction_names[direction]);
        }
        free_scene(&s);
    }
}

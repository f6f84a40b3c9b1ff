/* The guards of blocks by themselves: ours, reached without a transfer, compared with other implementations. */
#include "block_guard.h"
#include "buffers.h"
#include "cells.h"
#include "isal.h"
#include "peers.h"
#include "tables.h"
#include <stdio.h>
#include <stdlib.h>
#include <string.h>

/* In cache, a run computes the guard of the same block this many times. */
enum { SEED = 0, CALLS = 64, STREAM = 64 * MIB };

/* Returns the guard of a block. One implementation also copies the block to `to`; the others leave `to` alone. */
typedef uint16_t (*guard_call)(uint8_t *to, const uint8_t *block, size_t length);

static uint16_t our_crc(uint8_t *to, const uint8_t *block, size_t length) {
    (void)to;
    return block_guard(GAROALVA_GUARD_CRC, SEED, block, length);
}

static uint16_t loop_crc(uint8_t *to, const uint8_t *block, size_t length) {
    (void)to;
    return table_crc(SEED, block, length);
}

static uint16_t isal_base(uint8_t *to, const uint8_t *block, size_t length) {
    (void)to;
    return isal.base(SEED, block, length);
}

static uint16_t isal_crc(uint8_t *to, const uint8_t *block, size_t length) {
    (void)to;
    return isal.crc(SEED, block, length);
}

static uint16_t isal_copy(uint8_t *to, const uint8_t *block, size_t length) {
    return isal.copy(SEED, to, block, length);
}

static uint16_t our_checksum(uint8_t *to, const uint8_t *block, size_t length) {
    (void)to;
    return block_guard(GAROALVA_GUARD_CHECKSUM, SEED, block, length);
}

static uint16_t loop_checksum(uint8_t *to, const uint8_t *block, size_t length) {
    (void)to;
    return byte_checksum(SEED, block, length);
}

/* The columns of both tables, then those that only the CRC's has. */
enum { OUR_GUARD, LOOP_GUARD, CHECKSUM_COLUMNS, ISAL_BASE = CHECKSUM_COLUMNS, ISAL_CRC, ISAL_CRC_COPY, CRC_COLUMNS };

/* A guard, the head of its table, and its implementations. */
struct guard {
    const char *head;
    size_t columns;
    guard_call calls[CRC_COLUMNS];
};

static const struct guard crc = {
    .head = "\nCRC:\n\n"
            "| where    | block | ours, ns |     ours |   C loop |     base |    ISA-L | ISA-L cp "
            "|  / loop |  / base | / ISA-L |    / cp |\n"
            "|---|---:|---:|---:|---:|---:|---:|---:|---:|---:|---:|---:|\n",
    .columns = CRC_COLUMNS,
    .calls = {[OUR_GUARD] = our_crc,
              [LOOP_GUARD] = loop_crc,
              [ISAL_BASE] = isal_base,
              [ISAL_CRC] = isal_crc,
              [ISAL_CRC_COPY] = isal_copy},
};

static const struct guard checksum = {
    .head = "\nChecksum:\n\n"
            "| where    | block | ours, ns |     ours |   C loop |  / loop |\n"
            "|---|---:|---:|---:|---:|---:|\n",
    .columns = CHECKSUM_COLUMNS,
    .calls = {[OUR_GUARD] = our_checksum, [LOOP_GUARD] = loop_checksum},
};

/* The blocks whose guards a run computes. */
struct blocks {
    const char *where;
    size_t length, count;
    size_t stride; /* from one block to the next; 0 if it is the same block each time */
    const uint8_t *from;
    uint8_t *to;
};

static uint16_t guard_at(guard_call call, const struct blocks *b, size_t index) {
    return call(b->to + index * b->stride, b->from + index * b->stride, b->length);
}

/* Returns how many columns are measured. Without ISA-L its columns, which are the last ones, stay empty. */
static size_t measured(const struct guard *g) { return isal.installed ? g->columns : CHECKSUM_COLUMNS; }

static _Noreturn void fail_at(const char *what, const struct blocks *b) {
    fprintf(stderr, "bench: %s: blocks of %zu bytes, %s\n", what, b->length, b->where);
    exit(EXIT_FAILURE);
}

/* Ends the program unless all implementations return the same guard for each block. */
static void verify_guards(const struct guard *g, const struct blocks *b) {
    for (size_t i = 0; i < b->count; i++) {
        uint16_t ours = guard_at(g->calls[OUR_GUARD], b, i);
        for (size_t j = LOOP_GUARD; j < measured(g); j++) {
            if (guard_at(g->calls[j], b, i) != ours)
                fail_at("two guards of a block differ", b);
        }
    }
}

/* Does the same, and ends the program unless the implementation that copies has copied all blocks. */
static void verify_guards_and_copy(const struct guard *g, const struct blocks *b) {
    size_t extent = (b->count - 1) * b->stride + b->length;
    memset(b->to, 0, extent);
    verify_guards(g, b);
    if (measured(g) > ISAL_CRC_COPY && memcmp(b->to, b->from, extent) != 0)
        fail_at("a block was not copied", b);
}

/* The guards of these blocks, computed by one implementation. */
struct guard_work {
    guard_call call;
    const struct blocks *blocks;
};

static void repeat_guards(const void *work, size_t times) {
    const struct guard_work *w = work;
    for (size_t i = 0; i < times; i++) {
        for (size_t j = 0; j < w->blocks->count; j++)
            guard_at(w->call, w->blocks, j);
    }
}

static void measure_guards(const struct guard *g, const struct blocks *b, struct effort effort,
                           double seconds[CRC_COLUMNS]) {
    struct guard_work work[CRC_COLUMNS];
    struct job jobs[CRC_COLUMNS] = {{0}};
    for (size_t i = 0; i < measured(g); i++) {
        work[i] = (struct guard_work){g->calls[i], b};
        jobs[i] = (struct job){.repeat = repeat_guards, .work = &work[i]};
    }
    measure_jobs(jobs, CRC_COLUMNS, effort);
    for (size_t i = 0; i < CRC_COLUMNS; i++)
        seconds[i] = jobs[i].seconds;
}

static void print_row(const struct guard *g, const struct blocks *b, const double seconds[CRC_COLUMNS]) {
    size_t data_length = b->count * b->length;
    printf("| %-8s | %5zu |", b->where, b->length);
    print_cell(seconds[OUR_GUARD] / (double)b->count * 1e9, 1);
    for (size_t i = OUR_GUARD; i < g->columns; i++)
        print_speed(data_length, seconds[i]);
    for (size_t i = LOOP_GUARD; i < g->columns; i++)
        print_ratio(seconds[i], seconds[OUR_GUARD]);
    puts("");
    fflush(stdout);
}

static void print_blocks(const struct guard *g, const struct blocks *b, struct effort effort,
                         double seconds[CRC_COLUMNS]) {
    verify_guards_and_copy(g, b);
    measure_guards(g, b, effort, seconds);
    print_row(g, b, seconds);
}

static double our_speed(const struct blocks *b, const double seconds[CRC_COLUMNS]) {
    return megabytes_per_second(b->count * b->length, seconds[OUR_GUARD]);
}

static double ratio_to(size_t column, const double seconds[CRC_COLUMNS]) {
    return seconds[column] / seconds[OUR_GUARD];
}

/* Keeps the ratio to one of ISA-L's functions in cache, with the ratio over 64 MiB beside it. */
static void keep_crc(enum comparison comparison, size_t column, const struct blocks *b,
                     const double cached[CRC_COLUMNS], const double streamed[CRC_COLUMNS], struct findings *f) {
    char where[64];
    snprintf(where, sizeof where, "in cache, %.0f MB/s; 64 MiB: %.3f", our_speed(b, cached),
             ratio_to(column, streamed));
    keep_for_bar(f, comparison, b->length, ratio_to(column, cached), where);
}

static void keep_checksum(const struct blocks *b, const double seconds[CRC_COLUMNS], struct finding *f) {
    char where[64];
    snprintf(where, sizeof where, "blocks of %zu, %s, %.0f MB/s", b->length, b->where, our_speed(b, seconds));
    keep_lowest(f, ratio_to(LOOP_GUARD, seconds), where);
}

/* Prints the rows of guard_sizes[size], and keeps their ratios. */
static void print_size(const struct guard *g, size_t size, const uint8_t *from, uint8_t *to, struct effort effort,
                       struct findings *f) {
    size_t length = guard_sizes[size];
    struct blocks cache = {"in cache", length, CALLS, 0, from, to};
    struct blocks stream = {"64 MiB", length, STREAM / length, length, from, to};
    double cached[CRC_COLUMNS], streamed[CRC_COLUMNS];
    print_blocks(g, &cache, effort, cached);
    print_blocks(g, &stream, effort, streamed);
    if (g == &checksum) {
        keep_checksum(&cache, cached, &f->checksum_guard_to_loop[size]);
        keep_checksum(&stream, streamed, &f->checksum_guard_to_loop[size]);
    } else if (isal.installed) {
        keep_crc(GUARD_TO_BASE, ISAL_BASE, &cache, cached, streamed, f);
        keep_crc(GUARD_TO_SIMD, ISAL_CRC, &cache, cached, streamed, f);
    }
}

/* A quick run measures blocks of 512 and of 4,096 bytes alone. */
static void print_table(const struct guard *g, const uint8_t *from, uint8_t *to, struct effort effort,
                        struct findings *f) {
    fputs(g->head, stdout);
    for (size_t i = 0; i < GUARD_SIZES; i += effort.quick ? 3 : 1)
        print_size(g, i, from, to, effort, f);
}

void print_guards(struct effort effort, struct findings *f) {
    uint8_t *from = make_buffer(STREAM), *to = make_buffer(STREAM);
    fill_pattern(1, from, STREAM);
    printf(
        "\n## Guards by themselves, in MB of data per second\n\n"
        "Guards of blocks with seed %d, and nothing else. In cache: one block again and again. 64 MiB: as many blocks\n"
        "as fit into that, one after the other. Ours is the library's code, compiled without a transfer around it.\n"
        "Its first column has the ns for a block. C loop: a table CRC or a byte-wise checksum. These functions begin\n"
        "a cache line. base: ISA-L's crc16_t10dif_base, a table CRC. ISA-L: its crc16_t10dif. ISA-L cp: its\n"
        "crc16_t10dif_copy, which also copies the block. Then our speed as a ratio to each.\n",
        SEED);
    print_table(&crc, from, to, effort, f);
    print_table(&checksum, from, to, effort, f);
    free(from);
    free(to);
}

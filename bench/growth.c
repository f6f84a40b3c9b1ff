/* How our cost grows with the length of a transfer, with the number of pieces, and with the packets received before. */
#include "ours.h"
#include "tables.h"
#include <stdio.h>

enum { BLOCK = 4096, MOST_COLUMNS = 6, TENTHS = 10 };

enum { SENT, RECEIVED, PACKED, COPIED_SENT, COPIED_RECEIVED, ROWS, OUR_ROWS = COPIED_SENT };

static const struct {
    const char *name;
    enum contender contender;
    enum direction direction;
} rows[ROWS] = {[SENT] = {"send", OURS, SEND},
                [RECEIVED] = {"receive", OURS, RECEIVE},
                [PACKED] = {"packets", PACKETS, RECEIVE},
                [COPIED_SENT] = {"memcpy, as send", MEMCPY, SEND},
                [COPIED_RECEIVED] = {"memcpy, as receive", MEMCPY, RECEIVE}};

static const enum signing signings[] = {PLAIN, CRC_ZERO, CHECKSUM, COPYING};

/* A quick run leaves COPYING out: like a CRC it spends most of its time on guards. */
static size_t signings_measured(struct effort effort) { return effort.quick ? 3 : 4; }

/* The size that each column stands for, and the cost for each column and row, in ns per KiB of data. */
struct figures {
    size_t columns;
    size_t sizes[MOST_COLUMNS];
    double cost[MOST_COLUMNS][ROWS];
};

/* A quick run has the first and the last column alone. */
static struct figures figures_of(const size_t *sizes, size_t columns, struct effort effort) {
    struct figures f = {.columns = effort.quick ? 2 : columns};
    for (size_t i = 0; i < f.columns; i++)
        f.sizes[i] = i + 1 == f.columns ? sizes[columns - 1] : sizes[i];
    return f;
}

static double cost_of(const struct scene *s, double seconds) { return seconds * 1e9 / ((double)s->data_length / KIB); }

/* Returns the cost of the dearest column, divided by that of the first. */
static double growth(const struct figures *f, size_t row) {
    double dearest = 0;
    for (size_t i = 1; i < f->columns; i++)
        dearest = f->cost[i][row] > dearest ? f->cost[i][row] : dearest;
    return dearest / f->cost[0][row];
}

static void print_head(const char *unit, const struct figures *f) {
    printf("Blocks of %d bytes. Growth: the dearest column to the first.\n\n| %-18s | %-20s |", BLOCK, "call",
           "signed");
    for (size_t i = 0; i < f->columns; i++)
        printf(" %5zu%4s |", f->sizes[i], unit);
    printf(" growth |\n|---|---|");
    for (size_t i = 0; i <= f->columns; i++)
        printf("---:|");
    puts("");
}

static void print_figures(enum signing signing, const struct figures *f) {
    for (size_t row = 0; row < ROWS; row++) {
        printf("| %-18s | %-20s |", rows[row].name, signing_names[signing]);
        for (size_t i = 0; i < f->columns; i++)
            printf(" %9.1f |", f->cost[i][row]);
        printf(" %6.2f |\n", growth(f, row));
    }
    fflush(stdout);
}

static void keep_growth(struct finding *found, const struct figures *f) {
    for (size_t row = 0; row < OUR_ROWS; row++) {
        char where[48];
        size_t copied = rows[row].direction == SEND ? COPIED_SENT : COPIED_RECEIVED;
        snprintf(where, sizeof where, "%s; memcpy %.2f", rows[row].name, growth(f, copied));
        keep_highest(found, growth(f, row), where);
    }
}

/* Measures one column, in buffers of its own. */
static void measure_column(struct shape shape, struct effort effort, double cost[ROWS]) {
    struct scene s = make_scene(shape);
    const struct times times[] = {measure(&s, SEND, effort), measure(&s, RECEIVE, effort)};
    for (size_t row = 0; row < ROWS; row++)
        cost[row] = cost_of(&s, times[rows[row].direction].seconds[rows[row].contender]);
    if (found_error(&s))
        fail("a bad block was found where there is none", &s);
    free_scene(&s);
}

/* --- the length of a transfer --- */

static const size_t kibs[] = {64, 256, 1024, 4096, 16384};

static struct figures length_figures(struct effort effort) {
    return figures_of(kibs, sizeof kibs / sizeof *kibs, effort);
}

void print_lengths(struct effort effort, struct findings *found) {
    struct figures f = length_figures(effort);
    printf("\n## Growth with the length of a transfer, in ns per KiB of data\n\n"
           "Each length over and over in contiguous buffers of its own: short ones stay in the caches, long ones "
           "don't.\n");
    print_head(" KiB", &f);
    for (size_t i = 0; i < signings_measured(effort); i++) {
        enum signing signing = signings[i];
        for (size_t j = 0; j < f.columns; j++) {
            size_t blocks = f.sizes[j] * KIB / memory_unit(signing, BLOCK);
            measure_column((struct shape){signing, BLOCK, blocks, 1}, effort, f.cost[j]);
        }
        print_figures(signing, &f);
        keep_growth(&found->length_growth[signing], &f);
    }
}

/* --- the length of a call, over the same memory --- */

/* Returns how many blocks the memory has room for, as a multiple of the number of the shortest calls. */
static size_t most_blocks(enum signing signing) {
    size_t shares = GAROALVA_MEMORY_LIMIT / (kibs[0] * KIB);
    return GAROALVA_MEMORY_LIMIT / memory_unit(signing, BLOCK) / shares * shares;
}

static bool another_round(int round, double start, struct effort effort, size_t figures) {
    return round < effort.rounds || processor_time() - start < effort.seconds_each * (double)figures;
}

/* Each row first runs once without being measured, so that the caches are as its own run leaves them. */
static void time_rows(struct scene *s, double best[ROWS]) {
    for (size_t row = 0; row < ROWS; row++) {
        timed_run(rows[row].contender, s, rows[row].direction);
        double cost = cost_of(s, timed_run(rows[row].contender, s, rows[row].direction));
        if (best[row] == 0 || cost < best[row])
            best[row] = cost;
    }
    if (found_error(s))
        fail("a bad block was found where there is none", s);
}

static void measure_call_sizes(enum signing signing, struct effort effort, struct figures *f) {
    struct scene s = make_scene((struct shape){signing, BLOCK, most_blocks(signing), 1});
    double start = processor_time();
    for (int round = 0; another_round(round, start, effort, ROWS * f->columns); round++) {
        for (size_t i = 0; i < f->columns; i++) {
            cut_scene(&s, GAROALVA_MEMORY_LIMIT / (f->sizes[i] * KIB));
            time_rows(&s, f->cost[i]);
        }
    }
    free_scene(&s);
}

void print_call_sizes(struct effort effort, struct findings *found) {
    printf("\n## Growth with the length of a call over the same memory, in ns per KiB of data\n\n"
           "The same 16 MiB moved by calls of the length above (a sixteenth less where memory is signed): caches meet\n"
           "every column alike. memcpy moves all of it at once in every column.\n");
    struct figures head = length_figures(effort);
    print_head(" KiB", &head);
    for (size_t i = 0; i < signings_measured(effort); i++) {
        struct figures f = length_figures(effort);
        measure_call_sizes(signings[i], effort, &f);
        print_figures(signings[i], &f);
        keep_growth(&found->call_growth[signings[i]], &f);
    }
}

/* --- the number of pieces --- */

void print_pieces(struct effort effort) {
    static const size_t pieces[] = {1, 4, 16, 64, 256, 1024};
    struct figures f = figures_of(pieces, sizeof pieces / sizeof *pieces, effort);
    printf("\n## Growth with the number of pieces, in ns per KiB of data\n\n"
           "4 MiB in one call, in as many pieces as above.\n");
    print_head("", &f);
    for (size_t i = 0; i < signings_measured(effort); i++) {
        for (size_t j = 0; j < f.columns; j++)
            measure_column((struct shape){signings[i], BLOCK, 4 * MIB / BLOCK, f.sizes[j]}, effort, f.cost[j]);
        print_figures(signings[i], &f);
    }
}

/* --- the packets received before --- */

static void time_tenths(struct scene *s, size_t tenth, double best[TENTHS]) {
    garoalva_session session = open_session(s, 0);
    for (size_t i = 0; i < TENTHS; i++) {
        double start = processor_time();
        session = receive_packets(s, session, i * tenth, (i + 1) * tenth);
        double seconds = processor_time() - start;
        if (best[i] == 0 || seconds < best[i])
            best[i] = seconds;
    }
    finish_session(s, receive_packets(s, session, TENTHS * tenth, s->wire_length));
}

/* With many pieces each has one block less, which leaves room for the gaps between them. */
static void print_tenths(enum signing signing, size_t pieces, struct effort effort, struct findings *found) {
    size_t blocks = most_blocks(signing) - (pieces == 1 ? 0 : pieces);
    struct scene s = make_scene((struct shape){signing, BLOCK, blocks, pieces});
    size_t packets = s.wire_length / PACKET / TENTHS;
    double best[TENTHS] = {0}, start = processor_time();
    for (int round = 0; another_round(round, start, effort, TENTHS); round++)
        time_tenths(&s, packets * PACKET, best);
    printf("| %-20s | %6zu |", signing_names[signing], pieces);
    for (size_t i = 0; i < TENTHS; i++) {
        char where[48];
        snprintf(where, sizeof where, "tenth %zu to tenth 1, pieces: %zu", i + 1, pieces);
        keep_highest(&found->later_packets[signing], best[i] / best[0], where);
        printf(" %6.0f |", best[i] * 1e9 / (double)packets);
    }
    puts("");
    free_scene(&s);
}

void print_later_packets(struct effort effort, struct findings *found) {
    printf("\n## Packets of %d bytes in one session of 16 MiB, in ns per packet, by tenths of the session\n\n"
           "| signed               | pieces |",
           PACKET);
    for (int i = 1; i <= TENTHS; i++)
        printf(" %5d. |", i);
    printf("\n|---|---:|");
    for (int i = 1; i <= TENTHS; i++)
        printf("---:|");
    puts("");
    for (size_t i = 0; i < signings_measured(effort); i++)
        for (size_t pieces = 1; pieces <= 64; pieces *= 64)
            print_tenths(signings[i], pieces, effort, found);
}

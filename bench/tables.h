/* The tables of the benchmark. Each function prints one and keeps its worst figures. */
#ifndef TABLES_H
#define TABLES_H

#include "contest.h"
#include "findings.h"

enum { KIB = 1024, MIB = 1024 * 1024 };

/* Prints every signing, direction, block size and layout, with the peers. */
void print_transfers(struct effort effort, struct findings *f);
/* Prints the guards of blocks by themselves, with the peers. */
void print_guards(struct effort effort, struct findings *f);
/* Prints what a packet costs whatever its length, with a call that tests nothing and with one written by hand. */
void print_calls(struct effort effort, struct findings *f);
/* Prints unsigned transfers over pieces of 4,096 bytes. */
void print_plain_pieces(struct effort effort, struct findings *f);

/* Prints transfers of 64 KiB to 16 MiB, each in buffers of its own. */
void print_lengths(struct effort effort, struct findings *f);
/* Prints the same 16 MiB, moved by calls of 64 KiB to 16 MiB. */
void print_call_sizes(struct effort effort, struct findings *f);
/* Prints 4 MiB in 1 to 1,024 pieces. */
void print_pieces(struct effort effort);
/* Prints what a packet costs as more and more were received before it. */
void print_later_packets(struct effort effort, struct findings *f);

#endif

/* The cells of the tables. Each function prints one, and a dash where nothing was measured. */
#ifndef CELLS_H
#define CELLS_H

#include <stddef.h>

double megabytes_per_second(size_t data_length, double seconds);

void print_cell(double value, int digits);
void print_speed(size_t data_length, double seconds);
/* Prints our speed as a ratio to a peer's. */
void print_ratio(double peer_seconds, double our_seconds);

#endif

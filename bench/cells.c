#include "cells.h"
#include <stdio.h>

double megabytes_per_second(size_t data_length, double seconds) { return (double)data_length / seconds * 1e-6; }

void print_cell(double value, int digits) {
    if (value > 0)
        printf(" %8.*f |", digits, value);
    else
        printf(" %8s |", "-");
}

void print_speed(size_t data_length, double seconds) {
    print_cell(seconds > 0 ? megabytes_per_second(data_length, seconds) : 0, 0);
}

void print_ratio(double peer_seconds, double our_seconds) {
    if (peer_seconds > 0)
        printf(" %7.3f |", peer_seconds / our_seconds);
    else
        printf(" %7s |", "-");
}

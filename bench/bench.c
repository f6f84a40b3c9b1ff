/* Garoalva's benchmark: bench [--quick]. Prints Markdown. */
#include "contest.h"
#include "isal.h"
#include "peers.h"
#include "tables.h"
#include <stdio.h>
#include <stdlib.h>
#include <string.h>

static bool quick_asked(int count, char **arguments) {
    if (count == 1)
        return false;
    if (count == 2 && strcmp(arguments[1], "--quick") == 0)
        return true;
    fprintf(stderr, "usage: %s [--quick]\n", arguments[0]);
    exit(EXIT_FAILURE);
}

static void print_conditions(struct effort effort) {
    printf("- Buffers are filled before the first run and not cleared between runs.\n"
           "- Times are processor time of this thread. Contenders take turns, after a first run that isn't timed.\n"
           "- A figure is the mean over %zu placements of the stack within a page (%zu for runs above a millisecond)\n"
           "  of the best run at each, for at least %.0f ms in all.\n"
           "- Before transfers and guards are timed, everyone's output is compared. Who checks must notice a damaged\n"
           "  block.\n",
           effort.placements, effort.few_placements, effort.seconds_each * 1e3);
    if (effort.quick)
        printf("- A quick run: fewer figures, and rough ones.\n");
    if (isal.installed)
        printf("- After each call of ISA-L vzeroupper is executed. docs/LINKING.md says why.\n");
    else
        printf("- ISA-L is not installed, and its columns are empty. On Debian: apt-get install libisal-dev\n");
}

int main(int count, char **arguments) {
    struct effort thorough = {2, 0.05, MOST_PLACEMENTS, 4, false};
    struct effort quick = {1, 0.002, MOST_PLACEMENTS / 2, 1, true};
    struct effort effort = quick_asked(count, arguments) ? quick : thorough;
    struct findings f = {0};
    make_crc_table();
    print_conditions(effort);
    print_transfers(effort, &f);
    print_guards(effort, &f);
    print_calls(effort, &f);
    print_plain_pieces(effort, &f);
    print_lengths(effort, &f);
    print_call_sizes(effort, &f);
    print_pieces(effort);
    print_later_packets(effort, &f);
    print_verdicts(&f);
    print_bars(&f);
    return EXIT_SUCCESS;
}

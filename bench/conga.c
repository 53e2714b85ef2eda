/* The same work as `domino run pairs-medium examples/conga.dom TRACE`, by hand: reads a trace whose columns are
   `gap,dst,util,path`, keeps the best path to each of two destinations, and writes the same report to standard output, each
   line with its own write(2). */
#include "conga.h"

enum { DEPTH = 12 };

int main(int argc, char **argv)
{
    const char *text = whole(argc, argv, "gap,dst,util,path\n");
    uint32_t row[4];
    uint64_t cycle = 0, packets = 0;
    put("cycle,dst,util,path\n", 20);
    for (; *text != 0; packets++) {
        text = numbers(text, row, 4);
        conga(row);
        cycle += row[0];
        packet(cycle + DEPTH, row + 1, 3);
        cycle += 1;
    }
    state("best_util", best_util, DESTINATIONS);
    state("best_path", best_path, DESTINATIONS);
    place("best_util", 1);
    place("best_path", 1);
    done_after(packets, cycle + DEPTH);
    return 0;
}

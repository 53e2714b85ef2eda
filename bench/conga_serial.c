/* The same work as `domino serial examples/conga.dom TRACE`, by hand: reads a trace whose columns are `gap,dst,util,path`,
   and writes the same report to standard output, each line with its own write(2). */
#include "conga.h"

int main(int argc, char **argv)
{
    const char *text = whole(argc, argv, "gap,dst,util,path\n");
    uint32_t row[4];
    uint64_t packets = 0;
    put("packet,dst,util,path\n", 21);
    for (; *text != 0; packets++) {
        text = numbers(text, row, 4);
        conga(row);
        packet(packets + 1, row + 1, 3);
    }
    state("best_util", best_util, DESTINATIONS);
    state("best_path", best_path, DESTINATIONS);
    done(packets);
    return 0;
}

/* The same work as `domino run raw-small examples/acc.dom TRACE`, by hand: reads a trace whose columns are `gap,x`, adds up
   x, and writes the same report to standard output, each line with its own write(2). It keeps no packets. */
#include "serial.h"

enum { DEPTH = 4 };

int main(int argc, char **argv)
{
    const char *text = whole(argc, argv, "gap,x\n");
    uint32_t row[2], total = 0;
    uint64_t cycle = 0, packets = 0;
    put("cycle,x,sum\n", 12);
    for (; *text != 0; packets++) {
        text = numbers(text, row, 2);
        total += row[1];
        uint32_t words[2] = { row[1], total };
        cycle += row[0];
        packet(cycle + DEPTH, words, 2);
        cycle += 1;
    }
    state("total", &total, 1);
    place("total", 1);
    done_after(packets, cycle + DEPTH);
    return 0;
}

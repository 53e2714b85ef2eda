/* The same work as `domino serial examples/acc.dom TRACE`, by hand: reads a trace whose columns are `gap,x`, and writes
   the same report to standard output, each line with its own write(2). */
#include "serial.h"

int main(int argc, char **argv)
{
    const char *text = whole(argc, argv, "gap,x\n");
    uint32_t row[2], total = 0;
    uint64_t packets = 0;
    put("packet,x,sum\n", 13);
    for (; *text != 0; packets++) {
        text = numbers(text, row, 2);
        total += row[1];
        uint32_t words[2] = { row[1], total };
        packet(packets + 1, words, 2);
    }
    state("total", &total, 1);
    done(packets);
    return 0;
}

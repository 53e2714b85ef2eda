/* The same work as `domino serial examples/flowlet.dom TRACE`, by hand: reads a trace whose columns are
   `gap,sport,dport,arrival`, and writes the same report to standard output, each line with its own write(2). */
#include "flowlet.h"

int main(int argc, char **argv)
{
    const char *text = whole(argc, argv, "gap,sport,dport,arrival\n");
    uint32_t row[4], words[6];
    uint64_t packets = 0;
    put("packet,sport,dport,arrival,new_hop,next_hop,id\n", 47);
    for (; *text != 0; packets++) {
        text = numbers(text, row, 4);
        flowlet(row, words);
        packet(packets + 1, words, 6);
    }
    state("last_time", last_time, FLOWLETS);
    state("saved_hop", saved_hop, FLOWLETS);
    done(packets);
    return 0;
}

/* The same work as `domino run praw-medium examples/flowlet.dom TRACE`, by hand: reads a trace whose columns are
   `gap,sport,dport,arrival`, and writes the same report to standard output, each line with its own write(2). */
#include "flowlet.h"

enum { DEPTH = 12 };

int main(int argc, char **argv)
{
    const char *text = whole(argc, argv, "gap,sport,dport,arrival\n");
    uint32_t row[4], words[6];
    uint64_t cycle = 0, packets = 0;
    put("cycle,sport,dport,arrival,new_hop,next_hop,id\n", 46);
    for (; *text != 0; packets++) {
        text = numbers(text, row, 4);
        flowlet(row, words);
        cycle += row[0];
        packet(cycle + DEPTH, words, 6);
        cycle += 1;
    }
    state("last_time", last_time, FLOWLETS);
    state("saved_hop", saved_hop, FLOWLETS);
    place("last_time", 2);
    place("saved_hop", 5);
    done_after(packets, cycle + DEPTH);
    return 0;
}

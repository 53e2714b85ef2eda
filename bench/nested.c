/* The same work as `domino serial nested.dom TRACE` on the program that bench/serial.sh makes, by hand: thirty nested
   conditionals on the bits of x, each of which counts in a state word. Columns `gap,x`; one write(2) a line. */
#include "serial.h"

int main(int argc, char **argv)
{
    const char *text = whole(argc, argv, "gap,x\n");
    uint32_t row[2], count = 0;
    uint64_t packets = 0;
    put("packet,x,y\n", 11);
    for (; *text != 0; packets++) {
        text = numbers(text, row, 2);
        uint32_t x = row[1], y = 0;
        for (int k = 0; k < 30 && (x >> k & 1) == 0; k++) {
            y = y * 3 + k;
            count += 1;
        }
        uint32_t words[2] = { x, y };
        packet(packets + 1, words, 2);
    }
    state("count", &count, 1);
    done(packets);
    return 0;
}

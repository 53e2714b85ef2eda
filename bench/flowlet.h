/* The packets of examples/flowlet.dom, whose records are `gap,sport,dport,arrival`. */
#include "serial.h"

enum { FLOWLETS = 8000, THRESH = 5, HOPS = 10 };

static uint32_t last_time[FLOWLETS], saved_hop[FLOWLETS];

/* What one packet does: its six words, of its record. */
static void flowlet(const uint32_t row[4], uint32_t words[6])
{
    uint32_t new_hop = fnv(0, row + 1, 3) % HOPS, id = fnv(0, row + 1, 2) % FLOWLETS;
    if ((int32_t)(row[3] - last_time[id]) > THRESH)
        saved_hop[id] = new_hop;
    last_time[id] = row[3];
    memcpy(words, row + 1, 3 * sizeof *words);
    words[3] = new_hop;
    words[4] = saved_hop[id];
    words[5] = id;
}

/* The packets of examples/conga.dom, whose records are `gap,dst,util,path`. */
#include "serial.h"

enum { DESTINATIONS = 2 };

static uint32_t best_util[DESTINATIONS] = { 100, 100 }, best_path[DESTINATIONS];

/* What one packet does to the best path to its destination. Its words stay as they are. */
static inline void conga(const uint32_t row[4])
{
    uint32_t util = row[2], path = row[3], at = row[1] % DESTINATIONS;
    if ((int32_t)util < (int32_t)best_util[at]) {
        best_util[at] = util;
        best_path[at] = path;
    } else if (path == best_path[at]) {
        best_util[at] = util;
    }
}

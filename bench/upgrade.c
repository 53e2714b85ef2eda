/* The same work as `domino upgrade CONFIG`, by hand: reads the text of a configuration of version 1 and writes it in version
   2, where values that are not live at the same stages share containers; each line with its own write(2). It checks
   nothing but what it needs. */
#include "serial.h"

enum { MOST_CONTAINERS = 2048, LONGEST_LINE = 4096 };

/* Of each container the stage that writes it, or -1, the last stage that needs it, and its new number. */
static int made[MOST_CONTAINERS], last[MOST_CONTAINERS], now[MOST_CONTAINERS];
static int fields, depth;

static int is_line(const char *line, const char *first)
{
    return strncmp(line, first, strlen(first)) == 0;
}

static int names_containers(const char *line)
{
    return is_line(line, "un,") || is_line(line, "bin,") || is_line(line, "cond,") || is_line(line, "hash,")
        || is_line(line, "slot,") || is_line(line, "out,");
}

/* Writes a line that names containers with their new numbers, of which there are none yet where it marks them: at which
   stage they are written, and needed last. An output needs its own behind all stages. */
static size_t renamed(const char *line, char *room, int is_marking)
{
    int is_slot = is_line(line, "slot,"), is_out = is_line(line, "out,"), stage = depth + is_out;
    char *to = room;
    for (int word = 0;; word++) {
        size_t length = strcspn(line, ",\n");
        if (word > 0 && *line == 'c') {
            int container = atoi(line + 1);
            if (container >= MOST_CONTAINERS)
                exit(3);
            if (is_marking && (is_slot ? word == 3 || word == 4 : word == 1 && !is_out))
                made[container] = stage;
            if (is_marking)
                last[container] = stage;
            *to++ = 'c';
            to = decimal(to, (uint64_t)now[container]);
        } else {
            memcpy(to, line, length);
            to += length;
        }
        line += length;
        *to++ = *line;
        if (*line++ == '\n')
            return (size_t)(to - room);
    }
}

/* Each value takes, in the order of its stage and its number, the least container whose value is not needed any more. Says
   how many containers there are then. */
static int share(int containers)
{
    static int until[MOST_CONTAINERS];
    int count = 0;
    memset(until, 0xff, sizeof until);
    for (int stage = 0; stage <= depth; stage++)
        for (int value = 0, least = 0; value < containers; value++) {
            if (made[value] != stage)
                continue;
            while (until[least] >= stage)
                least++;
            until[least] = last[value];
            now[value] = least;
            if (least >= count)
                count = least + 1;
        }
    return count;
}

int main(int argc, char **argv)
{
    if (argc != 2)
        return 2;
    char *text = text_of(argv[1]), *line, *end, room[LONGEST_LINE];
    int containers = 0;
    memset(made, 0xff, sizeof made);
    for (line = text; (end = strchr(line, '\n')) != NULL; line = end + 1) {
        if (end - line > LONGEST_LINE / 4)
            exit(3);
        if (is_line(line, "field,"))
            made[fields++] = 0;
        else if (is_line(line, "containers,"))
            containers = atoi(line + 11);
        else if (is_line(line, "stage,"))
            depth++;
        else if (names_containers(line))
            renamed(line, room, 1);
    }
    if (containers > MOST_CONTAINERS || !is_line(text, "banzai,1\n"))
        exit(3);
    containers = share(containers);
    for (line = text; (end = strchr(line, '\n')) != NULL; line = end + 1) {
        if (is_line(line, "banzai,"))
            put("banzai,2\n", 9);
        else if (is_line(line, "containers,"))
            put(room, (size_t)(stpcpy(decimal(stpcpy(room, "containers,"), (uint64_t)containers), "\n") - room));
        else if (names_containers(line))
            put(room, renamed(line, room, 0));
        else
            put(line, (size_t)(end + 1 - line));
    }
    return 0;
}

/* interpreter run CONFIG TRACE: clocks the machine of a configuration (its text of either version, docs/FORMATS.md,
   "Configurations") over a trace, and writes the report that `domino run` writes, each line with its own write(2). What
   `domino` proves, this program only does: it checks of the two texts what it needs to read them, takes no quotes in a
   trace, and clocks while it reads, so it keeps no packets.

   interpreter watch CONFIG TRACE writes the report of `domino watch` instead, and interpreter serial CONFIG TRACE that of
   `domino serial`: there each packet goes through all atoms before the next one is read. interpreter selfrun CONFIG SEED
   COUNT clocks over packets that it draws, and writes the summary of `domino selfrun`; the configuration is that of the
   program that `selfrun` has.

   The machine is the same: a flat ring of as many places as there are stages, a flag for each, and a position that turns.
   Its atoms are decoded once, and a switch runs them. */
#include "serial.h"
#include <stdio.h>

enum { MOST_FIELDS = 64, MOST_ARRAYS = 32, MOST_STAGES = 64, MOST_WIDTH = 2048, NONE = -1 };

static enum { RUN, SERIAL, WATCH, SELFRUN } mode;

/* For what `run` does not do: out of its way. */
#define COLD __attribute__((cold, noinline)) void

enum kind {
    NEG, INV, NOT, MUL, DIV, REM, ADD, SUB, SHL, SHR, LT, LE, GT, GE, EQ, NE, AND, XOR, OR, LAND, LOR, COND, HASH, STATE
};

static const char *const operators[] = { "neg", "inv", "not", "mul", "div", "rem", "add", "sub", "shl", "shr", "lt", "le",
    "gt", "ge", "eq", "ne", "and", "xor", "or", "land", "lor" };

/* A constant where the container is NONE, else the word of that container. */
struct port {
    int32_t container;
    uint32_t word;
};

/* What a guard compares: a port where the slot is NONE, else the old word of that slot. */
struct source {
    int32_t slot;
    struct port port;
};

enum what { KEEP, PUT, PLUS, LESS, FORK };

struct tree {
    enum what what;
    int is_less;
    struct port port;
    struct source left, right;
    struct tree *yes, *no;
};

struct slot {
    uint32_t *words, length, array;
    struct port index;
    int32_t old, new;
    struct tree *tree;
};

/* An atom without state writes the container `to`; one with state has `count` slots. */
struct atom {
    enum kind kind;
    int32_t to;
    struct port ports[4];
    uint32_t letter, count, modulus;
    int stage;
    struct slot *slots;
};

/* What an atom touched in a cycle that is watched. */
struct touch {
    int stage;
    uint32_t array, index;
};

static char *target, *field_names[MOST_FIELDS], *array_names[MOST_ARRAYS];
static uint32_t *arrays[MOST_ARRAYS], lengths[MOST_ARRAYS];
static int places[MOST_ARRAYS];
static struct port outputs[MOST_FIELDS];
static struct atom *atoms;
static int starts[MOST_STAGES + 1], busy[MOST_STAGES];
static int fields, array_count, output_count, atom_count, depth, busy_count, width;
static struct touch touches[MOST_ARRAYS];
static int touch_count;
static uint64_t cycle, packets;
static uint32_t fold;

static void *room(size_t size)
{
    void *taken = calloc(1, size);
    if (taken == NULL)
        exit(6);
    return taken;
}

/* The words of a line that are not taken yet, or NULL. */
static char *rest;

static char *word(void)
{
    char *start = rest;
    if (start == NULL)
        exit(3);
    rest = strchr(start, ',');
    if (rest != NULL)
        *rest++ = 0;
    return start;
}

/* A name. What the lines have room for is enough for the programs that are measured. */
static char *name(void)
{
    char *name = word();
    if (strlen(name) > 60)
        exit(3);
    return name;
}

static uint32_t number(void)
{
    return (uint32_t)strtoul(word(), NULL, 10);
}

static struct port port(void)
{
    const char *text = word();
    struct port port = { NONE, 0 };
    if (*text == '#')
        port.word = (uint32_t)strtol(text + 1, NULL, 10);
    else
        port.container = atoi(text + 1);
    return port;
}

static struct source source(void)
{
    struct source source = { NONE, { NONE, 0 } };
    if (*rest == 's')
        source.slot = word()[1] - '0';
    else
        source.port = port();
    return source;
}

/* The place of a name in a list. */
static int found(const char *name, const char *const *names, int count)
{
    for (int k = 0; k < count; k++)
        if (strcmp(name, names[k]) == 0)
            return k;
    exit(3);
}

static struct tree *tree_of(void)
{
    static const char *const kinds[] = { "keep", "put", "add", "sub", "if" };
    struct tree *tree = room(sizeof *tree);
    tree->what = (enum what)found(word(), kinds, 5);
    if (tree->what == FORK) {
        tree->is_less = strcmp(word(), "lt") == 0;
        tree->left = source();
        tree->right = source();
        tree->yes = tree_of();
        tree->no = tree_of();
    } else if (tree->what != KEEP) {
        tree->port = port();
    }
    return tree;
}

static void read_slot(struct slot *slot)
{
    uint32_t array = number();
    slot->array = array;
    slot->words = arrays[array];
    slot->length = lengths[array];
    slot->index = port();
    slot->old = *rest == '-' ? (word(), NONE) : port().container;
    slot->new = *rest == '-' ? (word(), NONE) : port().container;
    slot->tree = tree_of();
    places[array] = depth;
}

static void read_atom(const char *line)
{
    struct atom *atom = &atoms[atom_count++];
    if (strcmp(line, "atom") == 0) {
        atom->kind = STATE;
        atom->stage = depth;
        atom->slots = room(number() * sizeof(struct slot));
        return;
    }
    atom->to = port().container;
    if (strcmp(line, "hash") == 0) {
        const char *unit = word();
        atom->kind = HASH;
        atom->count = (uint32_t)(unit[4] - '0');
        atom->letter = unit[5] == 0 ? 0 : (uint32_t)(unit[5] - 'a' + 1);
        atom->modulus = number();
    } else if (strcmp(line, "cond") == 0) {
        atom->kind = COND;
        atom->count = 3;
    } else {
        atom->kind = (enum kind)found(word(), operators, COND);
        atom->count = line[0] == 'u' ? 1 : 2;
    }
    for (uint32_t k = 0; k < atom->count; k++)
        atom->ports[k] = port();
}

static void read_array(void)
{
    char *own = name();
    uint32_t length = number(), init = (uint32_t)strtol(word(), NULL, 10);
    array_names[array_count] = own;
    lengths[array_count] = length;
    arrays[array_count] = room(length * sizeof(uint32_t));
    for (uint32_t k = 0; k < length; k++)
        arrays[array_count][k] = init;
    array_count++;
}

static void read_line(char *line)
{
    rest = line;
    const char *first = word();
    if (strcmp(first, "target") == 0)
        target = name();
    else if (strcmp(first, "field") == 0)
        field_names[fields++] = name();
    else if (strcmp(first, "array") == 0)
        read_array();
    else if (strcmp(first, "containers") == 0)
        width = (int)number();
    else if (strcmp(first, "stage") == 0)
        starts[depth++] = atom_count;
    else if (strcmp(first, "slot") == 0)
        read_slot(&atoms[atom_count - 1].slots[atoms[atom_count - 1].count++]);
    else if (strcmp(first, "out") == 0)
        outputs[output_count++] = port();
    else if (strcmp(first, "un") == 0 || strcmp(first, "bin") == 0 || strcmp(first, "cond") == 0
        || strcmp(first, "hash") == 0 || strcmp(first, "atom") == 0)
        read_atom(first);
}

static void read_configuration(char *text)
{
    size_t lines = 0;
    for (const char *at = text; *at != 0; at++)
        lines += *at == '\n';
    atoms = room(lines * sizeof(struct atom));
    while (*text != 0) {
        char *end = strchr(text, '\n');
        if (end == NULL)
            exit(3);
        *end = 0;
        read_line(text);
        text = end + 1;
    }
    if (depth == 0)
        exit(3);
    starts[depth] = atom_count;
    for (int k = 0; k < depth; k++)
        if (starts[k] < starts[k + 1])
            busy[busy_count++] = k;
}

static inline uint32_t value(struct port port, const uint32_t *words)
{
    return port.container == NONE ? port.word : words[port.container];
}

static inline uint32_t compared(const struct source *source, const uint32_t *old, const uint32_t *words)
{
    return source->slot == NONE ? value(source->port, words) : old[source->slot];
}

static uint32_t next(const struct tree *tree, int own, const uint32_t *old, const uint32_t *words)
{
    while (tree->what == FORK) {
        uint32_t left = compared(&tree->left, old, words), right = compared(&tree->right, old, words);
        int holds = tree->is_less ? (int32_t)left < (int32_t)right : left == right;
        tree = holds ? tree->yes : tree->no;
    }
    switch (tree->what) {
    case PUT: return value(tree->port, words);
    case PLUS: return old[own] + value(tree->port, words);
    case LESS: return old[own] - value(tree->port, words);
    default: return old[own];
    }
}

static COLD touch(const struct atom *atom, uint32_t *const cells[2])
{
    for (uint32_t k = 0; k < atom->count; k++) {
        const struct slot *slot = &atom->slots[k];
        touches[touch_count++] = (struct touch){ atom->stage, slot->array, (uint32_t)(cells[k] - slot->words) };
    }
}

static void run_state(const struct atom *atom, uint32_t *words)
{
    uint32_t *cells[2], old[2], new[2];
    for (uint32_t k = 0; k < atom->count; k++) {
        const struct slot *slot = &atom->slots[k];
        cells[k] = &slot->words[value(slot->index, words) % slot->length];
        old[k] = *cells[k];
    }
    if (mode == WATCH)
        touch(atom, cells);
    for (uint32_t k = 0; k < atom->count; k++)
        new[k] = next(atom->slots[k].tree, (int)k, old, words);
    for (uint32_t k = 0; k < atom->count; k++) {
        const struct slot *slot = &atom->slots[k];
        *cells[k] = new[k];
        if (slot->old != NONE)
            words[slot->old] = old[k];
        if (slot->new != NONE)
            words[slot->new] = new[k];
    }
}

static inline uint32_t run_hash(const struct atom *atom, const uint32_t *words)
{
    uint32_t values[4];
    for (uint32_t k = 0; k < atom->count; k++)
        values[k] = value(atom->ports[k], words);
    uint32_t hash = fnv((uint8_t)atom->letter, values, (int)atom->count);
    return atom->modulus == 0 ? hash : hash % atom->modulus;
}

static inline uint32_t quotient(uint32_t a, uint32_t b)
{
    return b == 0 ? 0 : b == UINT32_MAX ? 0u - a : (uint32_t)((int32_t)a / (int32_t)b);
}

static inline uint32_t remainder_of(uint32_t a, uint32_t b)
{
    return b == 0 || b == UINT32_MAX ? 0 : (uint32_t)((int32_t)a % (int32_t)b);
}

#define A value(atom->ports[0], words)
#define B value(atom->ports[1], words)
#define C value(atom->ports[2], words)

/* The atoms of a stage act one after another in the packet's place. */
static inline __attribute__((always_inline)) void run_stage(const struct atom *atom, const struct atom *end, uint32_t *words)
{
    for (; atom < end; atom++) {
        uint32_t *to = &words[atom->to];
        switch (atom->kind) {
        case NEG: *to = 0u - A; break;
        case INV: *to = ~A; break;
        case NOT: *to = A == 0; break;
        case MUL: *to = A * B; break;
        case DIV: *to = quotient(A, B); break;
        case REM: *to = remainder_of(A, B); break;
        case ADD: *to = A + B; break;
        case SUB: *to = A - B; break;
        case SHL: *to = A << (B & 31); break;
        case SHR: *to = (uint32_t)((int32_t)A >> (B & 31)); break;
        case LT: *to = (int32_t)A < (int32_t)B; break;
        case LE: *to = (int32_t)A <= (int32_t)B; break;
        case GT: *to = (int32_t)A > (int32_t)B; break;
        case GE: *to = (int32_t)A >= (int32_t)B; break;
        case EQ: *to = A == B; break;
        case NE: *to = A != B; break;
        case AND: *to = A & B; break;
        case XOR: *to = A ^ B; break;
        case OR: *to = A | B; break;
        case LAND: *to = A != 0 && B != 0; break;
        case LOR: *to = A != 0 || B != 0; break;
        case COND: *to = A != 0 ? B : C; break;
        case HASH: *to = run_hash(atom, words); break;
        case STATE: run_state(atom, words); break;
        }
    }
}

static uint32_t *ring;
static unsigned char *filled;
static int newest, in_flight;

/* A line of a cycle that is watched: a word, a number where there is one, and words behind them. */
static COLD watched(const char *first, int64_t number, const uint32_t *words, int count)
{
    static char line[12 * MOST_WIDTH + 64];
    char *to = stpcpy(line, first);
    if (number != NONE) {
        *to++ = ',';
        to = decimal(to, (uint64_t)number);
    }
    for (int k = 0; k < count; k++) {
        *to++ = ',';
        to = signed_decimal(to, words[k]);
    }
    *to++ = '\n';
    put(line, (size_t)(to - line));
}

static COLD before_cycle(void)
{
    touch_count = 0;
    watched("cycle", (int64_t)cycle, NULL, 0);
}

/* What stands after a cycle, and what was touched in it. */
static COLD after_cycle(void)
{
    for (int k = 0; k < depth; k++) {
        int at = newest + k < depth ? newest + k : newest + k - depth;
        if (filled[at])
            watched("reg", k, ring + (size_t)at * (size_t)width, width);
    }
    for (int k = 0; k < touch_count; k++) {
        char line[128], *to = decimal(stpcpy(line, "touch,"), (uint64_t)touches[k].stage);
        *to++ = ',';
        to = stpcpy(to, array_names[touches[k].array]);
        *to++ = ',';
        to = decimal(to, touches[k].index);
        *to++ = '\n';
        put(line, (size_t)(to - line));
    }
}

/* A packet leaves through the outputs; the number is the report's. */
static void leave(uint64_t number, const uint32_t *words)
{
    uint32_t leaving[MOST_FIELDS];
    for (int k = 0; k < fields; k++)
        leaving[k] = value(outputs[k], words);
    if (mode == RUN || mode == SERIAL)
        packet(number, leaving, fields);
    else if (mode == WATCH)
        watched("out", NONE, leaving, fields);
    else
        for (int k = 0; k < fields; k++)
            fold = 31 * fold + leaving[k];
}

/* A packet comes into a place, a word for each field. */
static inline void enter(uint32_t *words, const uint32_t *entering)
{
    memcpy(words, entering, (size_t)fields * sizeof *words);
    memset(words + fields, 0, (size_t)(width - fields) * sizeof *words);
}

/* One cycle. What enters is a word for each field, or NULL. */
static void clock_once(const uint32_t *entering)
{
    if (mode == WATCH)
        before_cycle();
    if (in_flight > 0)
        for (int j = 0; j < busy_count; j++) {
            int k = busy[j], at = newest + k < depth ? newest + k : newest + k - depth;
            if (filled[at])
                run_stage(atoms + starts[k], atoms + starts[k + 1], ring + (size_t)at * (size_t)width);
        }
    int oldest = newest == 0 ? depth - 1 : newest - 1;
    uint32_t *words = ring + (size_t)oldest * (size_t)width;
    if (filled[oldest])
        leave(cycle, words);
    in_flight += (entering != NULL) - filled[oldest];
    filled[oldest] = entering != NULL;
    if (entering != NULL)
        enter(words, entering);
    newest = oldest;
    if (mode == WATCH)
        after_cycle();
    cycle++;
}

/* A packet behind so many idle cycles; `serial` has no cycles. */
static inline void take(uint32_t gap, const uint32_t *entering)
{
    packets++;
    if (mode == SERIAL) {
        enter(ring, entering);
        for (int j = 0; j < busy_count; j++)
            run_stage(atoms + starts[busy[j]], atoms + starts[busy[j] + 1], ring);
        leave(packets, ring);
        return;
    }
    for (uint32_t k = 0; k < gap; k++)
        clock_once(NULL);
    clock_once(entering);
}

/* Reads the heading of a trace: for each field its column, or 0, which is the column of the gap. */
static char *heading(char *text, int *columns, int *count)
{
    char *end = strchr(text, '\n');
    if (end == NULL)
        exit(3);
    *end = 0;
    rest = text;
    if (strcmp(word(), "gap") != 0)
        exit(3);
    for (*count = 1; rest != NULL; ++*count)
        columns[found(word(), (const char *const *)field_names, fields)] = *count;
    return end + 1;
}

static void put_heading(void)
{
    char line[MOST_FIELDS * 80], *to = stpcpy(line, mode == SERIAL ? "packet" : "cycle");
    for (int k = 0; k < fields; k++) {
        *to++ = ',';
        to = stpcpy(to, field_names[k]);
    }
    *to++ = '\n';
    put(line, (size_t)(to - line));
}

/* Takes the packets of a trace, and writes the report. */
static void report(const char *path)
{
    int columns[MOST_FIELDS] = { 0 }, count;
    const char *text = heading(text_of(path), columns, &count);
    uint32_t row[MOST_FIELDS + 1], entering[MOST_FIELDS];
    if (mode != WATCH)
        put_heading();
    while (*text != 0) {
        text = numbers(text, row, count);
        for (int k = 0; k < fields; k++)
            entering[k] = columns[k] == 0 ? 0 : row[columns[k]];
        take(row[0], entering);
    }
    for (int k = 0; k < depth && mode != SERIAL; k++)
        clock_once(NULL);
    for (int k = 0; k < array_count && mode != WATCH; k++)
        state(array_names[k], arrays[k], lengths[k]);
    for (int k = 0; k < array_count && mode == RUN; k++)
        if (places[k] != 0)
            place(array_names[k], places[k]);
    if (mode == SERIAL)
        done(packets);
    else
        done_after(packets, cycle);
}

/* Takes packets that are drawn, and writes the summary. */
static void summary(const char *seed, const char *count)
{
    uint32_t drawn = (uint32_t)strtoul(seed, NULL, 10), all = (uint32_t)strtoul(count, NULL, 10), draws[3], total = 0;
    while (packets < all) {
        for (int k = 0; k < 3; k++)
            draws[k] = drawn = 1664525 * drawn + 1013904223;
        take(draws[0] >> 30, (uint32_t[]){ draws[1] >> 26, draws[2] >> 16, 0 });
    }
    for (int k = 0; k < depth; k++)
        clock_once(NULL);
    for (int k = 0; k < array_count; k++)
        for (uint32_t j = 0; j < lengths[k]; j++)
            total += arrays[k][j];
    dprintf(1, "selfrun,%s,%s,%s\n", target, seed, count);
    dprintf(1, "packets,%llu\n", (unsigned long long)packets);
    dprintf(1, "cycles,%llu\n", (unsigned long long)cycle);
    dprintf(1, "fold,%d\n", (int32_t)fold);
    dprintf(1, "total,%d\n", (int32_t)total);
}

int main(int argc, char **argv)
{
    static const char *const modes[] = { "run", "serial", "watch", "selfrun" };
    if (argc < 4)
        return 2;
    mode = found(argv[1], modes, 4);
    if (argc != (mode == SELFRUN ? 5 : 4))
        return 2;
    read_configuration(text_of(argv[2]));
    ring = room((size_t)depth * (size_t)width * sizeof *ring);
    filled = room((size_t)depth);
    if (mode == SELFRUN)
        summary(argv[3], argv[4]);
    else
        report(argv[3]);
    return 0;
}

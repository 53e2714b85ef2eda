// For LD_PRELOAD, as bench/want_of_memory has it: refuses one allocation of a program, or that one and all behind it.
// REFUSED is its number, from 1; with REFUSED_ON=1 all behind it are refused too. A growth counts as an allocation. At the end
// the number of all that were asked for is written to the file that ASKED names, if it names one.
#include <errno.h>
#include <fcntl.h>
#include <stddef.h>
#include <stdio.h>
#include <stdlib.h>
#include <unistd.h>

extern void *__libc_malloc(size_t size);
extern void *__libc_calloc(size_t count, size_t size);
extern void *__libc_realloc(void *old, size_t size);
extern void *__libc_memalign(size_t alignment, size_t size);

static unsigned long asked;

static unsigned long number_of(const char *name) {
    const char *text = getenv(name);
    return text ? strtoul(text, NULL, 10) : 0;
}

// Whether the next allocation is refused. Nothing here takes memory.
static int is_refused(void) {
    unsigned long number = number_of("REFUSED");
    asked++;
    if (!number || asked < number || (asked > number && !number_of("REFUSED_ON"))) return 0;
    errno = ENOMEM;
    return 1;
}

void *malloc(size_t size) {
    return is_refused() ? NULL : __libc_malloc(size);
}

void *calloc(size_t count, size_t size) {
    return is_refused() ? NULL : __libc_calloc(count, size);
}

void *realloc(void *old, size_t size) {
    return is_refused() ? NULL : __libc_realloc(old, size);
}

void *aligned_alloc(size_t alignment, size_t size) {
    return is_refused() ? NULL : __libc_memalign(alignment, size);
}

int posix_memalign(void **out, size_t alignment, size_t size) {
    void *found = is_refused() ? NULL : __libc_memalign(alignment, size);
    if (!found) return ENOMEM;
    *out = found;
    return 0;
}

__attribute__((destructor)) static void tell(void) {
    const char *name = getenv("ASKED");
    char line[32];
    if (!name) return;
    int file = open(name, O_WRONLY | O_CREAT | O_TRUNC, 0600);
    if (file < 0) return;
    int length = snprintf(line, sizeof line, "%lu\n", asked);
    if (write(file, line, (size_t)length) != length) unlink(name);
    close(file);
}

/* Refuses the allocation whose number stands in REFUSED_CALL, counted from 1, and writes how many there were to COUNT_FILE, if that is given. It is
   loaded before the C library (LD_PRELOAD). The program allocates by malloc and realloc alone. */
#define _GNU_SOURCE
#include <dlfcn.h>
#include <errno.h>
#include <stdio.h>
#include <stdlib.h>

static unsigned long calls;
static unsigned long refused;
static int counts;

__attribute__((constructor)) static void begin(void) {
    const char *number = getenv("REFUSED_CALL");
    refused = number ? strtoul(number, NULL, 10) : 0;
    counts = 1;
}

__attribute__((destructor)) static void end(void) {
    unsigned long made = calls;
    counts = 0;
    const char *name = getenv("COUNT_FILE");
    FILE *file = name ? fopen(name, "w") : NULL;
    if (file) {
        fprintf(file, "%lu\n", made);
        fclose(file);
    }
}

/* Whether this allocation is refused. */
static int is_refused(void) {
    if (!counts || ++calls != refused)
        return 0;
    errno = ENOMEM;
    return 1;
}

void *malloc(size_t size) {
    static void *(*next)(size_t);
    if (!next)
        next = (void *(*)(size_t))dlsym(RTLD_NEXT, "malloc");
    return is_refused() ? NULL : next(size);
}

void *realloc(void *block, size_t size) {
    static void *(*next)(void *, size_t);
    if (!next)
        next = (void *(*)(void *, size_t))dlsym(RTLD_NEXT, "realloc");
    return is_refused() ? NULL : next(block, size);
}

/* To be preloaded before a program (bench/growths.sh): refuses the growth of the heap whose number REFUSE names, counted from 1, and at the end
   of the program writes to the file COUNT how many were asked for. */
#define _GNU_SOURCE
#include <dlfcn.h>
#include <errno.h>
#include <stdio.h>
#include <stdlib.h>

static unsigned long asked, refused;
static int counting;

__attribute__((constructor)) static void begin(void) {
    const char *number = getenv("REFUSE");
    refused = number ? strtoul(number, NULL, 10) : 0;
    counting = 1;
}

__attribute__((destructor)) static void end(void) {
    const char *path = getenv("COUNT");
    counting = 0;
    FILE *file = path ? fopen(path, "w") : NULL;
    if (file) {
        fprintf(file, "%lu\n", asked);
        fclose(file);
    }
}

static int is_refused(void) {
    if (!counting || ++asked != refused) {
        return 0;
    }
    errno = ENOMEM;
    return 1;
}

static void *found(void **known, const char *name) {
    if (!*known) {
        *known = dlsym(RTLD_NEXT, name);
    }
    return *known;
}

void *malloc(size_t size) {
    static void *known;
    return is_refused() ? NULL : ((void *(*)(size_t))found(&known, "malloc"))(size);
}

void *realloc(void *old, size_t size) {
    static void *known;
    return is_refused() ? NULL : ((void *(*)(void *, size_t))found(&known, "realloc"))(old, size);
}

void *aligned_alloc(size_t alignment, size_t size) {
    static void *known;
    return is_refused() ? NULL : ((void *(*)(size_t, size_t))found(&known, "aligned_alloc"))(alignment, size);
}

int posix_memalign(void **out, size_t alignment, size_t size) {
    static void *known;
    return is_refused() ? ENOMEM : ((int (*)(void **, size_t, size_t))found(&known, "posix_memalign"))(out, alignment, size);
}

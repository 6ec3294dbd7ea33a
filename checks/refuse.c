// Preloaded into a program: refuses its allocation number REFUSE, counted from 1. Where COUNTED names a file, the number of
// allocations that were asked for is written to it at the end.
#define _GNU_SOURCE
#include <dlfcn.h>
#include <errno.h>
#include <stdio.h>
#include <stdlib.h>

static unsigned long asked, refused;

__attribute__((constructor)) static void begin(void) {
    const char *number = getenv("REFUSE");
    refused = number ? strtoul(number, 0, 10) : 0;
    asked = 0;
}

__attribute__((destructor)) static void end(void) {
    const char *name = getenv("COUNTED");
    unsigned long all = asked;
    refused = 0;
    FILE *file = name ? fopen(name, "w") : 0;
    if (file) {
        fprintf(file, "%lu\n", all);
        fclose(file);
    }
}

static int refuses(void) {
    if (++asked != refused) return 0;
    errno = ENOMEM;
    return 1;
}

void *__libc_malloc(size_t);
void *__libc_realloc(void *, size_t);
void *__libc_calloc(size_t, size_t);
void *__libc_memalign(size_t, size_t);

void *malloc(size_t size) { return refuses() ? 0 : __libc_malloc(size); }
void *realloc(void *old, size_t size) { return refuses() ? 0 : __libc_realloc(old, size); }
void *calloc(size_t count, size_t size) { return refuses() ? 0 : __libc_calloc(count, size); }
void *aligned_alloc(size_t align, size_t size) { return refuses() ? 0 : __libc_memalign(align, size); }
int posix_memalign(void **to, size_t align, size_t size) {
    void *made = refuses() ? 0 : __libc_memalign(align, size);
    if (made) *to = made;
    return made ? 0 : ENOMEM;
}

/* Loaded before the C library (LD_PRELOAD): refuses one allocation, the one with the number in REFUSED (from 1 on), or with no
   number counts them and writes their number to the file named by COUNTED when the program ends. */
#define _GNU_SOURCE
#include <dlfcn.h>
#include <errno.h>
#include <stdio.h>
#include <stdlib.h>

static unsigned long count, refused;
static void *(*next_malloc)(size_t), *(*next_realloc)(void *, size_t), *(*next_calloc)(size_t, size_t);
static int (*next_memalign)(void **, size_t, size_t);

__attribute__((constructor)) static void begin(void)
{
    const char *word = getenv("REFUSED");
    next_malloc = dlsym(RTLD_NEXT, "malloc");
    next_realloc = dlsym(RTLD_NEXT, "realloc");
    next_calloc = dlsym(RTLD_NEXT, "calloc");
    next_memalign = dlsym(RTLD_NEXT, "posix_memalign");
    count = 0;
    refused = word ? strtoul(word, NULL, 10) : 0;
}

__attribute__((destructor)) static void end(void)
{
    const char *name = getenv("COUNTED");
    unsigned long all = count;
    FILE *file = name ? fopen(name, "w") : NULL;
    if (file) {
        fprintf(file, "%lu\n", all);
        fclose(file);
    }
}

static int is_refused(void)
{
    return ++count == refused;
}

void *malloc(size_t size)
{
    if (!next_malloc) begin();
    if (is_refused()) { errno = ENOMEM; return NULL; }
    return next_malloc(size);
}

void *realloc(void *old, size_t size)
{
    if (!next_realloc) begin();
    if (is_refused()) { errno = ENOMEM; return NULL; }
    return next_realloc(old, size);
}

void *calloc(size_t items, size_t size)
{
    if (!next_calloc) begin();
    if (is_refused()) { errno = ENOMEM; return NULL; }
    return next_calloc(items, size);
}

int posix_memalign(void **where, size_t align, size_t size)
{
    if (!next_memalign) begin();
    return is_refused() ? ENOMEM : next_memalign(where, align, size);
}

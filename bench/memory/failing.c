/* Refuses one request for memory: the one whose number, from 1, stands in FAIL_AT. With FAIL_AT=0 it refuses none. In any case it
 * writes the number of requests into the file of REQUESTS at the end, where that is given. Loaded in front of the C library. */
#define _GNU_SOURCE
#include <dlfcn.h>
#include <stdio.h>
#include <stdlib.h>

static unsigned long requests, refused;

static int refuses(void)
{
    if (requests == 0) {
        const char *text = getenv("FAIL_AT");
        refused = text ? strtoul(text, NULL, 10) : 0;
    }
    requests++;
    return requests == refused;
}

void *malloc(size_t size)
{
    static void *(*next)(size_t);
    if (!next)
        next = (void *(*)(size_t))dlsym(RTLD_NEXT, "malloc");
    return refuses() ? NULL : next(size);
}

void *realloc(void *old, size_t size)
{
    static void *(*next)(void *, size_t);
    if (!next)
        next = (void *(*)(void *, size_t))dlsym(RTLD_NEXT, "realloc");
    return refuses() ? NULL : next(old, size);
}

__attribute__((destructor)) static void report(void)
{
    const char *name = getenv("REQUESTS");
    unsigned long all = requests;
    refused = 0;
    if (name) {
        FILE *file = fopen(name, "w");
        if (file) {
            fprintf(file, "%lu\n", all);
            fclose(file);
        }
    }
}

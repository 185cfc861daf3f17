/* An allocator that counts, put before the C library's by LD_PRELOAD: it refuses growth number REFUSE, from 1 on, and hands every other
 * one through. Each call of malloc, calloc or realloc for some bytes is a growth. At the end it writes to the file GROWTHS how many
 * growths there were and how many of them were refused. */
#define _GNU_SOURCE
#include <dlfcn.h>
#include <fcntl.h>
#include <stdio.h>
#include <stdlib.h>
#include <unistd.h>

static void *(*next_malloc)(size_t);
static void *(*next_calloc)(size_t, size_t);
static void *(*next_realloc)(void *, size_t);
static unsigned long growths, refused, wanted;

__attribute__((constructor)) static void begin(void)
{
    const char *number = getenv("REFUSE");
    next_malloc = (void *(*)(size_t))dlsym(RTLD_NEXT, "malloc");
    next_calloc = (void *(*)(size_t, size_t))dlsym(RTLD_NEXT, "calloc");
    next_realloc = (void *(*)(void *, size_t))dlsym(RTLD_NEXT, "realloc");
    wanted = number ? strtoul(number, NULL, 10) : 0;
    growths = 0;
}

__attribute__((destructor)) static void end(void)
{
    char line[64];
    int file = open(getenv("GROWTHS"), O_WRONLY | O_TRUNC);
    int length = snprintf(line, sizeof line, "%lu %lu\n", growths, refused);
    if (file < 0 || write(file, line, length) != length)
        _exit(99);
}

static int is_refused(void)
{
    growths++;
    refused += growths == wanted;
    return growths == wanted;
}

void *malloc(size_t size)
{
    return is_refused() ? NULL : next_malloc(size);
}

void *calloc(size_t count, size_t size)
{
    return is_refused() ? NULL : next_calloc(count, size);
}

void *realloc(void *old, size_t size)
{
    return size > 0 && is_refused() ? NULL : next_realloc(old, size);
}

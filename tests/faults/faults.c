/* Fails one call of the program that it is loaded into: its FAULT_AT-th allocation, read or write of
   standard output, as FAULT_KIND says, or has that write take nothing. Each of these reads or writes takes at most FAULT_MOST bytes.
   How many calls of the kind there were goes to the file FAULT_COUNT. With FAULT_BETWEEN only those
   count that come after the program writes `ready` and before it writes `done`. */
#define _GNU_SOURCE
#include <dlfcn.h>
#include <errno.h>
#include <stdio.h>
#include <stdlib.h>
#include <string.h>
#include <unistd.h>

enum kind { NONE, ALLOCATION, READ, WRITE, NOTHING };

static enum kind kind = NONE;
static long at = 0;
static long seen = 0;
static size_t most = -1;
static int between = 0;
static int counts = 1;

static void *(*real_malloc)(size_t);
static void *(*real_calloc)(size_t, size_t);
static void *(*real_realloc)(void *, size_t);
static void *(*real_aligned_alloc)(size_t, size_t);
static int (*real_posix_memalign)(void **, size_t, size_t);
static ssize_t (*real_read)(int, void *, size_t);
static ssize_t (*real_write)(int, const void *, size_t);

static void find_real(void)
{
    if (real_write) return;
    real_malloc = dlsym(RTLD_NEXT, "malloc");
    real_calloc = dlsym(RTLD_NEXT, "calloc");
    real_realloc = dlsym(RTLD_NEXT, "realloc");
    real_aligned_alloc = dlsym(RTLD_NEXT, "aligned_alloc");
    real_posix_memalign = dlsym(RTLD_NEXT, "posix_memalign");
    real_read = dlsym(RTLD_NEXT, "read");
    real_write = dlsym(RTLD_NEXT, "write");
}

__attribute__((constructor)) static void start(void)
{
    find_real();
    const char *name = getenv("FAULT_KIND");
    const char *number = getenv("FAULT_AT");
    const char *bytes = getenv("FAULT_MOST");
    at = number ? atol(number) : 0;
    most = bytes ? strtoul(bytes, NULL, 10) : (size_t)-1;
    between = getenv("FAULT_BETWEEN") != NULL;
    counts = !between;
    if (!name) return;
    if (!strcmp(name, "allocation")) kind = ALLOCATION;
    if (!strcmp(name, "read")) kind = READ;
    if (!strcmp(name, "write")) kind = WRITE;
    if (!strcmp(name, "nothing")) kind = NOTHING;
}

__attribute__((destructor)) static void end(void)
{
    const char *path = getenv("FAULT_COUNT");
    FILE *file = path ? fopen(path, "w") : NULL;
    if (!file) return;
    fprintf(file, "%ld\n", seen);
    fclose(file);
}

/* Whether this call, which is of that kind, is the one to fail. */
static int fails(enum kind called)
{
    find_real();
    return called == kind && counts && ++seen == at;
}

static void *refused(void)
{
    errno = ENOMEM;
    return NULL;
}

void *malloc(size_t size) { return fails(ALLOCATION) ? refused() : real_malloc(size); }

void *calloc(size_t count, size_t size) { return fails(ALLOCATION) ? refused() : real_calloc(count, size); }

void *realloc(void *old, size_t size) { return fails(ALLOCATION) ? refused() : real_realloc(old, size); }

void *aligned_alloc(size_t align, size_t size)
{
    return fails(ALLOCATION) ? refused() : real_aligned_alloc(align, size);
}

int posix_memalign(void **out, size_t align, size_t size)
{
    return fails(ALLOCATION) ? ENOMEM : real_posix_memalign(out, align, size);
}

static ssize_t failed(void)
{
    errno = EIO;
    return -1;
}

static size_t cut(size_t size) { return size < most ? size : most; }

ssize_t read(int file, void *bytes, size_t size)
{
    return fails(READ) ? failed() : real_read(file, bytes, cut(size));
}

ssize_t write(int file, const void *bytes, size_t size)
{
    if (file != 1) return real_write(file, bytes, size);
    if (between && size >= 5 && !memcmp(bytes, "ready", 5)) counts = 1;
    if (between && size >= 4 && !memcmp(bytes, "done", 4)) counts = 0;
    if (fails(NOTHING)) return 0;
    return fails(WRITE) ? failed() : real_write(file, bytes, cut(size));
}

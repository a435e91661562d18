/* Makes one call of the program fail, for tests/failing/run: the FAIL_ALLOC-th of malloc and realloc, or of open (FAIL_OPEN), read
   (FAIL_READ) or write (FAIL_WRITE); a negative number makes that call and all behind it fail. SHORT_READ and SHORT_WRITE make one
   take a single byte, likewise. COUNTS names a file for how many there were. */
#define _GNU_SOURCE
#include <dlfcn.h>
#include <errno.h>
#include <stdarg.h>
#include <stdio.h>
#include <stdlib.h>
#include <unistd.h>

enum { ALLOC, OPEN, READ, WRITE, KINDS };
static const char *const NAMES[KINDS] = {"FAIL_ALLOC", "FAIL_OPEN", "FAIL_READ", "FAIL_WRITE"};
static long calls[KINDS];

/* Whether the call that was counted last is one that a variable names. */
static int is_named(int kind, const char *name)
{
    const char *text = getenv(name);
    long number = text ? atol(text) : 0;
    return number > 0 ? calls[kind] == number : number < 0 && calls[kind] >= -number;
}

static int fails(int kind)
{
    calls[kind]++;
    return is_named(kind, NAMES[kind]);
}

static int error(int number)
{
    errno = number;
    return -1;
}

void *malloc(size_t size)
{
    static void *(*real)(size_t);
    if (!real) real = dlsym(RTLD_NEXT, "malloc");
    return fails(ALLOC) ? (error(ENOMEM), NULL) : real(size);
}

void *realloc(void *old, size_t size)
{
    static void *(*real)(void *, size_t);
    if (!real) real = dlsym(RTLD_NEXT, "realloc");
    return fails(ALLOC) ? (error(ENOMEM), NULL) : real(old, size);
}

int open(const char *path, int flags, ...)
{
    static int (*real)(const char *, int, ...);
    va_list rest;
    va_start(rest, flags);
    int mode = va_arg(rest, int);
    va_end(rest);
    if (!real) real = dlsym(RTLD_NEXT, "open");
    return fails(OPEN) ? error(EIO) : real(path, flags, mode);
}

ssize_t read(int file, void *into, size_t size)
{
    static ssize_t (*real)(int, void *, size_t);
    if (!real) real = dlsym(RTLD_NEXT, "read");
    if (fails(READ)) return error(EIO);
    return real(file, into, size > 1 && is_named(READ, "SHORT_READ") ? 1 : size);
}

ssize_t write(int file, const void *from, size_t size)
{
    static ssize_t (*real)(int, const void *, size_t);
    if (!real) real = dlsym(RTLD_NEXT, "write");
    if (fails(WRITE)) return error(EIO);
    return real(file, from, size > 1 && is_named(WRITE, "SHORT_WRITE") ? 1 : size);
}

__attribute__((destructor)) static void tell(void)
{
    const char *name = getenv("COUNTS");
    FILE *out = name ? fopen(name, "w") : NULL;
    if (!out) return;
    fprintf(out, "%ld %ld %ld %ld\n", calls[ALLOC], calls[OPEN], calls[READ], calls[WRITE]);
    fclose(out);
}

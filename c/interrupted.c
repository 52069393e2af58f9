/*
 * Loaded before the C library, it interrupts every other read and write of a program, and lets a write take three bytes at
 * most: what the program prints must be the same.
 */
#define _GNU_SOURCE
#include <dlfcn.h>
#include <errno.h>
#include <stdbool.h>
#include <unistd.h>

/* Whether this call is the one to interrupt. */
static bool interrupts(bool *last)
{
    *last = !*last;
    errno = EINTR;
    return *last;
}

ssize_t read(int file, void *bytes, size_t length)
{
    static bool last;
    ssize_t (*next)(int, void *, size_t);
    *(void **)&next = dlsym(RTLD_NEXT, "read");
    return interrupts(&last) ? -1 : next(file, bytes, length);
}

ssize_t write(int file, const void *bytes, size_t length)
{
    static bool last;
    ssize_t (*next)(int, const void *, size_t);
    *(void **)&next = dlsym(RTLD_NEXT, "write");
    return interrupts(&last) ? -1 : next(file, bytes, length < 3 ? length : 3);
}

// Refuses one allocation of the program that is run with it (LD_PRELOAD): the one whose number REFUSED says, from 1. How many there were is said in the file COUNTED.
#define _GNU_SOURCE
#include <dlfcn.h>
#include <errno.h>
#include <fcntl.h>
#include <stdio.h>
#include <stdlib.h>

static long asked, refused = -1;

static int refuses(void) {
    if (refused < 0) {
        const char *number = getenv("REFUSED");
        refused = number ? atol(number) : 0;
    }
    return ++asked == refused;
}

void *malloc(size_t size) {
    static void *(*next)(size_t);
    if (!next) next = dlsym(RTLD_NEXT, "malloc");
    if (refuses()) return errno = ENOMEM, NULL;
    return next(size);
}

void *realloc(void *old, size_t size) {
    static void *(*next)(void *, size_t);
    if (!next) next = dlsym(RTLD_NEXT, "realloc");
    if (refuses()) return errno = ENOMEM, NULL;
    return next(old, size);
}

__attribute__((destructor)) static void count(void) {
    const char *name = getenv("COUNTED");
    long before = asked;
    int file = name ? open(name, O_WRONLY | O_CREAT, 0600) : -1;
    if (file >= 0) dprintf(file, "%ld\n", before);
}

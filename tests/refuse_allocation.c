/* Preloaded into a program: refuses one of its allocations, the one with the number REFUSED_ALLOCATION, counted from 1, and
   then makes the file REFUSED_MARK, so that the caller knows that there was such an allocation. */
#define _GNU_SOURCE
#include <dlfcn.h>
#include <fcntl.h>
#include <stddef.h>
#include <stdlib.h>
#include <unistd.h>

static long count;

static int is_refused(void) {
    const char *number = getenv("REFUSED_ALLOCATION");
    const char *mark = getenv("REFUSED_MARK");
    if (number == NULL || mark == NULL || ++count != strtol(number, NULL, 10)) {
        return 0;
    }
    int file = open(mark, O_CREAT | O_WRONLY, 0600);
    if (file >= 0) {
        close(file);
    }
    return 1;
}

void *malloc(size_t size) {
    void *(*next)(size_t) = (void *(*)(size_t))dlsym(RTLD_NEXT, "malloc");
    return is_refused() ? NULL : next(size);
}

void *realloc(void *old, size_t size) {
    void *(*next)(void *, size_t) = (void *(*)(void *, size_t))dlsym(RTLD_NEXT, "realloc");
    return is_refused() ? NULL : next(old, size);
}

// Preloaded, lets one allocation of a program fail: the one whose number, from 1, REFUSE has. The file that MARK names is
// made when it fails.
#define _GNU_SOURCE
#include <dlfcn.h>
#include <errno.h>
#include <fcntl.h>
#include <stdatomic.h>
#include <stdlib.h>
#include <unistd.h>

static atomic_long number;

static int is_refused(void) {
    const char *text = getenv("REFUSE"), *mark = getenv("MARK");
    if (!text || !mark || atomic_fetch_add(&number, 1) + 1 != atol(text)) return 0;
    int file = open(mark, O_WRONLY | O_CREAT, 0644);
    if (file >= 0) close(file);
    errno = ENOMEM;
    return 1;
}

void *malloc(size_t size) {
    static void *(*real)(size_t);
    if (!real) real = dlsym(RTLD_NEXT, "malloc");
    return is_refused() ? NULL : real(size);
}

void *realloc(void *old, size_t size) {
    static void *(*real)(void *, size_t);
    if (!real) real = dlsym(RTLD_NEXT, "realloc");
    return is_refused() ? NULL : real(old, size);
}

void *aligned_alloc(size_t align, size_t size) {
    static void *(*real)(size_t, size_t);
    if (!real) real = dlsym(RTLD_NEXT, "aligned_alloc");
    return is_refused() ? NULL : real(align, size);
}

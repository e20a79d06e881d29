// Preloaded to a program, it refuses requests for memory or for a thread: REFUSE_MANY of them from the number REFUSE on, counted from 1. A byte is
// written to the descriptor REFUSE_TO for each that is refused. See bench/refused.
#define _GNU_SOURCE
#include <dlfcn.h>
#include <errno.h>
#include <pthread.h>
#include <stdatomic.h>
#include <stdlib.h>
#include <sys/mman.h>
#include <sys/syscall.h>
#include <unistd.h>

extern void *__libc_malloc(size_t);
extern void *__libc_calloc(size_t, size_t);
extern void *__libc_realloc(void *, size_t);
extern void *__libc_memalign(size_t, size_t);

static atomic_long requests;

static long number_in(const char *name) {
    const char *text = getenv(name);
    return text ? atol(text) : 0;
}

static int is_refused(void) {
    long made = atomic_fetch_add(&requests, 1) + 1, at = number_in("REFUSE");
    if (at == 0 || made < at || made - at >= number_in("REFUSE_MANY"))
        return 0;
    (void)!write((int)number_in("REFUSE_TO"), "x", 1);
    errno = ENOMEM;
    return 1;
}

void *malloc(size_t size) { return is_refused() ? 0 : __libc_malloc(size); }

void *calloc(size_t many, size_t size) { return is_refused() ? 0 : __libc_calloc(many, size); }

void *realloc(void *old, size_t size) { return is_refused() ? 0 : __libc_realloc(old, size); }

void *aligned_alloc(size_t align, size_t size) { return is_refused() ? 0 : __libc_memalign(align, size); }

void *memalign(size_t align, size_t size) { return is_refused() ? 0 : __libc_memalign(align, size); }

int posix_memalign(void **to, size_t align, size_t size) {
    void *made = is_refused() ? 0 : __libc_memalign(align, size);
    if (!made)
        return ENOMEM;
    *to = made;
    return 0;
}

void *mmap(void *at, size_t size, int access, int flags, int file, off_t from) {
    return is_refused() ? MAP_FAILED : (void *)syscall(SYS_mmap, at, size, access, flags, file, from);
}

int pthread_create(pthread_t *to, const pthread_attr_t *with, void *(*work)(void *), void *given) {
    int (*create)(pthread_t *, const pthread_attr_t *, void *(*)(void *), void *) = dlsym(RTLD_NEXT, "pthread_create");
    return is_refused() ? EAGAIN : create(to, with, work, given);
}

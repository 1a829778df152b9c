/* Counts the requests for memory and for threads that a program makes, and refuses one of them. tools/refused.py
   compiles it and loads it before the C library (LD_PRELOAD). REFUSE is the number of the request that is refused, from
   1; with 0 none is. The count stands in the file REFUSE_COUNT, as a number of 64 bits, however the program ends. */
#define _GNU_SOURCE
#include <dlfcn.h>
#include <errno.h>
#include <fcntl.h>
#include <pthread.h>
#include <stdatomic.h>
#include <stdlib.h>
#include <sys/mman.h>
#include <unistd.h>

extern void *__libc_malloc(size_t);
extern void *__libc_calloc(size_t, size_t);
extern void *__libc_realloc(void *, size_t);
extern void *__libc_memalign(size_t, size_t);

static atomic_long own;
static atomic_long *made = &own;
static long refused;
static int counting;

/* Requests before main are the C library's own. */
__attribute__((constructor)) static void begin(void) {
    const char *number = getenv("REFUSE"), *name = getenv("REFUSE_COUNT");
    int file = name ? open(name, O_RDWR | O_CREAT | O_TRUNC, 0600) : -1;
    refused = number ? atol(number) : 0;
    if (file >= 0 && ftruncate(file, sizeof own) == 0) {
        void *shared = mmap(NULL, sizeof own, PROT_READ | PROT_WRITE, MAP_SHARED, file, 0);
        made = shared == MAP_FAILED ? &own : shared;
    }
    if (file >= 0) {
        close(file);
    }
    counting = 1;
}

static int refuses(void) {
    return counting && atomic_fetch_add(made, 1) + 1 == refused;
}

static void *none(void) {
    errno = ENOMEM;
    return NULL;
}

void *malloc(size_t size) { return refuses() ? none() : __libc_malloc(size); }

void *calloc(size_t count, size_t size) { return refuses() ? none() : __libc_calloc(count, size); }

void *realloc(void *old, size_t size) { return refuses() ? none() : __libc_realloc(old, size); }

void *memalign(size_t align, size_t size) { return refuses() ? none() : __libc_memalign(align, size); }

void *aligned_alloc(size_t align, size_t size) { return memalign(align, size); }

int posix_memalign(void **at, size_t align, size_t size) {
    void *got = memalign(align, size);
    if (got == NULL) {
        return ENOMEM;
    }
    *at = got;
    return 0;
}

int pthread_create(pthread_t *thread, const pthread_attr_t *attributes, void *(*start)(void *), void *given) {
    int (*real)(pthread_t *, const pthread_attr_t *, void *(*)(void *), void *) = dlsym(RTLD_NEXT, "pthread_create");
    return refuses() ? EAGAIN : real(thread, attributes, start, given);
}

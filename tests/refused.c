/* Loaded before a program (LD_PRELOAD): counts its requests for memory and for threads from the start of the program on, and refuses
 * the one of a number, or all from that number on, as the system does where it has none.
 *
 * REFUSED_AT is the number, from 1; 0 refuses none. REFUSED_ALL=1 refuses all from it on. REFUSED_TO names a file of 24 bytes into which
 * come the count of requests, that of the threads among them, and that of what was refused.
 */
#define _GNU_SOURCE
#include <dlfcn.h>
#include <errno.h>
#include <fcntl.h>
#include <pthread.h>
#include <stdatomic.h>
#include <stdlib.h>
#include <sys/mman.h>
#include <unistd.h>

struct counts {
    _Atomic unsigned long requests;
    _Atomic unsigned long threads;
    _Atomic unsigned long refused;
};

static struct counts none;
static struct counts *counts = &none;
static unsigned long at;
static int all;
static _Atomic int started;

extern void *__libc_malloc(size_t);
extern void *__libc_calloc(size_t, size_t);
extern void *__libc_realloc(void *, size_t);
extern void *__libc_memalign(size_t, size_t);

static int is_refused(void) {
    if (!started) return 0;
    unsigned long number = atomic_fetch_add(&counts->requests, 1) + 1;
    if (at == 0 || (all ? number < at : number != at)) return 0;
    atomic_fetch_add(&counts->refused, 1);
    return 1;
}

void *malloc(size_t size) {
    if (is_refused()) return errno = ENOMEM, NULL;
    return __libc_malloc(size);
}

void *calloc(size_t count, size_t size) {
    if (is_refused()) return errno = ENOMEM, NULL;
    return __libc_calloc(count, size);
}

void *realloc(void *block, size_t size) {
    if (is_refused()) return errno = ENOMEM, NULL;
    return __libc_realloc(block, size);
}

void *memalign(size_t align, size_t size) {
    if (is_refused()) return errno = ENOMEM, NULL;
    return __libc_memalign(align, size);
}

void *aligned_alloc(size_t align, size_t size) { return memalign(align, size); }

int posix_memalign(void **block, size_t align, size_t size) {
    void *found = memalign(align, size);
    if (!found) return ENOMEM;
    *block = found;
    return 0;
}

int pthread_create(pthread_t *thread, const pthread_attr_t *attr, void *(*start)(void *), void *given) {
    static int (*create)(pthread_t *, const pthread_attr_t *, void *(*)(void *), void *);
    if (!create) create = dlsym(RTLD_NEXT, "pthread_create");
    if (is_refused()) return EAGAIN;
    atomic_fetch_add(&counts->threads, 1);
    return create(thread, attr, start, given);
}

__attribute__((constructor)) static void start(void) {
    const char *number = getenv("REFUSED_AT");
    const char *path = getenv("REFUSED_TO");
    at = number ? strtoul(number, NULL, 10) : 0;
    all = getenv("REFUSED_ALL") != NULL;
    int file = path ? open(path, O_RDWR) : -1;
    if (file >= 0) {
        void *shared = mmap(NULL, sizeof *counts, PROT_READ | PROT_WRITE, MAP_SHARED, file, 0);
        if (shared != MAP_FAILED) counts = shared;
        close(file);
    }
    started = 1;
}

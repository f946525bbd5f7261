// An allocator that refuses one request: the one whose number, from 1 on, is in REFUSE. Loaded before a program by LD_PRELOAD.
// Where it has refused, it writes a byte to the file descriptor in REFUSE_TOLD.
#define _GNU_SOURCE
#include <dlfcn.h>
#include <errno.h>
#include <stdatomic.h>
#include <stddef.h>
#include <stdlib.h>
#include <unistd.h>

static atomic_long requests;
static long refused = -1;
static int told = -1;

static void *(*real_malloc)(size_t);
static void *(*real_calloc)(size_t, size_t);
static void *(*real_realloc)(void *, size_t);
static int (*real_posix_memalign)(void **, size_t, size_t);
static void *(*real_aligned_alloc)(size_t, size_t);

__attribute__((constructor)) static void begin(void) {
    const char *number = getenv("REFUSE");
    const char *descriptor = getenv("REFUSE_TOLD");
    real_malloc = dlsym(RTLD_NEXT, "malloc");
    real_calloc = dlsym(RTLD_NEXT, "calloc");
    real_realloc = dlsym(RTLD_NEXT, "realloc");
    real_posix_memalign = dlsym(RTLD_NEXT, "posix_memalign");
    real_aligned_alloc = dlsym(RTLD_NEXT, "aligned_alloc");
    told = descriptor ? atoi(descriptor) : -1;
    atomic_store(&requests, 0);
    refused = number ? atol(number) : -1;
}

// Whether this request is the one to refuse. None is counted before the program begins.
static int is_refused(void) {
    if (refused < 0 || atomic_fetch_add(&requests, 1) + 1 != refused) {
        return 0;
    }
    if (told >= 0 && write(told, "x", 1) < 0) {
        _exit(99);
    }
    errno = ENOMEM;
    return 1;
}

extern void *__libc_malloc(size_t);
extern void *__libc_calloc(size_t, size_t);
extern void *__libc_realloc(void *, size_t);

void *malloc(size_t size) {
    if (is_refused()) {
        return NULL;
    }
    return real_malloc ? real_malloc(size) : __libc_malloc(size);
}

void *calloc(size_t count, size_t size) {
    if (is_refused()) {
        return NULL;
    }
    return real_calloc ? real_calloc(count, size) : __libc_calloc(count, size);
}

void *realloc(void *old, size_t size) {
    if (is_refused()) {
        return NULL;
    }
    return real_realloc ? real_realloc(old, size) : __libc_realloc(old, size);
}

int posix_memalign(void **into, size_t alignment, size_t size) {
    return is_refused() ? ENOMEM : real_posix_memalign(into, alignment, size);
}

void *aligned_alloc(size_t alignment, size_t size) {
    return is_refused() ? NULL : real_aligned_alloc(alignment, size);
}

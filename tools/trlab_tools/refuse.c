// Loaded before a program: refuses one of its allocations, or all allocations from one on, and counts them.
// TRLAB_REFUSE is the number of the first refused allocation, counted from 1. If TRLAB_REFUSE_ALL is set, all
// later ones are refused, too. For each refusal one byte is written to the file descriptor TRLAB_TELL.
#define _GNU_SOURCE
#include <dlfcn.h>
#include <errno.h>
#include <stdatomic.h>
#include <stdlib.h>
#include <unistd.h>

static atomic_long made;
static long refused = -1;
static int all, tell = -1;
static void *(*next_malloc)(size_t), *(*next_calloc)(size_t, size_t);
static void *(*next_realloc)(void *, size_t), *(*next_aligned)(size_t, size_t);
static int (*next_posix)(void **, size_t, size_t);
static char early[65536];
static size_t early_used;

static long number(const char *name, long otherwise) {
    const char *text = getenv(name);
    return text ? atol(text) : otherwise;
}

__attribute__((constructor)) static void begin(void) {
    next_malloc = dlsym(RTLD_NEXT, "malloc");
    next_calloc = dlsym(RTLD_NEXT, "calloc");
    next_realloc = dlsym(RTLD_NEXT, "realloc");
    next_aligned = dlsym(RTLD_NEXT, "aligned_alloc");
    next_posix = dlsym(RTLD_NEXT, "posix_memalign");
    all = getenv("TRLAB_REFUSE_ALL") != NULL;
    tell = number("TRLAB_TELL", -1);
    refused = number("TRLAB_REFUSE", -1);
}

static int is_refused(void) {
    if (refused < 0) return 0;
    long mine = atomic_fetch_add(&made, 1) + 1;
    if (mine != refused && !(all && mine > refused)) return 0;
    if (tell >= 0 && write(tell, "n", 1) < 0) tell = -1;
    errno = ENOMEM;
    return 1;
}

// Before the constructor has run, memory comes from a static block and is never freed.
static void *take_early(size_t size) {
    size = (size + 15) & ~(size_t)15;
    if (size > sizeof early - early_used) return NULL;
    early_used += size;
    return early + early_used - size;
}

void *malloc(size_t size) {
    if (!next_malloc) return take_early(size);
    return is_refused() ? NULL : next_malloc(size);
}

void *calloc(size_t count, size_t size) {
    if (!next_calloc) return take_early(count * size);
    return is_refused() ? NULL : next_calloc(count, size);
}

void *realloc(void *old, size_t size) {
    if (!next_realloc) return take_early(size);
    return is_refused() ? NULL : next_realloc(old, size);
}

void *aligned_alloc(size_t align, size_t size) {
    return is_refused() ? NULL : next_aligned(align, size);
}

int posix_memalign(void **out, size_t align, size_t size) {
    return is_refused() ? ENOMEM : next_posix(out, align, size);
}

void free(void *memory) {
    static void (*next_free)(void *);
    if ((char *)memory >= early && (char *)memory < early + sizeof early) return;
    if (!next_free) next_free = dlsym(RTLD_NEXT, "free");
    next_free(memory);
}

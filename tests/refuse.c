// A library to be preloaded under a test: it refuses the allocation whose number stands in REFUSE_AT, and counts them.
// The file that REFUSE_LOG names gets the line `refused` when that comes, since a failed test ends at once, or at the end
// `met none`.
#define _GNU_SOURCE
#include <dlfcn.h>
#include <errno.h>
#include <fcntl.h>
#include <stdlib.h>
#include <string.h>
#include <unistd.h>

static long at = -2, calls = 0;
static int met = 0;
static void *(*next_malloc)(size_t);
static void *(*next_realloc)(void *, size_t);
static void *(*next_aligned_alloc)(size_t, size_t);
static int (*next_posix_memalign)(void **, size_t, size_t);

// (by calls that take no memory)
static void tell(const char *line) {
    char *log = getenv("REFUSE_LOG");
    int file = log ? open(log, O_WRONLY | O_CREAT | O_TRUNC, 0644) : -1;
    if (file < 0) return;
    if (write(file, line, strlen(line)) < 0) abort();
    close(file);
}

static int refuse(void) {
    if (at == -2) {
        char *text = getenv("REFUSE_AT");
        at = text ? atol(text) : -1;
    }
    if (++calls != at) return 0;
    met = 1;
    tell("refused\n");
    errno = ENOMEM;
    return 1;
}

void *malloc(size_t size) {
    if (!next_malloc) next_malloc = dlsym(RTLD_NEXT, "malloc");
    return refuse() ? 0 : next_malloc(size);
}

void *realloc(void *old, size_t size) {
    if (!next_realloc) next_realloc = dlsym(RTLD_NEXT, "realloc");
    return refuse() ? 0 : next_realloc(old, size);
}

void *aligned_alloc(size_t align, size_t size) {
    if (!next_aligned_alloc) next_aligned_alloc = dlsym(RTLD_NEXT, "aligned_alloc");
    return refuse() ? 0 : next_aligned_alloc(align, size);
}

int posix_memalign(void **to, size_t align, size_t size) {
    if (!next_posix_memalign) next_posix_memalign = dlsym(RTLD_NEXT, "posix_memalign");
    return refuse() ? ENOMEM : next_posix_memalign(to, align, size);
}

__attribute__((destructor)) static void end(void) {
    if (!met) tell("met none\n");
}

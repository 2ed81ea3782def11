/* Loaded before the C library: refuses the allocation, or the thread, of the number REFUSE, and counts those that are asked for in the file COUNT_IN. */
#define _GNU_SOURCE
#include <dlfcn.h>
#include <errno.h>
#include <fcntl.h>
#include <pthread.h>
#include <stdatomic.h>
#include <stdlib.h>
#include <string.h>
#include <sys/mman.h>

static atomic_ulong *asked;
static unsigned long refused;
static int are_threads;

__attribute__((constructor)) static void begin(void) {
    int file = open(getenv("COUNT_IN"), O_RDWR);
    refused = strtoul(getenv("REFUSE"), NULL, 10);
    are_threads = !strcmp(getenv("REFUSED"), "threads");
    asked = mmap(NULL, sizeof *asked, PROT_READ | PROT_WRITE, MAP_SHARED, file, 0);
}

static int is_refused(int is_thread) {
    return asked && is_thread == are_threads && atomic_fetch_add(asked, 1) + 1 == refused;
}

void *malloc(size_t size) {
    static void *(*ample)(size_t);
    if (!ample)
        ample = dlsym(RTLD_NEXT, "malloc");
    return is_refused(0) ? NULL : ample(size);
}

void *realloc(void *block, size_t size) {
    static void *(*ample)(void *, size_t);
    if (!ample)
        ample = dlsym(RTLD_NEXT, "realloc");
    return is_refused(0) ? NULL : ample(block, size);
}

int pthread_create(pthread_t *thread, const pthread_attr_t *attributes, void *(*body)(void *), void *given) {
    static int (*ample)(pthread_t *, const pthread_attr_t *, void *(*)(void *), void *);
    if (!ample)
        ample = dlsym(RTLD_NEXT, "pthread_create");
    return is_refused(1) ? EAGAIN : ample(thread, attributes, body, given);
}

/* Refuses memory and threads: of the calls for memory that a program makes, the one whose number stands in REFUSE fails, counted from
   1. With REFUSE_FROM=1 all after it fail too. Of the threads that it starts, the one whose number stands in REFUSE_THREAD can't be
   started. Where REFUSE_COUNT names a file, both counts are written there at the end. Loaded before the C library; the program itself
   isn't changed. */
#define _GNU_SOURCE
#include <dlfcn.h>
#include <errno.h>
#include <pthread.h>
#include <stdio.h>
#include <stdlib.h>

static unsigned long calls, threads, refused, refused_thread;
static int from;

static unsigned long number_in(const char *name) {
    const char *number = getenv(name);
    return number ? strtoul(number, 0, 10) : 0;
}

__attribute__((constructor)) static void begin(void) {
    refused = number_in("REFUSE");
    refused_thread = number_in("REFUSE_THREAD");
    from = getenv("REFUSE_FROM") != 0;
    calls = threads = 0;
}

/* The counts are written once, whichever way the program ends. */
__attribute__((destructor)) static void end(void) {
    unsigned long memory = calls, started = threads;
    const char *name = getenv("REFUSE_COUNT");
    FILE *file;
    refused = 0;
    file = name ? fopen(name, "w") : 0;
    if (!file) return;
    fprintf(file, "%lu %lu\n", memory, started);
    fclose(file);
}

static int is_refused(void) {
    unsigned long call = __atomic_add_fetch(&calls, 1, __ATOMIC_SEQ_CST);
    if (refused == 0 || (from ? call < refused : call != refused)) return 0;
    errno = ENOMEM;
    return 1;
}

void *malloc(size_t size) {
    static void *(*real)(size_t);
    if (!real) real = dlsym(RTLD_NEXT, "malloc");
    return is_refused() ? 0 : real(size);
}

void *aligned_alloc(size_t align, size_t size) {
    static void *(*real)(size_t, size_t);
    if (!real) real = dlsym(RTLD_NEXT, "aligned_alloc");
    return is_refused() ? 0 : real(align, size);
}

int posix_memalign(void **place, size_t align, size_t size) {
    static int (*real)(void **, size_t, size_t);
    if (!real) real = dlsym(RTLD_NEXT, "posix_memalign");
    return is_refused() ? ENOMEM : real(place, align, size);
}

void *realloc(void *old, size_t size) {
    static void *(*real)(void *, size_t);
    if (!real) real = dlsym(RTLD_NEXT, "realloc");
    return is_refused() ? 0 : real(old, size);
}

void _exit(int status) {
    static void (*real)(int);
    if (!real) real = dlsym(RTLD_NEXT, "_exit");
    end();
    real(status);
    abort();
}

int pthread_create(pthread_t *thread, const pthread_attr_t *with, void *(*body)(void *), void *given) {
    static int (*real)(pthread_t *, const pthread_attr_t *, void *(*)(void *), void *);
    if (!real) real = dlsym(RTLD_NEXT, "pthread_create");
    return __atomic_add_fetch(&threads, 1, __ATOMIC_SEQ_CST) == refused_thread ? EAGAIN : real(thread, with, body, given);
}

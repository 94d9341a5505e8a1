/* Refuses one allocation, or some starts of threads: preloaded into a program, it lets call number REFUSE of malloc and
 * realloc fail, and the calls of pthread_create from number REFUSE_START to number REFUSE_START_TO. At the end, by exit or
 * by _exit, it writes into the file COUNT how many calls there were of either kind. All threads of the program count
 * together. */
#define _GNU_SOURCE
#include <dlfcn.h>
#include <errno.h>
#include <pthread.h>
#include <stddef.h>
#include <stdio.h>
#include <stdlib.h>
#include <unistd.h>

static long calls, refused;
static long starts, first_start, last_start;

static long next(long *counted) {
    return __atomic_add_fetch(counted, 1, __ATOMIC_SEQ_CST);
}

void *malloc(size_t size) {
    static void *(*real)(size_t);
    if (!real) real = dlsym(RTLD_NEXT, "malloc");
    return next(&calls) == refused ? NULL : real(size);
}

void *realloc(void *old, size_t size) {
    static void *(*real)(void *, size_t);
    if (!real) real = dlsym(RTLD_NEXT, "realloc");
    return next(&calls) == refused ? NULL : real(old, size);
}

int pthread_create(pthread_t *thread, const pthread_attr_t *attributes, void *(*body)(void *), void *given) {
    static int (*real)(pthread_t *, const pthread_attr_t *, void *(*)(void *), void *);
    if (!real) real = dlsym(RTLD_NEXT, "pthread_create");
    long number = next(&starts);
    return first_start <= number && number <= last_start ? EAGAIN : real(thread, attributes, body, given);
}

static long number_in(const char *name) {
    const char *number = getenv(name);
    return number ? atol(number) : 0;
}

__attribute__((constructor)) static void begin(void) {
    refused = number_in("REFUSE");
    first_start = number_in("REFUSE_START");
    last_start = number_in("REFUSE_START_TO");
    calls = starts = 0;
}

__attribute__((destructor)) static void end(void) {
    const char *name = getenv("COUNT");
    long seen = calls, begun = starts;
    refused = 0;
    FILE *file = name ? fopen(name, "w") : NULL;
    if (file) {
        fprintf(file, "%ld %ld\n", seen, begun);
        fclose(file);
    }
}

/* Programs with threads end by this, which runs no destructor. */
void _exit(int status) {
    void (*real)(int) = dlsym(RTLD_NEXT, "_exit");
    end();
    real(status);
    abort();
}

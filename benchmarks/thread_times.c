// Writes when the threads of a program are made and joined, a line each on standard error: the second, the thread that does it, and how long a
// join waited. It is loaded before a program by LD_PRELOAD; benchmarks/loader reads its lines.
#define _GNU_SOURCE
#include <dlfcn.h>
#include <pthread.h>
#include <stdio.h>
#include <sys/syscall.h>
#include <time.h>
#include <unistd.h>

static double now(void)
{
    struct timespec time;
    clock_gettime(CLOCK_MONOTONIC, &time);
    return time.tv_sec + time.tv_nsec / 1e9;
}

int pthread_create(pthread_t *thread, const pthread_attr_t *attributes, void *(*start)(void *), void *argument)
{
    static int (*real)(pthread_t *, const pthread_attr_t *, void *(*)(void *), void *);
    if (!real)
        real = dlsym(RTLD_NEXT, "pthread_create");
    int result = real(thread, attributes, start, argument);
    fprintf(stderr, "%.6f %ld make\n", now(), syscall(SYS_gettid));
    return result;
}

int pthread_join(pthread_t thread, void **value)
{
    static int (*real)(pthread_t, void **);
    if (!real)
        real = dlsym(RTLD_NEXT, "pthread_join");
    double since = now();
    int result = real(thread, value);
    double until = now();
    fprintf(stderr, "%.6f %ld join %.6f\n", until, syscall(SYS_gettid), until - since);
    return result;
}

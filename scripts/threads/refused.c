// Threads that can't be made: pthread_create fails with EAGAIN at its calls from one number to another, counted from 1.
//
// It is loaded before the C library (LD_PRELOAD). REFUSED_FROM and REFUSED_TO are the numbers. REFUSED_TOLD is a file
// that gets a byte for each call, r if it was refused, else m.
#define _GNU_SOURCE
#include <dlfcn.h>
#include <errno.h>
#include <fcntl.h>
#include <pthread.h>
#include <stdatomic.h>
#include <stdlib.h>
#include <unistd.h>

static atomic_llong calls;

static long long number(const char *name) {
    const char *text = getenv(name);
    return text ? strtoll(text, NULL, 10) : 0;
}

static void tell(char letter) {
    const char *path = getenv("REFUSED_TOLD");
    int file = path ? open(path, O_WRONLY | O_CREAT | O_APPEND, 0644) : -1;
    if (file < 0 || write(file, &letter, 1) != 1)
        _exit(9);
    close(file);
}

int pthread_create(pthread_t *thread, const pthread_attr_t *attributes, void *(*start)(void *), void *with) {
    int (*make)(pthread_t *, const pthread_attr_t *, void *(*)(void *), void *) = dlsym(RTLD_NEXT, "pthread_create");
    long long call = atomic_fetch_add(&calls, 1) + 1;
    int refused = number("REFUSED_FROM") <= call && call <= number("REFUSED_TO");
    tell(refused ? 'r' : 'm');
    return refused ? EAGAIN : make(thread, attributes, start, with);
}

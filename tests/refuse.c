/* Loaded before the C library: the REFUSED_ALLOCATION-th call of malloc or realloc, whichever
   thread makes it, fails and says so on standard error, and so does the REFUSED_THREAD-th call of
   pthread_create. Where REFUSED_READ or REFUSED_WRITE is set, standard input gives and standard
   output takes one byte a call, and the call of that number fails. */
#define _GNU_SOURCE
#include <dlfcn.h>
#include <errno.h>
#include <pthread.h>
#include <stdlib.h>
#include <sys/types.h>
#include <unistd.h>

static unsigned long allocations, reads, writes, threads;
static unsigned long refused_allocation, refused_read, refused_write, refused_thread;
static int is_narrow;
static void *(*next_malloc)(size_t);
static void *(*next_realloc)(void *, size_t);
static ssize_t (*next_read)(int, void *, size_t);
static ssize_t (*next_write)(int, const void *, size_t);
static int (*next_create)(pthread_t *, const pthread_attr_t *, void *(*)(void *), void *);

static unsigned long number_in(const char *name) {
    const char *number = getenv(name);
    return number ? strtoul(number, NULL, 10) : 0;
}

__attribute__((constructor)) static void begin(void) {
    next_malloc = dlsym(RTLD_NEXT, "malloc");
    next_realloc = dlsym(RTLD_NEXT, "realloc");
    next_read = dlsym(RTLD_NEXT, "read");
    next_write = dlsym(RTLD_NEXT, "write");
    next_create = dlsym(RTLD_NEXT, "pthread_create");
    is_narrow = getenv("REFUSED_READ") || getenv("REFUSED_WRITE");
    refused_read = number_in("REFUSED_READ");
    refused_write = number_in("REFUSED_WRITE");
    refused_thread = number_in("REFUSED_THREAD");
    allocations = 0;
    refused_allocation = number_in("REFUSED_ALLOCATION");
}

static int fails(unsigned long *calls, unsigned long refused, int error) {
    if (__sync_add_and_fetch(calls, 1) != refused) return 0;
    if (next_write(2, "refused\n", 8) != 8) abort();
    errno = error;
    return 1;
}

void *malloc(size_t size) {
    if (!next_malloc) next_malloc = dlsym(RTLD_NEXT, "malloc");
    return fails(&allocations, refused_allocation, ENOMEM) ? NULL : next_malloc(size);
}

void *realloc(void *block, size_t size) {
    if (!next_realloc) next_realloc = dlsym(RTLD_NEXT, "realloc");
    return fails(&allocations, refused_allocation, ENOMEM) ? NULL : next_realloc(block, size);
}

ssize_t read(int file, void *bytes, size_t count) {
    if (file != 0 || !is_narrow) return next_read(file, bytes, count);
    if (fails(&reads, refused_read, EIO)) return -1;
    return next_read(file, bytes, count < 1 ? count : 1);
}

ssize_t write(int file, const void *bytes, size_t count) {
    if (file != 1 || !is_narrow) return next_write(file, bytes, count);
    if (fails(&writes, refused_write, EIO)) return -1;
    return next_write(file, bytes, count < 1 ? count : 1);
}

int pthread_create(pthread_t *thread, const pthread_attr_t *attributes, void *(*start)(void *),
                   void *argument) {
    if (fails(&threads, refused_thread, EAGAIN)) return EAGAIN;
    return next_create(thread, attributes, start, argument);
}

/* What the tests of the ports on threads share. The exit status is 1 where a wake-up was lost. */
#include "needing.h"

#include <errno.h>
#include <pthread.h>
#include <time.h>

enum { LOST = 1 };

static unsigned long sleeps;

static void start(pthread_t *thread, void *(*run)(void *), void *with) {
    NEED(pthread_create(thread, NULL, run, with) == 0);
}

/* Sleeps as varukoni_park does, for two seconds at most. */
static void nap(struct varukoni_waker *waker) {
    struct timespec longest = {2, 0};
    __atomic_add_fetch(&sleeps, 1, __ATOMIC_RELAXED);
    while (__atomic_exchange_n(&waker->is_rung, 0, __ATOMIC_SEQ_CST) == 0)
        if (syscall(SYS_futex, &waker->is_rung, FUTEX_WAIT_PRIVATE, 0, &longest, NULL, 0) != 0
            && errno == ETIMEDOUT) {
            printf("lost: a wake-up\n");
            fflush(stdout);
            _exit(LOST);
        }
}

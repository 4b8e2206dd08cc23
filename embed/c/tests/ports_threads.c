/* Ports on threads, for tests/test_embed_ports.py. A word says which, and a number how often:
 *
 *   hops      a port goes to and fro between two threads while its peer posts, and all arrives in
 *             order
 *   closing   a port is closed while its peer posts: each message is taken, handed back or refused,
 *             once
 *   sleepers  threads that sleep take from a port that goes from one to the next, and no wake-up is
 *             lost; two seconds without one are counted as lost
 *   late      the same, where a port is looked into before it is armed: wake-ups are to be lost
 *   racy      a thread writes what it has posted: the thread sanitizer is to see that
 *
 * It prints how much it did. The exit status is 1 where a wake-up was lost, or 99 where the library
 * breaks its word.
 */
#define _GNU_SOURCE
#include "threads.h"

enum { MESSAGES = 20000, SLEEPERS = 3, AT_ONCE = 1000, BATCH = 100 };

static void open_channel(struct varukoni_port *left, struct varukoni_port *right) {
    memset(left, 0, sizeof *left), memset(right, 0, sizeof *right);
    NEED(varukoni_ports_open(left, right) == VARUKONI_PORT_DONE);
}

static void post(struct varukoni_port *port, uint64_t number) {
    struct varukoni_message message = numbered(number);
    uint64_t wake;
    NEED(varukoni_port_post(port, &message, &wake) == VARUKONI_PORT_DONE);
    varukoni_wake(wake);
}

static void close_port(struct varukoni_port *port) {
    uint64_t own, peer;
    NEED(varukoni_port_close(port, &own, &peer) == VARUKONI_PORT_DONE);
    varukoni_wake(peer);
}

/* ---- hops */

static struct varukoni_port source, moved;
static struct varukoni_port roads[2];
static uint64_t arrived;

static void *post_all(void *count) {
    for (uint64_t n = 0; n < (uint64_t)(uintptr_t)count; n++) post(&source, n);
    close_port(&source);
    return NULL;
}

/* Takes a while from the port, and sends it on: answers whether it has ended. */
static int take_some(struct varukoni_port *port) {
    struct varukoni_message message;
    for (int n = 0; n < AT_ONCE; n++) {
        uint8_t status = varukoni_port_take(port, &message);
        if (status == VARUKONI_PORT_ENDED) return 1;
        if (status == VARUKONI_PORT_EMPTY) {
            sched_yield();
            return 0;
        }
        NEED(status == VARUKONI_PORT_DONE && message.length == arrived);
        arrived++;
    }
    return 0;
}

static void *hop(void *at) {
    struct varukoni_port *road = (struct varukoni_port *)at, port = VARUKONI_PORT_INIT;
    struct varukoni_waker waker = VARUKONI_WAKER_INIT;
    struct varukoni_unclaimed unclaimed = {NULL, varukoni_wake};
    struct varukoni_message message;
    uint64_t token;
    size_t count;
    if (road == &roads[0]) varukoni_port_move(&port, &moved);
    varukoni_port_start(road);
    for (;;) {
        if (!port.is_open) {
            if (varukoni_port_await(road, &message, &waker) == VARUKONI_PORT_ENDED) return NULL;
            varukoni_port_move(&port, varukoni_message_ports(&message, &count));
            varukoni_message_free(&message, &unclaimed);
        }
        varukoni_port_adopt(&port, 0, &token);
        varukoni_port_start(&port);
        if (take_some(&port)) break;
        NEED(varukoni_port_send(road, "", 0, &port, 1, &token) == VARUKONI_PORT_DONE);
        varukoni_wake(token);
    }
    varukoni_port_drop(&port);
    close_port(road);
    return NULL;
}

static int hops(unsigned long rounds) {
    uint64_t all = 0;
    for (unsigned long round = 0; round < rounds; round++) {
        pthread_t threads[3];
        arrived = 0;
        open_channel(&source, &moved), open_channel(&roads[0], &roads[1]);
        start(&threads[0], post_all, (void *)(uintptr_t)MESSAGES);
        start(&threads[1], hop, &roads[0]), start(&threads[2], hop, &roads[1]);
        for (int k = 0; k < 3; k++) pthread_join(threads[k], NULL);
        NEED(arrived == MESSAGES);
        all += arrived;
        varukoni_port_drop(&source), varukoni_port_drop(&roads[0]), varukoni_port_drop(&roads[1]);
    }
    printf("arrived: %lu\n", (unsigned long)all);
    return 0;
}

/* ---- closing */

static pthread_barrier_t gate;
static unsigned long batches;
static struct varukoni_port near_ends[BATCH], far_ends[BATCH];
static uint64_t accepted[BATCH];

/* Posts at each port until it is refused. */
static void *post_until_refused(void *unused) {
    (void)unused;
    for (unsigned long batch = 0; batch < batches; batch++) {
        pthread_barrier_wait(&gate);
        for (int k = 0; k < BATCH; k++) {
            struct varukoni_message message = numbered(0);
            uint64_t wake;
            uint8_t status;
            while ((status = varukoni_port_post(&near_ends[k], &message, &wake))
                   == VARUKONI_PORT_DONE)
                if (++message.length > 200) sched_yield();
            NEED(status == VARUKONI_PORT_CLOSED);
            accepted[k] = message.length;
        }
        pthread_barrier_wait(&gate);
    }
    return NULL;
}

/* Takes so many messages, closes the port, and drains it to its end: how many came in all. */
static uint64_t take_and_close(struct varukoni_port *port, uint64_t count) {
    struct varukoni_message message;
    uint64_t next = 0;
    uint8_t status;
    varukoni_port_start(port);
    while (next < count)
        if (varukoni_port_take(port, &message) == VARUKONI_PORT_DONE)
            NEED(message.length == next++);
    close_port(port);
    while ((status = varukoni_port_drain(port, &message)) != VARUKONI_PORT_ENDED)
        if (status == VARUKONI_PORT_DONE) NEED(message.length == next++);
    return next;
}

static int closing(unsigned long rounds) {
    pthread_t thread;
    uint64_t taken = 0, handed = 0, came[BATCH];
    batches = (rounds + BATCH - 1) / BATCH;
    pthread_barrier_init(&gate, NULL, 2);
    start(&thread, post_until_refused, NULL);
    for (unsigned long batch = 0; batch < batches; batch++) {
        for (int k = 0; k < BATCH; k++) open_channel(&near_ends[k], &far_ends[k]);
        pthread_barrier_wait(&gate);
        for (int k = 0; k < BATCH; k++) came[k] = take_and_close(&far_ends[k], (uint64_t)k % 64);
        pthread_barrier_wait(&gate);
        for (int k = 0; k < BATCH; k++) {
            NEED(came[k] == accepted[k]);
            taken += (uint64_t)k % 64, handed += came[k] - (uint64_t)k % 64;
            varukoni_port_drop(&near_ends[k]), varukoni_port_drop(&far_ends[k]);
        }
    }
    pthread_join(thread, NULL);
    printf("ports closed: %lu\nmessages taken: %lu\n", BATCH * batches, (unsigned long)taken);
    printf("handed back: %lu\n", (unsigned long)handed);
    return 0;
}

/* ---- sleepers */

static struct varukoni_waker wakers[SLEEPERS];
static struct varukoni_port ways[SLEEPERS], doors[SLEEPERS];
static pthread_mutex_t ways_lock = PTHREAD_MUTEX_INITIALIZER;
static int is_late;

static void send_on(int to, struct varukoni_port *port) {
    uint64_t wake;
    pthread_mutex_lock(&ways_lock);
    NEED(varukoni_port_send(&ways[to], "", 0, port, 1, &wake) == VARUKONI_PORT_DONE);
    pthread_mutex_unlock(&ways_lock);
    varukoni_wake(wake);
}

/* Arms both ports of a sleeper, and answers whether something waits. The late one has looked
 * before. */
static int arm_both(int me, struct varukoni_port *port) {
    struct timespec while_away = {0, 20000};
    uint64_t old;
    int waits = 0;
    waits |= varukoni_port_arm(&doors[me], varukoni_token(&wakers[me]), &old) == VARUKONI_PORT_DONE;
    if (is_late && port->is_open) nanosleep(&while_away, NULL);
    if (port->is_open
        && varukoni_port_arm(port, varukoni_token(&wakers[me]), &old) == VARUKONI_PORT_DONE)
        waits |= !is_late;
    return waits;
}

static void *sleeper(void *which) {
    int me = (int)(intptr_t)which;
    struct varukoni_port port = VARUKONI_PORT_INIT;
    struct varukoni_unclaimed unclaimed = {NULL, varukoni_wake};
    struct varukoni_message message;
    unsigned seed = (unsigned)me + 1;
    uint64_t old;
    size_t count;
    for (;;) {
        uint8_t at_door = varukoni_port_take(&doors[me], &message);
        uint8_t status = VARUKONI_PORT_EMPTY;
        if (at_door == VARUKONI_PORT_ENDED) return NULL;
        if (at_door == VARUKONI_PORT_DONE) {
            varukoni_port_move(&port, varukoni_message_ports(&message, &count));
            varukoni_message_free(&message, &unclaimed);
            varukoni_port_adopt(&port, 0, &old);
            varukoni_port_start(&port);
        }
        while (port.is_open
               && (status = varukoni_port_take(&port, &message)) == VARUKONI_PORT_DONE) {
            NEED(message.length == arrived);
            __atomic_store_n(&arrived, arrived + 1, __ATOMIC_SEQ_CST);
            seed = seed * 1103515245 + 12345;
            if (seed >> 16 & 1) send_on((int)(seed >> 20) % SLEEPERS, &port);
        }
        if (status == VARUKONI_PORT_ENDED) {
            varukoni_port_drop(&port);
            for (int k = 0; k < SLEEPERS; k++) close_port(&ways[k]);
        } else if (!arm_both(me, &port)) {
            nap(&wakers[me]);
        }
    }
}

static int sleepers(unsigned long count) {
    pthread_t threads[SLEEPERS];
    struct timespec moment = {0, 1000};
    open_channel(&source, &moved);
    for (int k = 0; k < SLEEPERS; k++) {
        wakers[k].event = -1;
        open_channel(&ways[k], &doors[k]);
        varukoni_port_start(&doors[k]);
        start(&threads[k], sleeper, (void *)(intptr_t)k);
    }
    send_on(0, &moved);
    for (uint64_t n = 0; n < count; n++) {
        post(&source, n);
        if (n % 5 == 0)
            while (__atomic_load_n(&arrived, __ATOMIC_SEQ_CST) <= n) nanosleep(&moment, NULL);
    }
    close_port(&source);
    for (int k = 0; k < SLEEPERS; k++) pthread_join(threads[k], NULL);
    NEED(arrived == count);
    printf("arrived: %lu\nsleeps: %lu\n", (unsigned long)arrived, sleeps);
    varukoni_port_drop(&source);
    for (int k = 0; k < SLEEPERS; k++) varukoni_port_drop(&ways[k]), varukoni_port_drop(&doors[k]);
    return 0;
}

/* ---- racy */

static uint64_t written;

static void *write_behind(void *count) {
    for (uint64_t n = 0; n < (uint64_t)(uintptr_t)count; n++) {
        post(&source, n);
        written = n;
    }
    close_port(&source);
    return NULL;
}

static int racy(unsigned long count) {
    struct varukoni_waker waker = VARUKONI_WAKER_INIT;
    struct varukoni_message message;
    pthread_t thread;
    uint64_t sum = 0;
    open_channel(&source, &moved);
    varukoni_port_start(&moved);
    start(&thread, write_behind, (void *)(uintptr_t)count);
    while (varukoni_port_await(&moved, &message, &waker) == VARUKONI_PORT_DONE) sum += written;
    pthread_join(thread, NULL);
    varukoni_port_drop(&source), varukoni_port_drop(&moved);
    printf("sum: %lu\n", (unsigned long)sum);
    return 0;
}

int main(int count, char **words) {
    unsigned long often = count == 3 ? strtoul(words[2], NULL, 10) : 0;
    if (often > 0 && strcmp(words[1], "hops") == 0) return hops(often);
    if (often > 0 && strcmp(words[1], "closing") == 0) return closing(often);
    if (often > 0 && strcmp(words[1], "sleepers") == 0) return sleepers(often);
    if (often > 0 && strcmp(words[1], "racy") == 0) return racy(often);
    is_late = 1;
    if (often > 0 && strcmp(words[1], "late") == 0) return sleepers(often);
    fprintf(stderr, "ports_threads: hops, closing, sleepers, late or racy, and how often\n");
    return 2;
}

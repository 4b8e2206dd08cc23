/* Times messages over ports to one taker, at a fan, and over a plain ring in C with the same
 * parking.
 *
 * usage: lines SENDERS EACH words|bytes|fan|fan-bytes|ring|ring-bytes
 *        lines PORTS EACH tokens
 *
 * Senders are threads of their own, and the taker is the first thread. A message is three words, or
 * a copy of 64 bytes in a block of its own, which the taker frees. With `tokens` one sender posts
 * at the last of so many ports of the taker, who asks the port alone whose token it was handed. It
 * prints the microseconds from the first post to the last take, how many came, and the sum of their
 * numbers.
 */
#define _GNU_SOURCE
#include "varukoni_ports.h"

#include <pthread.h>
#include <stdio.h>
#include <time.h>

enum { MOST = 32, SLOTS = 1024, BYTES = 64 };

/* A ring for one thread at each end, as one writes it in C. */
struct ring {
    struct varukoni_message slots[SLOTS];
    _Alignas(64) uint64_t put;
    _Alignas(64) uint64_t got;
    _Alignas(64) uint64_t token;
};

/* A handle that shares no cache line with another one. */
struct end {
    _Alignas(64) struct varukoni_port port;
};

/* So for a poster. */
struct lent {
    _Alignas(64) struct varukoni_poster poster;
};

static struct ring rings[MOST];
static struct end near_ends[MOST], far_ends[MOST];
static struct lent posters[MOST];
static _Alignas(64) struct varukoni_fan fan;
static struct varukoni_waker waker = VARUKONI_WAKER_INIT;
static struct varukoni_unclaimed unclaimed;
static pthread_barrier_t gate;
static uint64_t each;
static int is_ring, is_fan, has_bytes;

static void need(int is_so) {
    if (!is_so) abort();
}

static int ring_put(struct ring *ring, const struct varukoni_message *message) {
    uint64_t put = ring->put;
    if (put - __atomic_load_n(&ring->got, __ATOMIC_ACQUIRE) == SLOTS) return 0;
    ring->slots[put % SLOTS] = *message;
    __atomic_store_n(&ring->put, put + 1, __ATOMIC_SEQ_CST);
    if (__atomic_load_n(&ring->token, __ATOMIC_SEQ_CST) != 0)
        varukoni_wake(__atomic_exchange_n(&ring->token, 0, __ATOMIC_SEQ_CST));
    return 1;
}

static int ring_take(struct ring *ring, struct varukoni_message *message) {
    uint64_t got = ring->got;
    if (got == __atomic_load_n(&ring->put, __ATOMIC_SEQ_CST)) return 0;
    *message = ring->slots[got % SLOTS];
    __atomic_store_n(&ring->got, got + 1, __ATOMIC_RELEASE);
    return 1;
}

static void post_to_ring(struct ring *ring, uint64_t number) {
    struct varukoni_message message = {NULL, (size_t)number, NULL};
    if (has_bytes) {
        message.body = malloc(BYTES);
        need(message.body != NULL);
        memset(message.body, 1, BYTES);
        memcpy(message.body, &number, sizeof number);
    }
    while (!ring_put(ring, &message)) sched_yield();
}

static void post_to_port(struct varukoni_port *port, struct varukoni_poster *poster,
                         uint64_t number) {
    uint64_t wake;
    uint8_t status;
    if (has_bytes) {
        char bytes[BYTES];
        memset(bytes, 1, BYTES);
        memcpy(bytes, &number, sizeof number);
        status = is_fan ? varukoni_poster_send(poster, bytes, BYTES, NULL, 0, &wake)
                        : varukoni_port_send(port, bytes, BYTES, NULL, 0, &wake);
    } else {
        struct varukoni_message message = {NULL, (size_t)number, NULL};
        status = is_fan ? varukoni_poster_post(poster, &message, &wake)
                        : varukoni_port_post(port, &message, &wake);
    }
    need(status == VARUKONI_PORT_DONE);
    varukoni_wake(wake);
}

static void *send_all(void *at) {
    uintptr_t line = (uintptr_t)at;
    pthread_barrier_wait(&gate);
    for (uint64_t n = 0; n < each; n++)
        if (is_ring) post_to_ring(&rings[line], n);
        else post_to_port(&near_ends[line].port, &posters[line].poster, n);
    return NULL;
}

static void open_line(int line) {
    struct varukoni_port *far_end = &far_ends[line].port;
    uint32_t opened;
    if (is_fan) {
        need(varukoni_fan_line(&fan, &posters[line].poster, &opened) == VARUKONI_PORT_DONE);
    } else {
        need(varukoni_ports_open(&near_ends[line].port, far_end) == VARUKONI_PORT_DONE);
        varukoni_port_start(far_end);
    }
}

static int take(int line, struct varukoni_message *message) {
    if (is_ring) return ring_take(&rings[line], message);
    return varukoni_port_take(&far_ends[line].port, message) == VARUKONI_PORT_DONE;
}

/* Arms a line, and answers whether something waits there. */
static int arm(int line, uint64_t token) {
    uint64_t old;
    if (!is_ring) return varukoni_port_arm(&far_ends[line].port, token, &old) == VARUKONI_PORT_DONE;
    __atomic_exchange_n(&rings[line].token, token, __ATOMIC_SEQ_CST);
    return rings[line].got != __atomic_load_n(&rings[line].put, __ATOMIC_SEQ_CST);
}

/* The next message of the lines, asked from behind the last one that gave: which it was, or as many
 * as there are. */
static int take_next(int senders, int last, struct varukoni_message *message) {
    uint32_t line;
    if (is_fan)
        return varukoni_fan_take(&fan, message, &line) == VARUKONI_PORT_DONE ? (int)line : senders;
    for (int k = 1; k <= senders; k++)
        if (take((last + k) % senders, message)) return (last + k) % senders;
    return senders;
}

static void rest(int senders) {
    uint64_t old;
    int waits = 0;
    if (is_fan) {
        if (varukoni_fan_arm(&fan, varukoni_token(&waker), &old) == VARUKONI_PORT_EMPTY)
            varukoni_park(&waker);
        varukoni_fan_arm(&fan, 0, &old);
        return;
    }
    for (int k = 0; k < senders; k++) waits |= arm(k, varukoni_token(&waker));
    if (!waits) varukoni_park(&waker);
    for (int k = 0; k < senders; k++) arm(k, 0);
}

static uint64_t number_of(struct varukoni_message *message) {
    uint64_t number = message->length;
    if (!has_bytes) return number;
    memcpy(&number, message->body, sizeof number);
    if (is_ring) free(message->body);
    else varukoni_message_free(message, &unclaimed);
    return number;
}

/* The token that was handed out, which names a port by its number, from 1 on. */
static _Alignas(64) uint64_t rung;

static void *send_by_token(void *at) {
    struct varukoni_port *port = (struct varukoni_port *)at;
    struct varukoni_message message = {NULL, 0, NULL};
    uint64_t token;
    pthread_barrier_wait(&gate);
    for (; message.length < each; message.length++) {
        need(varukoni_port_post(port, &message, &token) == VARUKONI_PORT_DONE);
        if (token == 0) continue;
        __atomic_store_n(&rung, token, __ATOMIC_SEQ_CST);
        varukoni_wake(varukoni_token(&waker));
    }
    return NULL;
}

/* Takes what is at one port, and arms it again: how much came. */
static uint64_t take_by_token(struct varukoni_port *port, uint64_t token, uint64_t *sum) {
    struct varukoni_message message;
    uint64_t came = 0, old;
    do {
        while (varukoni_port_take(port, &message) == VARUKONI_PORT_DONE)
            came++, *sum += message.length;
    } while (varukoni_port_arm(port, token, &old) == VARUKONI_PORT_DONE);
    return came;
}

static uint64_t take_by_tokens(int ports, uint64_t *sum) {
    struct varukoni_port *near = calloc((size_t)ports, sizeof *near);
    struct varukoni_port *far = calloc((size_t)ports, sizeof *far);
    struct timespec begin, end;
    uint64_t came = 0, old;
    pthread_t thread;
    need(near != NULL && far != NULL);
    for (int k = 0; k < ports; k++) {
        need(varukoni_ports_open(&near[k], &far[k]) == VARUKONI_PORT_DONE);
        varukoni_port_start(&far[k]);
        need(varukoni_port_arm(&far[k], (uint64_t)k + 1, &old) == VARUKONI_PORT_EMPTY);
    }
    need(pthread_create(&thread, NULL, send_by_token, &near[ports - 1]) == 0);
    pthread_barrier_wait(&gate);
    clock_gettime(CLOCK_MONOTONIC, &begin);
    for (int looks = 0; came < each;) {
        uint64_t token = __atomic_exchange_n(&rung, 0, __ATOMIC_SEQ_CST);
        if (token != 0) came += take_by_token(&far[token - 1], token, sum), looks = 0;
        else if (++looks < VARUKONI_LOOKS) sched_yield();
        else varukoni_park(&waker), looks = 0;
    }
    clock_gettime(CLOCK_MONOTONIC, &end);
    pthread_join(thread, NULL);
    printf("%lld ", (end.tv_sec - begin.tv_sec) * 1000000LL
                        + (end.tv_nsec - begin.tv_nsec) / 1000);
    for (int k = 0; k < ports; k++) varukoni_port_drop(&near[k]), varukoni_port_drop(&far[k]);
    free(near), free(far);
    return came;
}

int main(int count, char **words) {
    struct timespec begin, end;
    struct varukoni_message message;
    pthread_t threads[MOST];
    uint64_t came = 0, sum = 0, next[MOST] = {0};
    int senders = count == 4 ? atoi(words[1]) : 0, looks = 0, last = 0, by_tokens;
    need(senders > 0);
    each = strtoull(words[2], NULL, 10);
    by_tokens = strcmp(words[3], "tokens") == 0;
    is_ring = strncmp(words[3], "ring", 4) == 0;
    is_fan = strncmp(words[3], "fan", 3) == 0;
    has_bytes = strstr(words[3], "bytes") != NULL;
    pthread_barrier_init(&gate, NULL, by_tokens ? 2 : (unsigned)senders + 1);
    if (by_tokens) {
        came = take_by_tokens(senders, &sum);
        printf("%llu %llu\n", (unsigned long long)came, (unsigned long long)sum);
        return 0;
    }
    need(senders <= MOST);
    need(varukoni_fan_open(&fan) == VARUKONI_PORT_DONE);
    varukoni_fan_start(&fan);
    for (int k = 0; k < senders; k++) {
        open_line(k);
        need(pthread_create(&threads[k], NULL, send_all, (void *)(uintptr_t)k) == 0);
    }
    pthread_barrier_wait(&gate);
    clock_gettime(CLOCK_MONOTONIC, &begin);
    while (came < each * (uint64_t)senders) {
        int line = take_next(senders, last, &message);
        if (line < senders) {
            last = line;
            sum += number_of(&message);
            next[line]++, came++, looks = 0;
        } else if (++looks < VARUKONI_LOOKS) {
            sched_yield();
        } else {
            rest(senders);
            looks = 0;
        }
    }
    clock_gettime(CLOCK_MONOTONIC, &end);
    for (int k = 0; k < senders; k++) {
        uint64_t wake;
        need(next[k] == each && pthread_join(threads[k], NULL) == 0);
        if (is_fan) varukoni_poster_close(&posters[k].poster, &wake);
        varukoni_port_drop(&near_ends[k].port), varukoni_port_drop(&far_ends[k].port);
    }
    varukoni_fan_drop(&fan);
    printf("%lld %llu %llu\n",
           (end.tv_sec - begin.tv_sec) * 1000000LL + (end.tv_nsec - begin.tv_nsec) / 1000,
           (unsigned long long)came, (unsigned long long)sum);
    return 0;
}

/* Fans and groups on threads, for tests/test_embed_ports.py. A word says which, and a number how
 * often:
 *
 *   senders   four threads post at one fan, whose taker sleeps: each line's messages arrive in
 *             order, and no wake-up is lost; two seconds without one are counted as lost
 *   late      the same, where the taker sleeps though the fan that it has armed has something:
 *             wake-ups are to be lost
 *   closing   a fan is closed while four threads post: each message is taken, handed back or
 *             refused, once
 *   casts     four members of a group, under a lock, cast at one another, leave and join: each
 *             takes all that was cast between its joining and its leaving but its own, in order
 *
 * It prints how much it did. The exit status is 1 where a wake-up was lost, or 99 where the library
 * breaks its word.
 */
#define _GNU_SOURCE
#include "threads.h"

enum { SENDERS = 4, STAY = 100 };

static unsigned long often;
static struct varukoni_fan fan;
static struct varukoni_poster posters[SENDERS];

static void start_all(pthread_t *threads, void *(*run)(void *)) {
    for (intptr_t k = 0; k < SENDERS; k++) start(&threads[k], run, (void *)k);
}

static void join_all(pthread_t *threads) {
    for (int k = 0; k < SENDERS; k++) pthread_join(threads[k], NULL);
}

static void open_fan(void) {
    uint32_t line;
    NEED(varukoni_fan_open(&fan) == VARUKONI_PORT_DONE);
    for (uint32_t k = 0; k < SENDERS; k++)
        NEED(varukoni_fan_line(&fan, &posters[k], &line) == VARUKONI_PORT_DONE && line == k);
    NEED(varukoni_fan_start(&fan) == VARUKONI_PORT_DONE);
}

static void close_poster(struct varukoni_poster *poster) {
    uint64_t wake;
    NEED(varukoni_poster_close(poster, &wake) == VARUKONI_PORT_DONE);
    varukoni_wake(wake);
}

/* ---- senders */

static struct varukoni_waker waker;
static int is_late;
static uint64_t arrived[SENDERS];

/* Posts in bursts, and waits for most of them until all has arrived. */
static void *post_bursts(void *which) {
    intptr_t me = (intptr_t)which;
    struct timespec moment = {0, 1000};
    for (uint64_t n = 0; n < often; n++) {
        struct varukoni_message message = numbered(n);
        uint64_t wake;
        NEED(varukoni_poster_post(&posters[me], &message, &wake) == VARUKONI_PORT_DONE);
        varukoni_wake(wake);
        if (n % (3 + (uint64_t)me) == 0)
            while (__atomic_load_n(&arrived[me], __ATOMIC_SEQ_CST) <= n) nanosleep(&moment, NULL);
    }
    close_poster(&posters[me]);
    return NULL;
}

static int senders(void) {
    struct timespec while_away = {0, 20000};
    struct varukoni_message message;
    pthread_t threads[SENDERS];
    int open_lines = SENDERS;
    uint64_t old, all = 0;
    uint32_t line;
    waker.event = -1;
    open_fan();
    start_all(threads, post_bursts);
    while (open_lines > 0) {
        uint8_t status = varukoni_fan_take(&fan, &message, &line);
        if (status == VARUKONI_PORT_DONE) {
            NEED(line < SENDERS && message.length == arrived[line]);
            __atomic_store_n(&arrived[line], arrived[line] + 1, __ATOMIC_SEQ_CST);
        } else if (status == VARUKONI_PORT_ENDED) {
            NEED(line < SENDERS && arrived[line] == often);
            open_lines--;
        } else {
            NEED(status == VARUKONI_PORT_EMPTY);
            if (is_late) nanosleep(&while_away, NULL);
            if (varukoni_fan_arm(&fan, varukoni_token(&waker), &old) == VARUKONI_PORT_EMPTY
                || is_late)
                nap(&waker);
        }
    }
    join_all(threads);
    for (int k = 0; k < SENDERS; k++) all += arrived[k];
    varukoni_fan_drop(&fan);
    printf("arrived: %lu\nsleeps: %lu\n", (unsigned long)all, sleeps);
    return 0;
}

/* ---- closing */

static pthread_barrier_t gate;
static uint64_t accepted[SENDERS];

static void *post_until_refused(void *which) {
    intptr_t me = (intptr_t)which;
    for (unsigned long round = 0; round < often; round++) {
        struct varukoni_message message = numbered(0);
        uint64_t wake;
        uint8_t status;
        pthread_barrier_wait(&gate);
        while ((status = varukoni_poster_post(&posters[me], &message, &wake)) == VARUKONI_PORT_DONE)
            if (++message.length > 200) sched_yield();
        NEED(status == VARUKONI_PORT_CLOSED);
        accepted[me] = message.length;
        close_poster(&posters[me]);
        pthread_barrier_wait(&gate);
    }
    return NULL;
}

/* Takes so many messages, closes the fan, and drains it to its end: how many came of each line. */
static void take_and_close(uint64_t count, uint64_t *next) {
    struct varukoni_message message;
    uint32_t line;
    uint64_t own;
    uint8_t status;
    while (count > 0)
        if (varukoni_fan_take(&fan, &message, &line) == VARUKONI_PORT_DONE) {
            NEED(message.length == next[line]++);
            count--;
        }
    NEED(varukoni_fan_close(&fan, &own) == VARUKONI_PORT_DONE);
    while ((status = varukoni_fan_drain(&fan, &message, &line)) != VARUKONI_PORT_ENDED)
        if (status == VARUKONI_PORT_DONE) NEED(message.length == next[line]++);
}

static int closing(void) {
    pthread_t threads[SENDERS];
    uint64_t taken = 0, handed = 0;
    pthread_barrier_init(&gate, NULL, SENDERS + 1);
    start_all(threads, post_until_refused);
    for (unsigned long round = 0; round < often; round++) {
        uint64_t next[SENDERS] = {0}, count = round % 64;
        open_fan();
        pthread_barrier_wait(&gate);
        take_and_close(count, next);
        pthread_barrier_wait(&gate);
        for (int k = 0; k < SENDERS; k++) {
            NEED(next[k] == accepted[k]);
            handed += next[k];
        }
        taken += count, handed -= count;
        varukoni_fan_drop(&fan);
    }
    join_all(threads);
    printf("fans closed: %lu\nmessages taken: %lu\n", often, (unsigned long)taken);
    printf("handed back: %lu\n", (unsigned long)handed);
    return 0;
}

/* ---- casts */

static pthread_mutex_t lock = PTHREAD_MUTEX_INITIALIZER;
/* All have joined before any casts, so that even threads that run one after another are heard: the
 * first of a round to leave by three, the next by two, the third by one. */
static pthread_barrier_t joined;
static struct varukoni_group group;
/* How many messages were cast, and who has cast each. */
static uint64_t cast_count;
static unsigned char *cast_by;

struct listener {
    struct varukoni_fan fan;
    uint64_t member, next; /* the number of the next cast that it may take */
    unsigned long got, left;
    unsigned char me;
};

static void join(struct listener *self) {
    struct varukoni_poster poster = VARUKONI_PORT_INIT;
    uint32_t line;
    NEED(varukoni_fan_line(&self->fan, &poster, &line) == VARUKONI_PORT_DONE && line == 0);
    pthread_mutex_lock(&lock);
    NEED(varukoni_group_join(&group, &poster, &self->member) == VARUKONI_PORT_DONE);
    self->next = cast_count;
    pthread_mutex_unlock(&lock);
    pthread_barrier_wait(&joined);
}

/* What was cast up to this number and not taken is the listener's own. */
static void skip_own(struct listener *self, uint64_t number) {
    for (; self->next < number; self->next++) NEED(cast_by[self->next] == self->me);
}

static void hear(struct listener *self, const struct varukoni_message *message) {
    skip_own(self, message->length);
    NEED(cast_by[message->length] != self->me);
    self->next++, self->got++;
}

static void cast_one(struct listener *self) {
    struct varukoni_answer answers[SENDERS];
    size_t count;
    pthread_mutex_lock(&lock);
    struct varukoni_message message = numbered(cast_count);
    cast_by[cast_count++] = self->me;
    NEED(varukoni_group_count(&group, &count) == VARUKONI_PORT_DONE && count <= SENDERS);
    NEED(varukoni_group_cast(&group, self->member, &message, answers, SENDERS)
         == VARUKONI_PORT_DONE);
    pthread_mutex_unlock(&lock);
    for (size_t k = 0; k < count; k++) {
        NEED((answers[k].status == VARUKONI_PORT_SOURCE) == (answers[k].member == self->member));
        NEED(answers[k].status == VARUKONI_PORT_SOURCE || answers[k].status == VARUKONI_PORT_DONE);
        varukoni_wake(answers[k].wake);
    }
}

static void leave(struct listener *self, struct varukoni_waker *own) {
    struct varukoni_message message;
    uint64_t wake, all;
    uint32_t line;
    uint8_t status;
    pthread_mutex_lock(&lock);
    NEED(varukoni_group_leave(&group, self->member, &wake) == VARUKONI_PORT_DONE);
    all = cast_count;
    pthread_mutex_unlock(&lock);
    while ((status = varukoni_fan_await(&self->fan, &message, &line, own)) == VARUKONI_PORT_DONE)
        hear(self, &message);
    NEED(status == VARUKONI_PORT_ENDED);
    skip_own(self, all);
    self->left++;
}

static void *cast_all(void *which) {
    struct listener self = {VARUKONI_PORT_INIT, 0, 0, 0, 0, (unsigned char)(intptr_t)which};
    struct varukoni_waker own = VARUKONI_WAKER_INIT;
    struct varukoni_message message;
    uint32_t line;
    NEED(varukoni_fan_open(&self.fan) == VARUKONI_PORT_DONE);
    varukoni_fan_start(&self.fan);
    join(&self);
    for (unsigned long n = 0; n < often; n++) {
        cast_one(&self);
        while (varukoni_fan_take(&self.fan, &message, &line) == VARUKONI_PORT_DONE)
            hear(&self, &message);
        if (n % STAY == STAY - 1) leave(&self, &own), join(&self);
    }
    leave(&self, &own);
    varukoni_fan_drop(&self.fan);
    return (void *)(uintptr_t)(self.got * 1000 + (self.left > 999 ? 999 : self.left));
}

static int casts(void) {
    pthread_t threads[SENDERS];
    unsigned long got = 0, left = 0;
    cast_by = malloc(SENDERS * often);
    NEED(cast_by != NULL && varukoni_group_open(&group) == VARUKONI_PORT_DONE);
    NEED(pthread_barrier_init(&joined, NULL, SENDERS) == 0);
    start_all(threads, cast_all);
    for (int k = 0; k < SENDERS; k++) {
        void *counted;
        pthread_join(threads[k], &counted);
        got += (uintptr_t)counted / 1000, left += (uintptr_t)counted % 1000;
    }
    NEED(cast_count == SENDERS * often);
    pthread_barrier_destroy(&joined);
    varukoni_group_drop(&group);
    free(cast_by);
    printf("cast: %lu\nmessages taken: %lu\nleavings: %lu\n", (unsigned long)cast_count, got, left);
    return 0;
}

int main(int count, char **words) {
    const char *word = count == 3 ? words[1] : "";
    often = count == 3 ? strtoul(words[2], NULL, 10) : 0;
    if (often > 0 && strcmp(word, "senders") == 0) return senders();
    if (often > 0 && strcmp(word, "closing") == 0) return closing();
    if (often > 0 && strcmp(word, "casts") == 0) return casts();
    is_late = 1;
    if (often > 0 && strcmp(word, "late") == 0) return senders();
    fprintf(stderr, "fans_threads: senders, late, closing or casts, and how often\n");
    return 2;
}

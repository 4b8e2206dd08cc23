/* Times one call again and again: prints microseconds, and how many calls were answered right.
 * usage: calls NAME COUNT, or calls stack, which prints the bytes of stack that calls took. */
#include "varukoni.h"

#include <pthread.h>
#include <stdio.h>
#include <stdlib.h>
#include <string.h>
#include <time.h>

enum { STACK = 1 << 20, PAINT = 0xA5 };

static double now(void) {
    struct timespec time;
    clock_gettime(CLOCK_MONOTONIC, &time);
    return 1e6 * (double)time.tv_sec + 1e-3 * (double)time.tv_nsec;
}

static uint8_t give(struct varukoni_hub *hub, const char *line) {
    static uint8_t room[1 << 19];
    size_t length;
    return varukoni_line(hub, (const uint8_t *)line, strlen(line), room, sizeof room, &length);
}

static unsigned long open_and_close(unsigned long count) {
    unsigned long done = 0;
    for (unsigned long at = 0; at < count; at++) {
        struct varukoni_hub hub = VARUKONI_HUB_CLOSED;
        done += varukoni_open(&hub) == VARUKONI_DONE;
        varukoni_close(&hub);
    }
    return done;
}

static unsigned long give_again(struct varukoni_hub *hub, const char *line, uint8_t wanted,
                                unsigned long count) {
    unsigned long done = 0;
    for (unsigned long at = 0; at < count; at++) done += give(hub, line) == wanted;
    return done;
}

static unsigned long run(const char *name, unsigned long count) {
    struct varukoni_hub hub = VARUKONI_HUB_CLOSED;
    unsigned long done = 0;
    if (strcmp(name, "open") == 0) return open_and_close(count);
    if (strcmp(name, "closed") == 0) return give_again(&hub, "take 0", VARUKONI_WRONG_STATE, count);
    varukoni_open(&hub);
    if (strcmp(name, "bad") == 0) done = give_again(&hub, "fly", VARUKONI_BAD, count);
    if (strcmp(name, "not-now") == 0) done = give_again(&hub, "take 9", VARUKONI_DONE, count);
    varukoni_close(&hub);
    return done;
}

/* Calls that go deep: bodies that are nested 64 deep and deeper, and each kind of text. */
static void *go_deep(void *none) {
    static const char *lines[] = {
        "agent https://a.test/x?y#z", "channel 0", "channel 0", "worker 0",
        "member 0 \"n\"", "member 0 \"n\"", "cast 5 - 1", "start 1",
    };
    static const char *logs = "hublog 3\nagent 0\nput 1 0 0:0 - 1\nagent 1\ngot 1 0 0:0 - 1\n";
    static const char *script = "window 0\n";
    static uint8_t room[4096];
    struct varukoni_hub hub = VARUKONI_HUB_CLOSED;
    char deep[512] = "post 0 2 ", deeper[512] = "post 0 - ";
    size_t length;
    memset(deep + 9, '[', 64);
    memset(deep + 9 + 64, ']', 64);
    memset(deeper + 9, '[', 200);
    varukoni_open(&hub);
    for (size_t at = 0; at < sizeof lines / sizeof *lines; at++) give(&hub, lines[at]);
    give(&hub, deep);
    give(&hub, deeper);
    for (int at = 0; at < 2; at++) give(&hub, at ? "adopt 2 0" : "take 1");
    give(&hub, "close 1");
    give(&hub, "sweep 1");
    varukoni_close(&hub);
    varukoni_check((const uint8_t *)logs, strlen(logs), room, sizeof room, &length);
    varukoni_script((const uint8_t *)script, strlen(script), room, sizeof room, &length);
    varukoni_steps((const uint8_t *)deep, strlen(deep), room, sizeof room, &length);
    return none;
}

static unsigned long stack_taken(void) {
    unsigned char *stack;
    pthread_attr_t how;
    pthread_t thread;
    if (posix_memalign((void **)&stack, 4096, STACK)) exit(3);
    memset(stack, PAINT, STACK);
    pthread_attr_init(&how);
    pthread_attr_setstack(&how, stack, STACK);
    if (pthread_create(&thread, &how, go_deep, NULL)) exit(3);
    pthread_join(thread, NULL);
    size_t at = 0;
    while (at < STACK && stack[at] == PAINT) at++;
    return STACK - at;
}

int main(int count, char **words) {
    if (count == 2 && strcmp(words[1], "stack") == 0) {
        printf("1 %lu\n", stack_taken());
        return 0;
    }
    if (count != 3) return 2;
    double start = now();
    unsigned long done = run(words[1], strtoul(words[2], NULL, 10));
    printf("%.0f %lu\n", now() - start + 1, done);
    return 0;
}

/* Two threads, and a port that is sent over a port with a message waiting in it. */
#include "varukoni_ports.h"

#include <pthread.h>
#include <stdio.h>

static struct varukoni_unclaimed unclaimed = {NULL, varukoni_wake};

static void say(const char *who, const struct varukoni_message *message) {
    printf("%s: %.*s\n", who, (int)message->length, (const char *)message->body);
}

/* Takes a port from the message, reads what waits in it, and replies there. */
static void *worker(void *at) {
    struct varukoni_port *road = (struct varukoni_port *)at, port;
    struct varukoni_waker waker = VARUKONI_WAKER_INIT;
    struct varukoni_message message;
    uint64_t token;
    size_t count;
    varukoni_port_await(road, &message, &waker);
    say("worker", &message);
    varukoni_port_move(&port, varukoni_message_ports(&message, &count));
    varukoni_message_free(&message, &unclaimed);
    varukoni_port_adopt(&port, 0, &token);
    varukoni_port_start(&port);
    varukoni_port_await(&port, &message, &waker);
    say("worker", &message);
    varukoni_message_free(&message, &unclaimed);
    varukoni_port_send(&port, "a reply", 7, NULL, 0, &token);
    varukoni_wake(token);
    varukoni_port_close(&port, &token, &token);
    varukoni_wake(token);
    varukoni_port_drop(&port);
    return NULL;
}

int main(void) {
    struct varukoni_port road, far_end, port, sent;
    struct varukoni_waker waker = VARUKONI_WAKER_INIT;
    struct varukoni_message message;
    pthread_t thread;
    uint64_t token;
    memset(&road, 0, sizeof road), memset(&far_end, 0, sizeof far_end);
    memset(&port, 0, sizeof port), memset(&sent, 0, sizeof sent);
    if (varukoni_ports_open(&road, &far_end) != VARUKONI_PORT_DONE) return 1;
    if (varukoni_ports_open(&port, &sent) != VARUKONI_PORT_DONE) return 1;
    varukoni_port_start(&port);
    varukoni_port_start(&far_end);
    if (pthread_create(&thread, NULL, worker, &far_end) != 0) return 1;
    varukoni_port_send(&port, "it waited", 9, NULL, 0, &token);
    varukoni_port_send(&road, "a port", 6, &sent, 1, &token);
    varukoni_wake(token);
    while (varukoni_port_await(&port, &message, &waker) == VARUKONI_PORT_DONE) {
        say("main", &message);
        varukoni_message_free(&message, &unclaimed);
    }
    printf("main: the port is closed\n");
    pthread_join(thread, NULL);
    varukoni_port_drop(&port);
    varukoni_port_drop(&road);
    varukoni_port_drop(&far_end);
    return 0;
}

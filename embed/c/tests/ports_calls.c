/* Calls of the ports on one thread, for tests/test_embed_ports.py. A word says which:
 *
 *   answers   each call on a closed handle, a port, one that isn't started, one whose peer is
 *             closed, and a closed port; what a list of ports is refused for
 *   refuse    a scenario with the first allocation refused, then with the second, and so on
 *   nested    a port with 100,000 ports nested in messages is closed
 *   memory    what a channel and a line that was behind take
 *
 * It prints how much it did. The exit status is 99 where the library breaks its word; then standard
 * error says where.
 */
#include "refusing.h"

enum { NESTED = 100000, WAITING = 1000000 };

static struct varukoni_port closed(void) {
    struct varukoni_port port = VARUKONI_PORT_INIT;
    return port;
}

static unsigned long woken;
static void count_wake(uint64_t token) { woken += token; }

/* Each call at a handle that it isn't for: the answer is WRONG_STATE, and nothing is written. */
static void is_no_port(struct varukoni_port *port) {
    struct varukoni_message message = {NULL, 7, NULL};
    uint64_t one = 8, two = 9;
    NEED(varukoni_port_post(port, &message, &one) == VARUKONI_PORT_WRONG_STATE);
    NEED(varukoni_port_take(port, &message) == VARUKONI_PORT_WRONG_STATE);
    NEED(varukoni_port_start(port) == VARUKONI_PORT_WRONG_STATE);
    NEED(varukoni_port_arm(port, 1, &one) == VARUKONI_PORT_WRONG_STATE);
    NEED(varukoni_port_adopt(port, 1, &one) == VARUKONI_PORT_WRONG_STATE);
    NEED(varukoni_port_name(port, &one) == VARUKONI_PORT_WRONG_STATE);
    NEED(varukoni_port_close(port, &one, &two) == VARUKONI_PORT_WRONG_STATE);
    NEED(one == 8 && two == 9 && message.length == 7 && !message.body && !message.ports);
}

static void tokens(struct varukoni_port *left_port, struct varukoni_port *right) {
    struct varukoni_message message = {&message, 3, &woken}, came;
    uint64_t token = 1;
    NEED(varukoni_port_arm(right, 41, &token) == VARUKONI_PORT_EMPTY && token == 0);
    NEED(varukoni_port_arm(right, 42, &token) == VARUKONI_PORT_EMPTY && token == 41);
    NEED(varukoni_port_post(left_port, &message, &token) == VARUKONI_PORT_DONE && token == 42);
    NEED(varukoni_port_post(left_port, &message, &token) == VARUKONI_PORT_DONE && token == 0);
    NEED(varukoni_port_arm(right, 43, &token) == VARUKONI_PORT_DONE && token == 0);
    NEED(varukoni_port_take(right, &came) == VARUKONI_PORT_DONE);
    NEED(came.body == &message && came.length == 3 && came.ports == &woken);
    NEED(varukoni_port_adopt(right, 44, &token) == VARUKONI_PORT_DONE && token == 43);
    NEED(varukoni_port_take(right, &came) == VARUKONI_PORT_DISABLED);
    NEED(varukoni_port_start(right) == VARUKONI_PORT_DONE);
    NEED(varukoni_port_take(right, &came) == VARUKONI_PORT_DONE);
    NEED(varukoni_port_take(right, &came) == VARUKONI_PORT_EMPTY);
}

static void endings(void) {
    struct varukoni_port one = closed(), other = closed();
    struct varukoni_message message = {NULL, 0, NULL}, came;
    uint64_t own, peer;
    NEED(varukoni_channel_open(&one, &other, 7) == VARUKONI_PORT_DONE);
    NEED(varukoni_channel_open(&one, &other, 7) == VARUKONI_PORT_WRONG_STATE);
    NEED(varukoni_port_name(&other, &own) == VARUKONI_PORT_DONE && own == 7);
    for (message.length = 0; message.length < 5; message.length++)
        NEED(varukoni_port_post(&one, &message, &peer) == VARUKONI_PORT_DONE);
    varukoni_port_start(&other);
    NEED(varukoni_port_take(&other, &came) == VARUKONI_PORT_DONE && came.length == 0);
    varukoni_port_arm(&other, 5, &own);
    varukoni_port_arm(&one, 6, &own);
    NEED(varukoni_port_close(&other, &own, &peer) == VARUKONI_PORT_DONE && own == 5 && peer == 6);
    is_no_port(&other);
    for (size_t n = 1; n < 5; n++)
        NEED(varukoni_port_drain(&other, &came) == VARUKONI_PORT_DONE && came.length == n);
    NEED(varukoni_port_drain(&other, &came) == VARUKONI_PORT_EMPTY);
    NEED(varukoni_port_post(&one, &message, &peer) == VARUKONI_PORT_CLOSED);
    NEED(varukoni_port_drain(&other, &came) == VARUKONI_PORT_ENDED);
    NEED(varukoni_port_drain(&other, &came) == VARUKONI_PORT_ENDED);
    varukoni_port_start(&one);
    NEED(varukoni_port_drain(&one, &came) == VARUKONI_PORT_WRONG_STATE);
    NEED(varukoni_port_take(&one, &came) == VARUKONI_PORT_ENDED);
    NEED(varukoni_port_take(&one, &came) == VARUKONI_PORT_ENDED);
    NEED(varukoni_port_post(&one, &message, &peer) == VARUKONI_PORT_CLOSED);
    varukoni_port_drop(&other);
    varukoni_port_drop(&one);
    NEED(!one.is_open && !other.is_open && taken == 0);
}

static void lists(void) {
    struct varukoni_port one = closed(), other = closed(), sent[17], far_ends[17];
    struct varukoni_unclaimed unclaimed = {NULL, count_wake};
    struct varukoni_message message;
    uint64_t wake = 3;
    size_t count;
    char room[4];
    for (int i = 0; i < 17; i++) {
        sent[i] = far_ends[i] = closed();
        NEED(varukoni_ports_open(&sent[i], &far_ends[i]) == VARUKONI_PORT_DONE);
    }
    NEED(varukoni_ports_open(&one, &other) == VARUKONI_PORT_DONE);
    NEED(varukoni_port_send(&one, "", 0, sent, 17, &wake) == VARUKONI_PORT_TOO_MANY);
    NEED(varukoni_port_send(&sent[3], "", 0, sent, 16, &wake) == VARUKONI_PORT_ITSELF);
    NEED(varukoni_port_send(&far_ends[3], "", 0, sent, 16, &wake) == VARUKONI_PORT_PEER);
    for (int i = 0; i < 17; i++) NEED(sent[i].is_open);
    varukoni_port_arm(&far_ends[2], 100, &wake);
    NEED(varukoni_port_send(&one, "hello", 5, sent, 16, &wake) == VARUKONI_PORT_DONE);
    for (int i = 0; i < 16; i++) NEED(!sent[i].is_open);
    NEED(varukoni_port_send(&one, "", 0, sent, 1, &wake) == VARUKONI_PORT_WRONG_STATE);
    varukoni_port_start(&other);
    NEED(varukoni_port_take(&other, &message) == VARUKONI_PORT_DONE);
    NEED(varukoni_message_copy(&message, room, 4) == 5 && memcmp(room, "hell", 4) == 0);
    NEED(varukoni_message_ports(&message, &count)[15].is_open && count == 16);
    varukoni_port_move(&sent[0], &varukoni_message_ports(&message, &count)[0]);
    woken = 0;
    varukoni_message_free(&message, &unclaimed);
    NEED(woken == 100 && unclaimed.first != NULL && sent[0].is_open);
    for (int i = 1; i < 16; i++) {
        varukoni_port_start(&far_ends[i]);
        NEED(varukoni_port_take(&far_ends[i], &message) == VARUKONI_PORT_ENDED);
    }
    NEED(!varukoni_unclaimed_sweep(&unclaimed));
    for (int i = 0; i < 17; i++) varukoni_port_drop(&sent[i]), varukoni_port_drop(&far_ends[i]);
    varukoni_port_drop(&one), varukoni_port_drop(&other);
    NEED(taken == 0);
}

static int answers(void) {
    struct varukoni_port one = closed(), other = closed();
    struct varukoni_message message;
    NEED(varukoni_ports_version() == VARUKONI_PORTS_VERSION);
    is_no_port(&one);
    NEED(varukoni_port_drain(&one, &message) == VARUKONI_PORT_WRONG_STATE);
    varukoni_port_drop(&one);
    NEED(varukoni_channel_open(&one, &other, 1) == VARUKONI_PORT_DONE);
    NEED(varukoni_port_take(&other, &message) == VARUKONI_PORT_DISABLED);
    varukoni_port_start(&other);
    NEED(varukoni_port_take(&other, &message) == VARUKONI_PORT_EMPTY);
    tokens(&one, &other);
    varukoni_port_drop(&one), varukoni_port_drop(&other);
    endings();
    lists();
    printf("answers: %lu\n", needed);
    return 0;
}

/* A line that grows over several rings, with a port in each message, some of which is taken. */
static unsigned long scenario(void) {
    struct varukoni_port one = closed(), other = closed();
    struct varukoni_unclaimed unclaimed = {NULL, NULL};
    struct varukoni_message message;
    unsigned long refused = 0, posted = 0, came = 0;
    uint64_t wake;
    while (varukoni_ports_open(&one, &other) != VARUKONI_PORT_DONE) refused++;
    varukoni_port_start(&other);
    for (int n = 0; n < 200; n++) {
        struct varukoni_port sent = closed(), far_end = closed();
        while (varukoni_ports_open(&sent, &far_end) != VARUKONI_PORT_DONE) refused++;
        while (varukoni_port_send(&one, &n, sizeof n, &sent, 1, &wake) != VARUKONI_PORT_DONE) {
            NEED(sent.is_open);
            refused++;
        }
        posted++;
        varukoni_port_drop(&far_end);
        if (n % 3 == 0) {
            int got = -1;
            NEED(varukoni_port_take(&other, &message) == VARUKONI_PORT_DONE);
            NEED(varukoni_message_copy(&message, &got, sizeof got) == sizeof got);
            NEED((unsigned long)got == came);
            came++;
            varukoni_message_free(&message, &unclaimed);
        }
    }
    NEED(varukoni_port_shut(&other, &unclaimed) == VARUKONI_PORT_EMPTY);
    varukoni_port_drop(&one);
    NEED(varukoni_port_shut(&other, &unclaimed) == VARUKONI_PORT_ENDED);
    NEED(!varukoni_unclaimed_sweep(&unclaimed) && posted == 200);
    NEED(taken == 0);
    return refused;
}

static int nested(void) {
    struct varukoni_port inner = closed(), outer = closed(), far_end = closed();
    struct varukoni_unclaimed unclaimed = {NULL, NULL};
    uint64_t wake;
    NEED(varukoni_ports_open(&inner, &far_end) == VARUKONI_PORT_DONE);
    varukoni_port_drop(&far_end);
    for (unsigned long n = 0; n < NESTED; n++) {
        NEED(varukoni_ports_open(&far_end, &outer) == VARUKONI_PORT_DONE);
        NEED(varukoni_port_send(&far_end, "", 0, &inner, 1, &wake) == VARUKONI_PORT_DONE);
        varukoni_port_drop(&far_end);
        varukoni_port_move(&inner, &outer);
    }
    NEED(varukoni_port_shut(&inner, &unclaimed) == VARUKONI_PORT_ENDED);
    NEED(unclaimed.first == NULL && taken == 0);
    printf("nested: %d\n", NESTED);
    return 0;
}

static int memory(void) {
    struct varukoni_port one = closed(), other = closed();
    struct varukoni_message message = {NULL, 0, NULL};
    uint64_t wake;
    size_t channel;
    NEED(varukoni_ports_open(&one, &other) == VARUKONI_PORT_DONE);
    channel = taken;
    varukoni_port_start(&other);
    for (unsigned long n = 0; n < WAITING; n++)
        NEED(varukoni_port_post(&one, &message, &wake) == VARUKONI_PORT_DONE);
    for (unsigned long n = 0; n < WAITING; n++)
        NEED(varukoni_port_take(&other, &message) == VARUKONI_PORT_DONE);
    NEED(varukoni_port_take(&other, &message) == VARUKONI_PORT_EMPTY);
    NEED(varukoni_port_post(&one, &message, &wake) == VARUKONI_PORT_DONE);
    NEED(varukoni_port_take(&other, &message) == VARUKONI_PORT_DONE);
    printf("channel: %zu\nmost: %zu\nafter: %zu\n", channel, most, taken);
    varukoni_port_drop(&one), varukoni_port_drop(&other);
    NEED(taken == 0);
    return 0;
}

int main(int count, char **words) {
    const char *word = count == 2 ? words[1] : "";
    if (strcmp(word, "answers") == 0) return answers();
    if (strcmp(word, "refuse") == 0) return refuse_each(scenario);
    if (strcmp(word, "nested") == 0) return nested();
    if (strcmp(word, "memory") == 0) return memory();
    fprintf(stderr, "ports_calls: answers, refuse, nested or memory\n");
    return 2;
}

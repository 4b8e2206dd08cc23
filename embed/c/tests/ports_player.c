/* Plays step lines on the ports of varukoni_ports.h, in one thread, and says what came of each.
 *
 * It reads the lines `agent`, `channel`, `start`, `post`, `take`, `adopt`, `close` and `sweep` of
 * docs/FORMATS.md, of which each can be done as it stands: tests/test_ports_player.py leaves out
 * those that the state machine answers with not-now. A port is handed over as it is, so `adopt`
 * makes no queue, and answers name none. What an end of a line shows is `ended`, as often as it is
 * taken.
 */
#include "varukoni_ports.h"
#include <assert.h>
#include <stdio.h>
#include <stdlib.h>
#include <string.h>

enum { MOST_ENDS = 4096, MOST_PORTS = 16 };

/* What a message's words lead to. */
struct letter {
    unsigned ports[MOST_PORTS], count;
    char body[];
};

static struct varukoni_port ends[MOST_ENDS];
static unsigned peer_of[MOST_ENDS], made, agents;

static void fail(const char *why)
{
    fprintf(stderr, "ports_player: %s\n", why);
    exit(2);
}

static unsigned number(char **rest)
{
    char *end;
    unsigned long value = strtoul(*rest, &end, 10);
    if (end == *rest || value >= MOST_ENDS)
        fail("no number of an end");
    *rest = *end == ' ' || *end == ',' ? end + 1 : end;
    return (unsigned)value;
}

/* The list of ports of a line, to a letter with the body behind it. */
static struct letter *letter_of(char *rest)
{
    unsigned ports[MOST_PORTS + 1], count = 0;
    if (*rest == '-')
        rest += 2;
    else
        for (char *end = strchr(rest, ' '); rest <= end;) {
            if (count > MOST_PORTS)
                return NULL;
            ports[count++] = number(&rest);
        }
    if (count > MOST_PORTS)
        return NULL;
    struct letter *letter = malloc(sizeof *letter + strlen(rest) + 1);
    assert(letter);
    memcpy(letter->ports, ports, count * sizeof *ports);
    letter->count = count;
    strcpy(letter->body, rest);
    return letter;
}

/* Closes a port. What waits there is handed back by a sweep. */
static void close_port(unsigned end)
{
    uint64_t own, peer;
    uint8_t status = varukoni_port_close(&ends[end], &own, &peer);
    assert(status == VARUKONI_PORT_DONE);
}

static const char *post(unsigned end, char *rest)
{
    struct letter *letter = letter_of(rest);
    if (!letter)
        return "too-many-ports";
    for (unsigned i = 0; i < letter->count; i++)
        if (letter->ports[i] == peer_of[end]) {
            /* HTML: the message is lost, and each listed port is closed. */
            for (unsigned j = 0; j < letter->count; j++)
                close_port(letter->ports[j]);
            free(letter);
            return "doomed";
        }
    struct varukoni_message message = {letter, strlen(letter->body), NULL};
    uint64_t wake;
    switch (varukoni_port_post(&ends[end], &message, &wake)) {
    case VARUKONI_PORT_DONE: return "accepted";
    case VARUKONI_PORT_CLOSED: free(letter); return "closed";
    default: fail("a post without memory");
    }
    return NULL;
}

/* Says what a message had, and frees it. */
static void tell(const char *word, struct varukoni_message message)
{
    struct letter *letter = message.body;
    assert(message.length == strlen(letter->body));
    printf("%s", word);
    for (unsigned i = 0; i < letter->count; i++)
        printf("%s%u", i ? "," : " with ", letter->ports[i]);
    printf(" %s\n", letter->body);
    free(letter);
}

static void take(unsigned end)
{
    struct varukoni_message message;
    switch (varukoni_port_take(&ends[end], &message)) {
    case VARUKONI_PORT_DONE: tell("got", message); break;
    case VARUKONI_PORT_EMPTY: puts("empty"); break;
    case VARUKONI_PORT_ENDED: puts("ended"); break;
    case VARUKONI_PORT_DISABLED: puts("disabled"); break;
    case VARUKONI_PORT_WRONG_STATE: puts("closed"); break;
    default: fail("another answer to a take");
    }
}

/* Hands back what waits at a closed port, and closes the ports that it names. */
static void sweep(unsigned end)
{
    struct varukoni_message message;
    unsigned count = 0;
    while (varukoni_port_drain(&ends[end], &message) == VARUKONI_PORT_DONE) {
        struct letter *letter = message.body;
        for (unsigned i = 0; i < letter->count; i++)
            close_port(letter->ports[i]);
        free(letter);
        count++;
    }
    printf("discarded %u\n", count);
}

static void adopt(unsigned end)
{
    uint64_t old;
    uint8_t status = varukoni_port_adopt(&ends[end], 0, &old);
    puts(status == VARUKONI_PORT_WRONG_STATE ? "closed" : "adopted");
}

static void channel(void)
{
    if (made + 2 > MOST_ENDS || varukoni_channel_open(&ends[made], &ends[made + 1], made / 2))
        fail("no channel");
    peer_of[made] = made + 1;
    peer_of[made + 1] = made;
    printf("ends %u %u\n", made, made + 1);
    made += 2;
}

static void play(char *line)
{
    char *rest = strchr(line, ' ');
    if (!rest)
        fail("a line of one word");
    *rest++ = 0;
    if (!strcmp(line, "agent")) {
        printf("agent %u\n", agents++);
        return;
    }
    if (!strcmp(line, "channel")) {
        channel();
        return;
    }
    unsigned end = number(&rest);
    if (!strcmp(line, "start"))
        puts(varukoni_port_start(&ends[end]) == VARUKONI_PORT_DONE ? "started" : "closed");
    else if (!strcmp(line, "post"))
        puts(post(end, rest));
    else if (!strcmp(line, "take"))
        take(end);
    else if (!strcmp(line, "adopt"))
        adopt(end);
    else if (!strcmp(line, "close")) {
        uint64_t own, peer;
        puts(varukoni_port_close(&ends[end], &own, &peer) ? "closed" : "done");
    } else if (!strcmp(line, "sweep"))
        sweep(end);
    else
        fail("another line");
}

/* Frees what is left, so that a checker of memory finds nothing: first each port is closed. */
static void end_all(void)
{
    struct varukoni_message message;
    uint64_t own, peer;
    for (unsigned end = 0; end < made; end++)
        varukoni_port_close(&ends[end], &own, &peer);
    for (unsigned end = 0; end < made; end++) {
        while (varukoni_port_drain(&ends[end], &message) == VARUKONI_PORT_DONE)
            free(message.body);
        varukoni_port_drop(&ends[end]);
    }
}

int main(void)
{
    char *line = NULL;
    size_t room = 0;
    for (ssize_t length; (length = getline(&line, &room, stdin)) > 0;) {
        if (line[length - 1] == '\n')
            line[length - 1] = 0;
        play(line);
    }
    free(line);
    end_all();
    return 0;
}

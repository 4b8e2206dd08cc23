/* Threads that send each other messages and ports, and record what they put and got:
 *
 *     ports_recorded FOLDER AGENTS ROUNDS SEED
 *
 * Each agent is a thread with a log in the folder. It has a road to each other agent, over which
 * ports are sent that carry none themselves, so that no port can wait in a circle that nobody
 * reaches. It posts and takes at what it has, closes some, and in the end all. tools/report judges
 * the logs. The last line tells how much was done.
 */
#include "../../../record/hublog.h"
#include "varukoni_ports.h"
#include <assert.h>
#include <pthread.h>
#include <stdio.h>

enum { MOST_AGENTS = 16, MOST_PORTS = 128, MOST_SENT = 3, CHANNELS = 3, CLOSES = 2 };

/* What is known of a port, which goes with it. */
struct known {
    uint32_t end, peer, moves;
    bool is_road;
    uint64_t posted;
};

/* The bytes of a message: its name, and what is known of its ports. */
struct note {
    uint64_t number;
    uint32_t count;
    struct known ports[MOST_SENT];
};

struct agent {
    struct hublog log;
    struct varukoni_port ports[MOST_PORTS];
    struct known known[MOST_PORTS];
    unsigned count, number, rounds;
    uint64_t random, puts, gots, adoptions, closes, refused;
    struct varukoni_unclaimed unclaimed;
    pthread_t thread;
};

static struct agent agents[MOST_AGENTS];
static pthread_barrier_t begin;

static unsigned draw(struct agent *agent, unsigned below)
{
    agent->random = agent->random * 6364136223846793005u + 1442695040888963407u;
    return (unsigned)(agent->random >> 33) % below;
}

static void logged(enum hublog_answer answer)
{
    assert(answer == HUBLOG_DONE);
}

static void give(struct agent *agent, struct varukoni_port *port, struct known known)
{
    assert(agent->count < MOST_PORTS);
    agent->known[agent->count] = known;
    varukoni_port_move(&agent->ports[agent->count++], port);
}

/* Takes the port at this place out of what the agent has. */
static struct known leave(struct agent *agent, unsigned at, struct varukoni_port *port)
{
    struct known known = agent->known[at];
    varukoni_port_move(port, &agent->ports[at]);
    agent->known[at] = agent->known[--agent->count];
    if (at < agent->count)
        varukoni_port_move(&agent->ports[at], &agent->ports[agent->count]);
    return known;
}

static void shut(struct agent *agent, unsigned at)
{
    struct varukoni_port port = VARUKONI_PORT_INIT;
    struct known known = leave(agent, at, &port);
    logged(hublog_closed(&agent->log, known.end));
    agent->closes++;
    /* What is left of it is kept where the agent's thread can go on with it. */
    if (varukoni_port_shut(&port, &agent->unclaimed) == VARUKONI_PORT_EMPTY) {
        struct varukoni_parcel *parcel = malloc(sizeof *parcel + sizeof port);
        assert(parcel);
        parcel->port_count = 1;
        varukoni_port_move(varukoni_parcel_ports(parcel), &port);
        parcel->next = agent->unclaimed.first;
        agent->unclaimed.first = parcel;
    }
}

/* Posts at a port, and sends some others along where that is a road. */
static void post(struct agent *agent, unsigned at)
{
    struct varukoni_port sent[MOST_SENT] = {VARUKONI_PORT_INIT};
    struct note note;
    memset(&note, 0, sizeof note);
    uint32_t list[MOST_SENT];
    uint64_t wake;
    uint32_t end = agent->known[at].end, peer = agent->known[at].peer;
    for (unsigned wanted = draw(agent, MOST_SENT + 1); agent->known[at].is_road && wanted > 0;
         wanted--) {
        unsigned other = draw(agent, agent->count);
        if (agent->known[other].is_road)
            continue;
        list[note.count] = agent->known[other].end;
        note.ports[note.count] = leave(agent, other, &sent[note.count]);
        note.count++;
        for (at = 0; agent->known[at].end != end; at++)
            ;
    }
    note.number = agent->known[at].posted;
    logged(hublog_put(&agent->log, peer, 0, 0, note.number, list, note.count, &note, sizeof note));
    uint8_t status = varukoni_port_send(&agent->ports[at], &note, sizeof note, sent, note.count,
                                        &wake);
    if (status == VARUKONI_PORT_DONE) {
        agent->known[at].posted++;
        agent->puts++;
        return;
    }
    assert(status == VARUKONI_PORT_CLOSED);
    logged(hublog_take_back(&agent->log));
    agent->refused++;
    for (unsigned i = 0; i < note.count; i++)
        give(agent, &sent[i], note.ports[i]);
    shut(agent, at);
}

static void take(struct agent *agent, unsigned at)
{
    struct varukoni_message message;
    struct note note;
    uint32_t list[MOST_SENT];
    size_t count;
    uint64_t old;
    uint8_t status = varukoni_port_take(&agent->ports[at], &message);
    if (status == VARUKONI_PORT_ENDED)
        shut(agent, at);
    if (status != VARUKONI_PORT_DONE)
        return;
    struct varukoni_port *ports = varukoni_message_ports(&message, &count);
    assert(varukoni_message_copy(&message, &note, sizeof note) == sizeof note);
    assert(count == note.count);
    for (unsigned i = 0; i < note.count; i++)
        list[i] = note.ports[i].end;
    logged(hublog_got(&agent->log, agent->known[at].end, 0, 0, note.number, list, note.count,
                      &note, sizeof note));
    agent->gots++;
    for (unsigned i = 0; i < note.count && agent->count < MOST_PORTS; i++) {
        note.ports[i].moves++;
        logged(hublog_adopted(&agent->log, note.ports[i].end, note.ports[i].moves));
        agent->adoptions++;
        varukoni_port_adopt(&ports[i], 0, &old);
        varukoni_port_start(&ports[i]);
        give(agent, &ports[i], note.ports[i]);
    }
    varukoni_message_free(&message, &agent->unclaimed);
}

static void *run(void *argument)
{
    struct agent *agent = argument;
    pthread_barrier_wait(&begin);
    for (unsigned round = 0; round < agent->rounds && agent->count > 0; round++) {
        unsigned at = draw(agent, agent->count);
        if (draw(agent, agent->rounds) < CLOSES)
            shut(agent, at);
        else if (draw(agent, 3) == 0)
            post(agent, at);
        else
            take(agent, at);
    }
    while (agent->count > 0)
        shut(agent, agent->count - 1);
    logged(hublog_finish(&agent->log));
    return NULL;
}

/* Opens a channel, whose ports two agents have. */
static void open_channel(struct agent *one, struct agent *other, bool is_road)
{
    static uint32_t ends;
    struct varukoni_port left = VARUKONI_PORT_INIT, right = VARUKONI_PORT_INIT;
    struct known first = {ends, ends + 1, 0, is_road, 0}, second = {ends + 1, ends, 0, is_road, 0};
    ends += 2;
    assert(varukoni_ports_open(&left, &right) == VARUKONI_PORT_DONE);
    varukoni_port_start(&left);
    varukoni_port_start(&right);
    give(one, &left, first);
    give(other, &right, second);
}

int main(int count, char **words)
{
    char path[512];
    assert(count == 5);
    unsigned number = (unsigned)atoi(words[2]);
    assert(number >= 2 && number <= MOST_AGENTS);
    pthread_barrier_init(&begin, NULL, number);
    for (unsigned i = 0; i < number; i++) {
        agents[i].number = i;
        agents[i].rounds = (unsigned)atoi(words[3]);
        agents[i].random = strtoull(words[4], NULL, 10) * 97 + i;
        snprintf(path, sizeof path, "%s/agent-%u.log", words[1], i);
        logged(hublog_open(&agents[i].log, path, i));
    }
    for (unsigned i = 0; i < number; i++) {
        for (unsigned j = 0; j < CHANNELS; j++)
            open_channel(&agents[i], &agents[i], false);
        for (unsigned j = 0; j < i; j++)
            open_channel(&agents[i], &agents[j], true);
    }
    for (unsigned i = 0; i < number; i++)
        assert(pthread_create(&agents[i].thread, NULL, run, &agents[i]) == 0);
    struct agent all = {.number = 0};
    for (unsigned i = 0; i < number; i++) {
        pthread_join(agents[i].thread, NULL);
        all.puts += agents[i].puts;
        all.gots += agents[i].gots;
        all.adoptions += agents[i].adoptions;
        all.closes += agents[i].closes;
        all.refused += agents[i].refused;
    }
    /* Each port was closed, so each comes to its end. */
    for (bool is_left = true; is_left;) {
        is_left = false;
        for (unsigned i = 0; i < number; i++)
            is_left |= varukoni_unclaimed_sweep(&agents[i].unclaimed);
    }
    printf("%llu put, %llu got, %llu adopted, %llu closed, %llu refused\n",
           (unsigned long long)all.puts, (unsigned long long)all.gots,
           (unsigned long long)all.adoptions, (unsigned long long)all.closes,
           (unsigned long long)all.refused);
    return 0;
}

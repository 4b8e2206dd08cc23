/* Varukoni's message ports between the threads of a C or C++ program: messages in order, each
 * once, and ports that are sent over ports, with no lock and no wait. A fan has many posters at one
 * taker, as the queue of a worker or of a client; a group casts to all its members, as a broadcast
 * channel. docs/EMBEDDING.md tells how to build it, and when to take this library and when
 * varukoni.h.
 *
 * It is proved of each function of the archive that it is safe and returns, and what its answers
 * mean for what was posted and taken (the contracts stand in crates/hub_ports_c/src), if its caller
 * does what is asked here. Nothing checks the caller. The inline functions below are C, and tested.
 *
 * Memory    The caller owns each handle. A call keeps nothing of what it is passed but the handle's
 *           own memory, which varukoni_port_drop gives back. The library takes memory by malloc and
 *           realloc of the program and gives it back by free: these have to be one allocator, whose
 *           blocks are aligned to each power of two up to 16 that divides their size. Memory may
 *           run out at an open, a join, a post and a cast alone; no call ends the program.
 * Handles   All bytes zero are a closed one. A program may read `is_open`, and writes neither
 *           field. A handle may move; it is not copied and used twice. Pointers are never null, and
 *           what a call writes overlaps nothing else that it is passed.
 * Threads   One call at a time for one handle. The two ports of a channel are two handles, and so
 *           are a fan and each of its posters: as many threads may use them at once. A host whose
 *           threads share a fan or a group keeps it under a lock of its own. A handle goes to
 *           another thread by a message of a port, by a lock, by a SEQ_CST atomic, or by the start
 *           or the join of a thread. What a program has written before it posts is there for who
 *           takes the message, and what it has written before it arms a port or a fan is there for
 *           whom its token is handed to; that is tested, not proved. No call from a signal handler,
 *           nor in the child of a fork of a program with threads. No thread is ended within a call.
 * Stack     A call takes less than 64 KiB.
 */
#ifndef VARUKONI_PORTS_H
#define VARUKONI_PORTS_H

#include <stdbool.h>
#include <stddef.h>
#include <stdint.h>
#include <stdlib.h>
#include <string.h>
#ifdef __linux__
#include <linux/futex.h>
#include <sched.h>
#include <sys/syscall.h>
#include <unistd.h>
#ifndef __cplusplus
long syscall(long number, ...); /* which a strict C11 leaves out */
#endif
#endif

#ifdef __cplusplus
extern "C" {
#endif

/* A port, or what is left of one that was closed. VARUKONI_PORT_INIT is a closed handle of each
 * kind. */
struct varukoni_port {
    void *at;
    bool is_open;
};
#define VARUKONI_PORT_INIT {0, false}

/* A taker with up to 32 lines, or what is left of one that was closed. */
struct varukoni_fan {
    void *at;
    bool is_open;
};
#define VARUKONI_FAN_LINES 32

/* What posts over one line of a fan. */
struct varukoni_poster {
    void *at;
    bool is_open;
};

/* Members, with a line to each. */
struct varukoni_group {
    void *at;
    bool is_open;
};

/* A message: three words of the program. The library follows none of them. */
struct varukoni_message {
    void *body;
    size_t length;
    void *ports;
};

/* What calls answer. */
enum {
    VARUKONI_PORT_DONE = 0,        /* done */
    VARUKONI_PORT_EMPTY = 1,       /* nothing waits */
    VARUKONI_PORT_ENDED = 2,       /* nothing waits, and nothing more will come */
    VARUKONI_PORT_NO_MEMORY = 3,   /* memory ran out and nothing was changed: call again */
    VARUKONI_PORT_DISABLED = 4,    /* the port isn't started: nothing is taken */
    VARUKONI_PORT_WRONG_STATE = 5, /* the handle holds not what the call wants; it is as it was */
    VARUKONI_PORT_CLOSED = 6,      /* the peer is closed: nothing was posted */
    VARUKONI_PORT_FULL = 10,       /* no place is left: nothing was changed */
    VARUKONI_PORT_SOURCE = 11,     /* the member casts itself: nothing was posted at it */
    /* Of the inline functions: */
    VARUKONI_PORT_TOO_MANY = 7,    /* more ports than a message carries: nothing was sent */
    VARUKONI_PORT_ITSELF = 8,      /* the port is in its own list: nothing was sent */
    VARUKONI_PORT_PEER = 9         /* the port's peer is in its list: nothing was sent */
};

/* What a cast came to at one member. */
struct varukoni_answer {
    uint64_t member; /* its number */
    uint64_t wake;   /* whom to wake for it, or 0 */
    uint8_t status;  /* DONE, NO_MEMORY, CLOSED or SOURCE */
};

/* The interface that this header describes. varukoni_ports_version() of the library has its
 * number. */
#define VARUKONI_PORTS_VERSION 1
uint32_t varukoni_ports_version(void);

/* Opens the two ports of a channel in two closed handles. The program names the channel by a
 * number, which both ports tell; varukoni_ports_open below counts them. Neither port is started.
 * DONE; NO_MEMORY; WRONG_STATE, where a handle isn't closed. */
uint8_t varukoni_channel_open(struct varukoni_port *left, struct varukoni_port *right,
                              uint64_t name);

/* Posts a message at the peer, behind all that was posted there. DONE: `*wake` is the token by
 * which the peer was armed, which is handed out once, or 0: wake whom it names. NO_MEMORY and
 * CLOSED: nothing was posted, and the message is still the caller's. */
uint8_t varukoni_port_post(struct varukoni_port *port, const struct varukoni_message *message,
                           uint64_t *wake);

/* Takes the next message that the peer has posted. DONE; EMPTY; DISABLED, before the port was
 * started; ENDED, where the peer is closed and all that it had ever posted was taken. */
uint8_t varukoni_port_take(struct varukoni_port *port, struct varukoni_message *message);

/* Starts a port: its messages may be taken. DONE. */
uint8_t varukoni_port_start(struct varukoni_port *port);

/* Says by a token, which isn't 0, whom to wake for this port, or by 0 that nobody is, and looks
 * into the port then. DONE: something waits, so don't sleep. EMPTY: nothing does, and the peer's
 * next post or its close hands out the token. `*old` is the token that the port had, or 0. */
uint8_t varukoni_port_arm(struct varukoni_port *port, uint64_t token, uint64_t *old);

/* Makes a port that has come over another one the port of its new owner: it is disabled until it is
 * started, and armed as by varukoni_port_arm, which answers the same. */
uint8_t varukoni_port_adopt(struct varukoni_port *port, uint64_t token, uint64_t *old);

/* The name of a port's channel. DONE. */
uint8_t varukoni_port_name(struct varukoni_port *port, uint64_t *name);

/* Closes a port: the peer takes ENDED behind all that was posted there, and its posts are refused
 * from its next call on. `*own` is the token that the port had, and `*peer` that of the peer, whom
 * to wake; 0 is none. The handle holds what is left of the port. DONE. */
uint8_t varukoni_port_close(struct varukoni_port *port, uint64_t *own, uint64_t *peer);

/* Hands back, in order, what was posted at a closed port and not taken. DONE; EMPTY: the peer has
 * made no call since the port was closed, and may still have posted something; ENDED: what was
 * taken and what was handed back are all that was ever posted. */
uint8_t varukoni_port_drain(struct varukoni_port *port, struct varukoni_message *message);

/* Closes a handle, whatever it holds, and gives back its memory. A port is closed so. What was
 * posted at it and neither taken nor handed back is discarded, and nothing counts that: an owner of
 * bodies and ports drains to ENDED first. A closed handle stays closed. */
void varukoni_port_drop(struct varukoni_port *port);

/* Fans: the queue of one taker, at which up to 32 posters post, each over a line of its own. */

/* Opens a fan in a closed handle. It has no line, isn't started and isn't armed. DONE; NO_MEMORY;
 * WRONG_STATE, where the handle isn't closed. */
uint8_t varukoni_fan_open(struct varukoni_fan *fan);

/* Opens a line of a fan, and its poster in a closed handle, which is lent to whom may post. DONE:
 * `*line` is the line's number, the least of 0 to 31 that no line has; NO_MEMORY; FULL, where 32
 * lines are open. */
uint8_t varukoni_fan_line(struct varukoni_fan *fan, struct varukoni_poster *poster,
                          uint32_t *line);

/* Posts a message over the poster's line. The answers of varukoni_port_post: `*wake` is the token
 * by which the fan was armed, or 0. */
uint8_t varukoni_poster_post(struct varukoni_poster *poster,
                             const struct varukoni_message *message, uint64_t *wake);

/* Gives a line back, and closes the poster's handle: the fan takes ENDED of that line behind all
 * that was posted there. DONE: `*wake` is the token by which the fan was armed, or 0. */
uint8_t varukoni_poster_close(struct varukoni_poster *poster, uint64_t *wake);

/* Starts a fan: its messages may be taken. DONE. */
uint8_t varukoni_fan_start(struct varukoni_fan *fan);

/* Takes the next message of a fan. Its lines are asked in turn, from behind the last one that gave
 * something; each line's messages come in the order in which they were posted. DONE: line `*line`
 * gave the message. ENDED: line `*line` was given back and all that was ever posted there was
 * taken, and its number is free. EMPTY: each line was asked, and gave nothing. DISABLED, before the
 * fan was started. */
uint8_t varukoni_fan_take(struct varukoni_fan *fan, struct varukoni_message *message,
                          uint32_t *line);

/* Says by a token whom to wake for this fan, as varukoni_port_arm does, and looks into each line
 * then. DONE: something waits, a message or the end of a line, so don't sleep. EMPTY: nothing does,
 * and the next post or close of a poster hands out the token. */
uint8_t varukoni_fan_arm(struct varukoni_fan *fan, uint64_t token, uint64_t *old);

/* Closes a fan: the posts of each poster are refused from its next call on. `*own` is the token
 * that the fan had, or 0. The handle holds what is left. DONE. */
uint8_t varukoni_fan_close(struct varukoni_fan *fan, uint64_t *own);

/* Hands back what was posted at a closed fan and not taken, each line's messages in order. DONE:
 * line `*line` gave the message. EMPTY: some poster has made no call since the fan was closed, and
 * may still have posted something. ENDED: of each line, what was taken and what was handed back
 * are all that was ever posted. */
uint8_t varukoni_fan_drain(struct varukoni_fan *fan, struct varukoni_message *message,
                           uint32_t *line);

/* Closes a handle, whatever it holds, as varukoni_port_drop does. */
void varukoni_fan_drop(struct varukoni_fan *fan);

/* Groups: members in the order in which they have joined, each with the poster of a line at which
 * all casts but its own come. */

/* Opens a group in a closed handle, with no members. DONE; NO_MEMORY; WRONG_STATE. */
uint8_t varukoni_group_open(struct varukoni_group *group);

/* Makes who takes from the poster's line the last member of a group. DONE: the group has the poster
 * now, whose handle is closed, and `*member` is the member's number, which isn't 0 and which no
 * other member of this group had or will have. NO_MEMORY: nothing was changed. */
uint8_t varukoni_group_join(struct varukoni_group *group, struct varukoni_poster *poster,
                            uint64_t *member);

/* How many members a group has. DONE. */
uint8_t varukoni_group_count(struct varukoni_group *group, size_t *count);

/* Posts a message at each member but the source, which is a member's number or 0: once, in the
 * order of joining. DONE: `answers`, which has room for so many, begins with what each member
 * answered, the source among them, in that order; wake whom they name. Where a member didn't answer
 * DONE, nothing was posted at it. Each that did answer so takes the same three words. FULL: there
 * are more members than room, and nothing was posted. */
uint8_t varukoni_group_cast(struct varukoni_group *group, uint64_t source,
                            const struct varukoni_message *message,
                            struct varukoni_answer *answers, size_t room);

/* Takes a member out of a group, and gives its line back: it takes ENDED behind all that was cast.
 * DONE: `*wake` is whom to wake for it, or 0. EMPTY: the group has no such member. */
uint8_t varukoni_group_leave(struct varukoni_group *group, uint64_t member, uint64_t *wake);

/* Closes a handle: the lines of all members are given back, and nobody is told whom to wake. */
void varukoni_group_drop(struct varukoni_group *group);

#if defined(__has_feature)
#if __has_feature(thread_sanitizer) && !defined(__SANITIZE_THREAD__)
#define __SANITIZE_THREAD__ 1
#endif
#endif
#ifdef __SANITIZE_THREAD__
/* The thread sanitizer sees the library's copies and blocks and not its atomic steps, and would
 * tell races that aren't there. So it is told to look away within a call, that what was before a
 * post is before what comes after a take, and what was before a port was armed before what comes
 * after a post. */
void AnnotateIgnoreReadsBegin(const char *file, int line);
void AnnotateIgnoreReadsEnd(const char *file, int line);
void AnnotateIgnoreWritesBegin(const char *file, int line);
void AnnotateIgnoreWritesEnd(const char *file, int line);
void __tsan_acquire(void *address);
void __tsan_release(void *address);
__attribute__((weak)) char varukoni_ports_posted, varukoni_ports_armed;
static inline void varukoni_ports_begin(char *released)
{
    if (released != NULL)
        __tsan_release(released);
    AnnotateIgnoreReadsBegin(__FILE__, __LINE__);
    AnnotateIgnoreWritesBegin(__FILE__, __LINE__);
}
static inline uint8_t varukoni_ports_end(char *acquired, uint8_t status)
{
    AnnotateIgnoreWritesEnd(__FILE__, __LINE__);
    AnnotateIgnoreReadsEnd(__FILE__, __LINE__);
    if (acquired != NULL)
        __tsan_acquire(acquired);
    return status;
}
#define VARUKONI_ORDERED(released, acquired, call) \
    (varukoni_ports_begin(released), varukoni_ports_end(acquired, call))
#define VARUKONI_MAKES(call) VARUKONI_ORDERED(NULL, NULL, call)
#define VARUKONI_POSTS(call) VARUKONI_ORDERED(&varukoni_ports_posted, &varukoni_ports_armed, call)
#define VARUKONI_TAKES(call) VARUKONI_ORDERED(NULL, &varukoni_ports_posted, call)
#define VARUKONI_ARMS(call) VARUKONI_ORDERED(&varukoni_ports_armed, &varukoni_ports_posted, call)
#define VARUKONI_DROPS(call) \
    (varukoni_ports_begin(&varukoni_ports_posted), call, (void)varukoni_ports_end(NULL, 0))
#define varukoni_channel_open(l, r, n) VARUKONI_MAKES(varukoni_channel_open(l, r, n))
#define varukoni_port_post(p, m, w) VARUKONI_POSTS(varukoni_port_post(p, m, w))
#define varukoni_port_take(p, m) VARUKONI_TAKES(varukoni_port_take(p, m))
#define varukoni_port_arm(p, t, o) VARUKONI_ARMS(varukoni_port_arm(p, t, o))
#define varukoni_port_adopt(p, t, o) VARUKONI_ARMS(varukoni_port_adopt(p, t, o))
#define varukoni_port_close(p, o, w) VARUKONI_POSTS(varukoni_port_close(p, o, w))
#define varukoni_port_drain(p, m) VARUKONI_TAKES(varukoni_port_drain(p, m))
#define varukoni_port_drop(p) VARUKONI_DROPS(varukoni_port_drop(p))
#define varukoni_fan_open(f) VARUKONI_MAKES(varukoni_fan_open(f))
#define varukoni_fan_line(f, p, l) VARUKONI_MAKES(varukoni_fan_line(f, p, l))
#define varukoni_poster_post(p, m, w) VARUKONI_POSTS(varukoni_poster_post(p, m, w))
#define varukoni_poster_close(p, w) VARUKONI_POSTS(varukoni_poster_close(p, w))
#define varukoni_fan_take(f, m, l) VARUKONI_TAKES(varukoni_fan_take(f, m, l))
#define varukoni_fan_arm(f, t, o) VARUKONI_ARMS(varukoni_fan_arm(f, t, o))
#define varukoni_fan_close(f, o) VARUKONI_POSTS(varukoni_fan_close(f, o))
#define varukoni_fan_drain(f, m, l) VARUKONI_TAKES(varukoni_fan_drain(f, m, l))
#define varukoni_fan_drop(f) VARUKONI_DROPS(varukoni_fan_drop(f))
#define varukoni_group_open(g) VARUKONI_MAKES(varukoni_group_open(g))
#define varukoni_group_join(g, p, m) VARUKONI_MAKES(varukoni_group_join(g, p, m))
#define varukoni_group_cast(g, s, m, a, r) VARUKONI_POSTS(varukoni_group_cast(g, s, m, a, r))
#define varukoni_group_leave(g, m, w) VARUKONI_POSTS(varukoni_group_leave(g, m, w))
#define varukoni_group_drop(g) VARUKONI_DROPS(varukoni_group_drop(g))
#endif

/* From here on: inline functions, of which a program takes those that it likes. */

/* Opens a channel whose name no other channel of the program has. */
__attribute__((weak)) uint64_t varukoni_channels_named;
static inline uint8_t varukoni_ports_open(struct varukoni_port *left, struct varukoni_port *right)
{
    uint64_t name = __atomic_add_fetch(&varukoni_channels_named, 1, __ATOMIC_RELAXED);
    return varukoni_channel_open(left, right, name);
}

/* Moves what a handle holds into a closed one. */
static inline void varukoni_port_move(struct varukoni_port *to, struct varukoni_port *from)
{
    *to = *from;
    from->at = NULL;
    from->is_open = false;
}

/* Messages that carry a copy of bytes, and ports.
 *
 * `body` is the address of the bytes and `ports` that of their parcel. Who has taken such a message
 * reads `length` bytes at `body`, moves the ports out of varukoni_message_ports that it wants, and
 * gives the rest to varukoni_message_free. */
#define VARUKONI_MOST_PORTS 16
struct varukoni_parcel {
    struct varukoni_parcel *next;
    size_t port_count;
    size_t owners; /* how many messages are in it: more than one after a cast */
    /* then the ports, and then the bytes */
};

static inline struct varukoni_parcel *varukoni_parcel_of(const struct varukoni_message *message)
{
    return (struct varukoni_parcel *)message->ports;
}

static inline struct varukoni_port *varukoni_parcel_ports(struct varukoni_parcel *parcel)
{
    return (struct varukoni_port *)(parcel + 1);
}

/* The ports of a message that was taken, and how many they are. */
static inline struct varukoni_port *varukoni_message_ports(const struct varukoni_message *message,
                                                           size_t *count)
{
    *count = varukoni_parcel_of(message)->port_count;
    return varukoni_parcel_ports(varukoni_parcel_of(message));
}

/* Why a list of ports can't be sent over a port, or DONE. ITSELF: the port is in the list. PEER:
 * its peer is. HTML refuses the first, and dooms the second: the message is lost with its ports. */
static inline uint8_t varukoni_ports_check(struct varukoni_port *port, struct varukoni_port *sent,
                                           size_t count)
{
    uint64_t name, other;
    bool has_peer = false;
    if (count > VARUKONI_MOST_PORTS)
        return VARUKONI_PORT_TOO_MANY;
    if (varukoni_port_name(port, &name) != VARUKONI_PORT_DONE)
        return VARUKONI_PORT_WRONG_STATE;
    for (size_t i = 0; i < count; i++) {
        if (sent[i].at == port->at)
            return VARUKONI_PORT_ITSELF;
        if (varukoni_port_name(&sent[i], &other) != VARUKONI_PORT_DONE)
            return VARUKONI_PORT_WRONG_STATE;
        has_peer |= other == name;
    }
    return has_peer ? VARUKONI_PORT_PEER : VARUKONI_PORT_DONE;
}

/* A parcel with a copy of the bytes and room for ports, or NULL where there is no memory. */
static inline struct varukoni_parcel *varukoni_parcel_make(struct varukoni_message *message,
                                                           const void *bytes, size_t length,
                                                           size_t port_count)
{
    struct varukoni_parcel *parcel;
    size_t front = sizeof *parcel + port_count * sizeof(struct varukoni_port);
    if (length > (size_t)PTRDIFF_MAX - front)
        return NULL;
    parcel = (struct varukoni_parcel *)malloc(front + length);
    if (parcel == NULL)
        return NULL;
    parcel->next = NULL;
    parcel->port_count = port_count;
    parcel->owners = 1;
    message->body = &varukoni_parcel_ports(parcel)[port_count];
    message->length = length;
    message->ports = parcel;
    if (length > 0)
        memcpy(message->body, bytes, length);
    return parcel;
}

/* Takes so many owners from a parcel, and frees it with the last. */
static inline void varukoni_parcel_release(struct varukoni_parcel *parcel, size_t owners)
{
    if (__atomic_sub_fetch(&parcel->owners, owners, __ATOMIC_ACQ_REL) == 0)
        free(parcel);
}

/* Moves ports into a parcel: their tokens are taken back and forgotten. */
static inline void varukoni_parcel_load(struct varukoni_parcel *parcel, struct varukoni_port *sent)
{
    uint64_t old;
    for (size_t i = 0; i < parcel->port_count; i++) {
        varukoni_port_arm(&sent[i], 0, &old);
        varukoni_port_move(&varukoni_parcel_ports(parcel)[i], &sent[i]);
    }
}

/* Answers what a post did, and takes a parcel that wasn't sent apart again. */
static inline uint8_t varukoni_parcel_sent(struct varukoni_parcel *parcel,
                                           struct varukoni_port *sent, uint8_t status)
{
    if (status == VARUKONI_PORT_DONE)
        return status;
    for (size_t i = 0; i < parcel->port_count; i++)
        varukoni_port_move(&sent[i], &varukoni_parcel_ports(parcel)[i]);
    free(parcel);
    return status;
}

/* Posts a copy of the bytes and up to 16 ports, whose handles are closed then. At any other answer
 * than DONE nothing was sent, and the ports are as they were. A port that is sent keeps what waits
 * in it; its token is taken back and forgotten, so one that owns something is asked for before, by
 * varukoni_port_arm with 0. */
static inline uint8_t varukoni_port_send(struct varukoni_port *port, const void *bytes,
                                         size_t length, struct varukoni_port *sent, size_t count,
                                         uint64_t *wake)
{
    struct varukoni_parcel *parcel;
    struct varukoni_message message;
    uint8_t status = varukoni_ports_check(port, sent, count);
    if (status != VARUKONI_PORT_DONE)
        return status;
    parcel = varukoni_parcel_make(&message, bytes, length, count);
    if (parcel == NULL)
        return VARUKONI_PORT_NO_MEMORY;
    varukoni_parcel_load(parcel, sent);
    return varukoni_parcel_sent(parcel, sent, varukoni_port_post(port, &message, wake));
}

/* The same over a line of a fan. */
static inline uint8_t varukoni_poster_send(struct varukoni_poster *poster, const void *bytes,
                                           size_t length, struct varukoni_port *sent, size_t count,
                                           uint64_t *wake)
{
    struct varukoni_parcel *parcel;
    struct varukoni_message message;
    uint64_t name;
    if (count > VARUKONI_MOST_PORTS)
        return VARUKONI_PORT_TOO_MANY;
    for (size_t i = 0; i < count; i++)
        if (varukoni_port_name(&sent[i], &name) != VARUKONI_PORT_DONE)
            return VARUKONI_PORT_WRONG_STATE;
    parcel = varukoni_parcel_make(&message, bytes, length, count);
    if (parcel == NULL)
        return VARUKONI_PORT_NO_MEMORY;
    varukoni_parcel_load(parcel, sent);
    return varukoni_parcel_sent(parcel, sent, varukoni_poster_post(poster, &message, wake));
}

/* Casts one copy of the bytes, which all members that answer DONE share: they only read them, and
 * each gives its message to varukoni_message_free. The answers of varukoni_group_cast. */
static inline uint8_t varukoni_group_send(struct varukoni_group *group, uint64_t source,
                                          const void *bytes, size_t length,
                                          struct varukoni_answer *answers, size_t room)
{
    struct varukoni_parcel *parcel;
    struct varukoni_message message;
    size_t count, unsent = 1;
    uint8_t status = varukoni_group_count(group, &count);
    if (status != VARUKONI_PORT_DONE)
        return status;
    parcel = varukoni_parcel_make(&message, bytes, length, 0);
    if (parcel == NULL)
        return VARUKONI_PORT_NO_MEMORY;
    parcel->owners = count + 1;
    status = varukoni_group_cast(group, source, &message, answers, room);
    for (size_t i = 0; i < count; i++)
        unsent += status != VARUKONI_PORT_DONE || answers[i].status != VARUKONI_PORT_DONE;
    varukoni_parcel_release(parcel, unsent);
    return status;
}

/* Copies the front of a message's bytes into a room, and answers how many they are in all. */
static inline size_t varukoni_message_copy(const struct varukoni_message *message, void *room,
                                           size_t room_length)
{
    size_t front = message->length < room_length ? message->length : room_length;
    if (front > 0)
        memcpy(room, message->body, front);
    return message->length;
}

/* The ports of messages that nobody took: each is closed, and so are the ports of what waits there,
 * and so on, however deep they are nested, with no recursion and no memory. A list is one thread's;
 * all bytes zero but `wake` are an empty one. `wake` is called with each token that a close hands
 * out. */
struct varukoni_unclaimed {
    struct varukoni_parcel *first;
    void (*wake)(uint64_t token);
};

static inline void varukoni_unclaimed_wake(const struct varukoni_unclaimed *list, uint64_t token)
{
    if (token != 0 && list->wake != NULL)
        list->wake(token);
}

/* Frees what was handed back, or puts it into a list where it carries ports. */
static inline void varukoni_parcel_found(const struct varukoni_message *message,
                                         struct varukoni_parcel **found)
{
    struct varukoni_parcel *parcel = varukoni_parcel_of(message);
    if (parcel->port_count == 0) {
        varukoni_parcel_release(parcel, 1);
    } else {
        parcel->next = *found;
        *found = parcel;
    }
}

/* Closes a port, or goes on with a closed one, and discards what is handed back. ENDED: all was
 * handed back, and the handle is closed. EMPTY: call again, after the peer's next call. */
static inline uint8_t varukoni_port_discard(struct varukoni_port *port,
                                            struct varukoni_parcel **found,
                                            const struct varukoni_unclaimed *list)
{
    struct varukoni_message message;
    uint64_t own, peer;
    uint8_t status;
    if (varukoni_port_close(port, &own, &peer) == VARUKONI_PORT_DONE)
        varukoni_unclaimed_wake(list, peer);
    while ((status = varukoni_port_drain(port, &message)) == VARUKONI_PORT_DONE)
        varukoni_parcel_found(&message, found);
    if (status == VARUKONI_PORT_EMPTY)
        return VARUKONI_PORT_EMPTY;
    varukoni_port_drop(port);
    return VARUKONI_PORT_ENDED;
}

/* Discards all ports of these parcels. A parcel is freed once its ports are at their ends; until
 * then it stays in the list. */
static inline void varukoni_unclaimed_take(struct varukoni_unclaimed *list,
                                           struct varukoni_parcel *work)
{
    while (work != NULL) {
        struct varukoni_parcel *parcel = work;
        struct varukoni_port *ports = varukoni_parcel_ports(parcel);
        bool has_ended = true;
        work = parcel->next;
        for (size_t i = 0; i < parcel->port_count; i++)
            if (ports[i].is_open
                && varukoni_port_discard(&ports[i], &work, list) == VARUKONI_PORT_EMPTY)
                has_ended = false;
        if (has_ended) {
            free(parcel);
        } else {
            parcel->next = list->first;
            list->first = parcel;
        }
    }
}

/* Goes on with all ports that weren't at their ends. Answers whether some still aren't. */
static inline bool varukoni_unclaimed_sweep(struct varukoni_unclaimed *list)
{
    struct varukoni_parcel *work = list->first;
    list->first = NULL;
    varukoni_unclaimed_take(list, work);
    return list->first != NULL;
}

/* Frees a message that was taken, and discards the ports of it that weren't moved out. */
static inline void varukoni_message_free(struct varukoni_message *message,
                                         struct varukoni_unclaimed *list)
{
    struct varukoni_parcel *found = NULL;
    varukoni_parcel_found(message, &found);
    varukoni_unclaimed_take(list, found);
    message->body = NULL;
    message->ports = NULL;
}

/* Closes a port as varukoni_port_close does, and discards what waits there. ENDED: the handle is
 * closed; EMPTY: it isn't yet, so call again after the peer's next call, or drop it. */
static inline uint8_t varukoni_port_shut(struct varukoni_port *port,
                                         struct varukoni_unclaimed *list)
{
    struct varukoni_parcel *found = NULL;
    uint8_t status = varukoni_port_discard(port, &found, list);
    varukoni_unclaimed_take(list, found);
    return status;
}

/* The same for a fan, whose messages all are such as varukoni_poster_send and varukoni_group_send
 * make. */
static inline uint8_t varukoni_fan_shut(struct varukoni_fan *fan, struct varukoni_unclaimed *list)
{
    struct varukoni_message message;
    struct varukoni_parcel *found = NULL;
    uint64_t own;
    uint32_t line;
    uint8_t status;
    varukoni_fan_close(fan, &own);
    while ((status = varukoni_fan_drain(fan, &message, &line)) == VARUKONI_PORT_DONE)
        varukoni_parcel_found(&message, &found);
    varukoni_unclaimed_take(list, found);
    if (status == VARUKONI_PORT_EMPTY)
        return VARUKONI_PORT_EMPTY;
    varukoni_fan_drop(fan);
    return VARUKONI_PORT_ENDED;
}

#ifdef __linux__
/* Who sleeps until a token is handed out: the token is the address of this, which has to outlive
 * it. With an event's file descriptor, of eventfd(0, EFD_NONBLOCK), a loop of poll or epoll waits
 * for that; with -1 a thread waits in varukoni_park. */
struct varukoni_waker {
    uint32_t is_rung;
    int event;
};
#define VARUKONI_WAKER_INIT {0, -1}

static inline uint64_t varukoni_token(struct varukoni_waker *waker)
{
    return (uint64_t)(uintptr_t)waker;
}

/* Wakes whom a token names. 0 names nobody. */
static inline void varukoni_wake(uint64_t token)
{
    struct varukoni_waker *waker = (struct varukoni_waker *)(uintptr_t)token;
    uint64_t one = 1;
    if (waker == NULL || __atomic_exchange_n(&waker->is_rung, 1, __ATOMIC_SEQ_CST) != 0)
        return;
    if (waker->event < 0)
        syscall(SYS_futex, &waker->is_rung, FUTEX_WAKE_PRIVATE, 1, NULL, NULL, 0);
    else if (write(waker->event, &one, sizeof one) < 0)
        return; /* the event is set already */
}

/* Sleeps until the waker was rung since the last call. */
static inline void varukoni_park(struct varukoni_waker *waker)
{
    while (__atomic_exchange_n(&waker->is_rung, 0, __ATOMIC_SEQ_CST) == 0)
        syscall(SYS_futex, &waker->is_rung, FUTEX_WAIT_PRIVATE, 0, NULL, NULL, 0);
}

/* What a loop that waits for the event calls once that is readable, before it looks into its
 * ports. */
static inline void varukoni_waker_clear(struct varukoni_waker *waker)
{
    uint64_t count;
    if (read(waker->event, &count, sizeof count) < 0)
        count = 0;
    __atomic_store_n(&waker->is_rung, 0, __ATOMIC_SEQ_CST);
}

/* How often a thread looks before it sleeps. */
#define VARUKONI_LOOKS 10

/* Takes the next message of a port, and sleeps where there is none. The answers of
 * varukoni_port_take but for EMPTY. */
static inline uint8_t varukoni_port_await(struct varukoni_port *port,
                                          struct varukoni_message *message,
                                          struct varukoni_waker *waker)
{
    uint64_t old;
    uint8_t status;
    for (unsigned looks = 0;; looks++) {
        status = varukoni_port_take(port, message);
        if (status != VARUKONI_PORT_EMPTY)
            return status;
        if (looks < VARUKONI_LOOKS) {
            sched_yield();
            continue;
        }
        if (varukoni_port_arm(port, varukoni_token(waker), &old) == VARUKONI_PORT_EMPTY)
            varukoni_park(waker);
        varukoni_port_arm(port, 0, &old);
        looks = 0;
    }
}

/* The same for a fan: the answers of varukoni_fan_take but for EMPTY. */
static inline uint8_t varukoni_fan_await(struct varukoni_fan *fan,
                                         struct varukoni_message *message, uint32_t *line,
                                         struct varukoni_waker *waker)
{
    uint64_t old;
    uint8_t status;
    for (unsigned looks = 0;; looks++) {
        status = varukoni_fan_take(fan, message, line);
        if (status != VARUKONI_PORT_EMPTY)
            return status;
        if (looks < VARUKONI_LOOKS) {
            sched_yield();
            continue;
        }
        if (varukoni_fan_arm(fan, varukoni_token(waker), &old) == VARUKONI_PORT_EMPTY)
            varukoni_park(waker);
        varukoni_fan_arm(fan, 0, &old);
        looks = 0;
    }
}
#endif

#ifdef __cplusplus
}
#endif

#endif

/* Records what the agents of a hub put and got, as logs of docs/FORMATS.md (`hublog 3`).
 *
 *     struct hublog log;
 *     hublog_open(&log, "logs/agent-0.log", 0);
 *     hublog_put(&log, 1, 0, 0, 0, NULL, 0, "hello", 5);  // accepted at end 1, line 0, as 0:0
 *     hublog_finish(&log);
 *
 * `record/merge logs > run.log` joins the logs for `messagehub check`. For C11 and C++ on a POSIX
 * system; nothing is to be linked. Each agent has a file of its own, which must be new, and one
 * thread at a time writes there. An entry is in the file before the call returns: call hublog_put
 * before the message is handed over, and hublog_got before it is used. Where the hub refuses the
 * message then, hublog_take_back takes that last entry out again. The name of a message has to
 * travel with it: a receiver that counts can't see a drop. A hub without epochs has epoch 0 in
 * every name; its lines count over their whole life, and hublog_adopted says how often an end has
 * moved.
 *
 * Bodies are any bytes, and are written as a digest, by which a change is seen. hublog_finish
 * writes the last line, by which record/merge sees that the log is whole; another thread may call
 * it for an agent that was stopped. A call answers HUBLOG_DONE, or why nothing was written.
 */
#ifndef VARUKONI_HUBLOG_H
#define VARUKONI_HUBLOG_H

#include <errno.h>
#include <fcntl.h>
#include <stdbool.h>
#include <stddef.h>
#include <stdint.h>
#include <stdio.h>
#include <string.h>
#include <unistd.h>

enum hublog_answer {
    HUBLOG_DONE,
    HUBLOG_BAD_AGENT,    /* more than 15 */
    HUBLOG_BAD_END,      /* more than 65,535 */
    HUBLOG_BAD_LINE,     /* more than 31 */
    HUBLOG_BAD_EPOCH,    /* more than 65,535 */
    HUBLOG_BAD_NUMBER,   /* 2^62 or more */
    HUBLOG_BAD_PORTS,    /* more than 16, one of them twice, or one above 65,535 */
    HUBLOG_CLOSED_TWICE, /* this log has closed that end */
    HUBLOG_FINISHED,     /* the log is finished, or was never opened */
    HUBLOG_NOTHING,      /* the last entry was no put, or was taken back */
    HUBLOG_IO            /* errno says why; half of a line may stand in the file */
};

enum { HUBLOG_PORTS = 16, HUBLOG_ENDS = 65536, HUBLOG_LINE = 256 };

/* The log of one agent. */
struct hublog {
    int file;
    bool is_open;
    off_t size, before; /* of the file, now and before the last put; before is -1 where none is */
    uint8_t closed[HUBLOG_ENDS / 8];
};

static inline enum hublog_answer hublog_write(struct hublog *log, const char *line)
{
    size_t length = strlen(line), written = 0;
    if (!log->is_open)
        return HUBLOG_FINISHED;
    while (written < length) {
        ssize_t count = write(log->file, line + written, length - written);
        if (count < 0 && errno != EINTR)
            return HUBLOG_IO;
        written += count > 0 ? (size_t)count : 0;
    }
    /* A put alone can be taken back. */
    log->before = line[0] == 'p' ? log->size : -1;
    log->size += (off_t)length;
    return HUBLOG_DONE;
}

/* Begins the log of an agent, in a new file. */
static inline enum hublog_answer hublog_open(struct hublog *log, const char *path, unsigned agent)
{
    char line[HUBLOG_LINE];
    memset(log, 0, sizeof *log);
    if (agent > 15)
        return HUBLOG_BAD_AGENT;
    log->file = open(path, O_WRONLY | O_CREAT | O_EXCL | O_CLOEXEC, 0666);
    if (log->file < 0)
        return HUBLOG_IO;
    log->is_open = true;
    snprintf(line, sizeof line, "hublog 3\nagent %u\n", agent);
    return hublog_write(log, line);
}

/* `WORD E L EP:N` of an entry, to `line`. */
static inline enum hublog_answer hublog_place(char *line, size_t room, const char *word,
                                              uint32_t end, uint32_t on, uint32_t epoch,
                                              uint64_t number)
{
    if (end >= HUBLOG_ENDS)
        return HUBLOG_BAD_END;
    if (on > 31)
        return HUBLOG_BAD_LINE;
    if (epoch > 65535)
        return HUBLOG_BAD_EPOCH;
    if (number >> 62)
        return HUBLOG_BAD_NUMBER;
    snprintf(line, room, "%s %u %u %u:%llu", word, (unsigned)end, (unsigned)on, (unsigned)epoch,
             (unsigned long long)number);
    return HUBLOG_DONE;
}

/* ` LIST` of an entry, behind what `line` has. */
static inline enum hublog_answer hublog_list(char *line, size_t room, const uint32_t *ports,
                                             size_t count)
{
    size_t at = strlen(line);
    if (count > HUBLOG_PORTS)
        return HUBLOG_BAD_PORTS;
    if (count == 0)
        snprintf(line + at, room - at, " -");
    for (size_t i = 0; i < count; i++) {
        for (size_t j = 0; j < i; j++)
            if (ports[j] == ports[i])
                return HUBLOG_BAD_PORTS;
        if (ports[i] >= HUBLOG_ENDS)
            return HUBLOG_BAD_PORTS;
        at += (size_t)snprintf(line + at, room - at, "%c%u", i ? ',' : ' ', (unsigned)ports[i]);
    }
    return HUBLOG_DONE;
}

static inline enum hublog_answer hublog_message(struct hublog *log, const char *word, uint32_t end,
                                                uint32_t on, uint32_t epoch, uint64_t number,
                                                const uint32_t *ports, size_t count,
                                                const void *body, size_t length)
{
    char line[HUBLOG_LINE];
    const uint8_t *bytes = (const uint8_t *)body;
    uint64_t hash = 0xcbf29ce484222325u; /* FNV-1a */
    enum hublog_answer answer = hublog_place(line, sizeof line, word, end, on, epoch, number);
    if (answer == HUBLOG_DONE)
        answer = hublog_list(line, sizeof line, ports, count);
    if (answer != HUBLOG_DONE)
        return answer;
    for (size_t i = 0; i < length; i++)
        hash = (hash ^ bytes[i]) * 0x100000001b3u;
    size_t at = strlen(line);
    snprintf(line + at, sizeof line - at, " {\"digest\":\"fnv1a64 %016llx of %llu bytes\"}\n",
             (unsigned long long)hash, (unsigned long long)length);
    return hublog_write(log, line);
}

/* A message was accepted on a line of an end, under the name `epoch:number`. */
static inline enum hublog_answer hublog_put(struct hublog *log, uint32_t end, uint32_t on,
                                            uint32_t epoch, uint64_t number, const uint32_t *ports,
                                            size_t count, const void *body, size_t length)
{
    return hublog_message(log, "put", end, on, epoch, number, ports, count, body, length);
}

/* The put that was the last entry was refused by the hub: it is taken out of the file. */
static inline enum hublog_answer hublog_take_back(struct hublog *log)
{
    if (!log->is_open)
        return HUBLOG_FINISHED;
    if (log->before < 0)
        return HUBLOG_NOTHING;
    if (ftruncate(log->file, log->before) != 0 || lseek(log->file, log->before, SEEK_SET) < 0)
        return HUBLOG_IO;
    log->size = log->before;
    log->before = -1;
    return HUBLOG_DONE;
}

/* A message was delivered, under the name that travelled with it. */
static inline enum hublog_answer hublog_got(struct hublog *log, uint32_t end, uint32_t on,
                                            uint32_t epoch, uint64_t number, const uint32_t *ports,
                                            size_t count, const void *body, size_t length)
{
    return hublog_message(log, "got", end, on, epoch, number, ports, count, body, length);
}

static inline enum hublog_answer hublog_notice(struct hublog *log, const char *word, uint32_t end,
                                               uint32_t on, uint32_t epoch, uint64_t number)
{
    char line[HUBLOG_LINE];
    enum hublog_answer answer = hublog_place(line, sizeof line, word, end, on, epoch, number);
    if (answer != HUBLOG_DONE)
        return answer;
    strcat(line, " notice\n");
    return hublog_write(log, line);
}

/* The last message of a line was accepted: it says that nothing more comes there. */
static inline enum hublog_answer hublog_put_notice(struct hublog *log, uint32_t end, uint32_t on,
                                                   uint32_t epoch, uint64_t number)
{
    return hublog_notice(log, "put", end, on, epoch, number);
}

/* The last message of a line was delivered. */
static inline enum hublog_answer hublog_got_notice(struct hublog *log, uint32_t end, uint32_t on,
                                                   uint32_t epoch, uint64_t number)
{
    return hublog_notice(log, "got", end, on, epoch, number);
}

/* The agent adopted an end, whose newest queue is `epoch`. */
static inline enum hublog_answer hublog_adopted(struct hublog *log, uint32_t end, uint32_t epoch)
{
    char line[HUBLOG_LINE];
    if (end >= HUBLOG_ENDS)
        return HUBLOG_BAD_END;
    if (epoch > 65535)
        return HUBLOG_BAD_EPOCH;
    snprintf(line, sizeof line, "adopted %u %u\n", (unsigned)end, (unsigned)epoch);
    return hublog_write(log, line);
}

/* The agent closed an end. */
static inline enum hublog_answer hublog_closed(struct hublog *log, uint32_t end)
{
    char line[HUBLOG_LINE];
    if (end >= HUBLOG_ENDS)
        return HUBLOG_BAD_END;
    if (log->closed[end / 8] >> end % 8 & 1)
        return HUBLOG_CLOSED_TWICE;
    snprintf(line, sizeof line, "closed %u\n", (unsigned)end);
    enum hublog_answer answer = hublog_write(log, line);
    if (answer == HUBLOG_DONE)
        log->closed[end / 8] |= (uint8_t)(1u << end % 8);
    return answer;
}

/* Writes the last line: the log is whole. More calls of it do nothing. */
static inline enum hublog_answer hublog_finish(struct hublog *log)
{
    if (!log->is_open)
        return HUBLOG_DONE;
    enum hublog_answer answer = hublog_write(log, "deliveries\n");
    log->is_open = false;
    if (close(log->file) != 0 && answer == HUBLOG_DONE)
        answer = HUBLOG_IO;
    return answer;
}

#endif

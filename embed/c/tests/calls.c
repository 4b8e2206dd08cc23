/* Calls of the library, for tests/test_embed.py. A word says what is done with standard input:
 *
 *   lines     runs its text lines one after the other, and prints what `messagehub steps` would
 *   steps, check, script    gives it as a whole to that call, and prints what that says
 *   refuse    runs its text lines in a new hub with the first allocation refused, then with the
 *             second, and so on; each line is to be answered as the header says
 *   threads   four threads run them in hubs of their own, again and again
 *
 * The exit status is that of the call, or 99 where the library breaks its word; then standard
 * error says why.
 */
#include "varukoni.h"

#include <pthread.h>
#include <stdio.h>
#include <stdlib.h>
#include <string.h>

enum { BROKEN = 99, THREADS = 4, TURNS = 50, SMALL = 7 };

struct text {
    uint8_t *at;
    size_t length, size;
};

static void fail(const char *why) {
    fprintf(stderr, "calls: %s\n", why);
    exit(BROKEN);
}

/* What refuses an allocation: the linker puts these in the place of malloc and realloc (--wrap). */
static _Thread_local unsigned long left;
static _Thread_local int is_refused;
void *__real_malloc(size_t size);
void *__real_realloc(void *block, size_t size);

static int refuses(void) {
    if (left == 0 || --left != 0) return 0;
    is_refused = 1;
    return 1;
}

void *__wrap_malloc(size_t size) {
    return refuses() ? NULL : __real_malloc(size);
}

void *__wrap_realloc(void *block, size_t size) {
    return refuses() ? NULL : __real_realloc(block, size);
}

static void put(struct text *text, const uint8_t *bytes, size_t length) {
    if (text->length + length > text->size) {
        text->size = 2 * (text->length + length) + 4096;
        text->at = __real_realloc(text->at, text->size);
        if (!text->at) fail("no memory");
    }
    if (length) memcpy(text->at + text->length, bytes, length);
    text->length += length;
}

static struct text input(void) {
    struct text all = {0};
    uint8_t piece[1 << 16];
    size_t length;
    while ((length = fread(piece, 1, sizeof piece, stdin)) > 0) put(&all, piece, length);
    return all;
}

/* The text line that begins there, without its LF, and where the next one begins. */
static size_t line_at(const struct text *all, size_t at, size_t *next) {
    const uint8_t *end = memchr(all->at + at, '\n', all->length - at);
    size_t length = end ? (size_t)(end - all->at) - at : all->length - at;
    *next = end ? at + length + 1 : all->length;
    return length;
}

/* Puts what was said last behind the text. A room that is too small loses nothing. */
static void put_said(struct varukoni_hub *hub, struct text *said) {
    uint8_t small[SMALL];
    size_t length, again;
    if (varukoni_said(hub, small, sizeof small, &length) != VARUKONI_DONE) fail("said: no answer");
    uint8_t *room = __real_malloc(length + 1);
    room[length] = 0xA5;
    if (varukoni_said(hub, room, length, &again) != VARUKONI_DONE) fail("said: no second answer");
    if (again != length) fail("said: another length");
    if (room[length] != 0xA5) fail("said: more than the room");
    if (memcmp(small, room, length < SMALL ? length : SMALL) != 0) fail("said: another text");
    put(said, room, length);
    free(room);
}

/* Gives a line to the hub, and puts what it says behind the text. */
static uint8_t give(struct varukoni_hub *hub, const uint8_t *line, size_t line_length,
                    struct text *said) {
    uint8_t room[4096];
    size_t length = 0;
    uint8_t answer = varukoni_line(hub, line, line_length, room, sizeof room, &length);
    int is_said = answer == VARUKONI_DONE || answer == VARUKONI_BAD;
    if (!is_said && length != 0) fail("line: a length without a text");
    if (is_said && length > sizeof room) put_said(hub, said);
    if (is_said && length <= sizeof room) put(said, room, length);
    return answer;
}

/* `messagehub steps`: the first bad line is told alone. */
static int run_lines(const struct text *all, struct text *said) {
    struct varukoni_hub hub = VARUKONI_HUB_CLOSED;
    size_t number = 0;
    int status = VARUKONI_DONE;
    if (give(&hub, all->at, 0, said) != VARUKONI_WRONG_STATE) fail("line: a closed hub");
    if (varukoni_open(&hub) != VARUKONI_DONE || !hub.is_open) fail("open");
    if (varukoni_open(&hub) != VARUKONI_WRONG_STATE || !hub.is_open) fail("open: an open hub");
    for (size_t at = 0, next; at < all->length && status == VARUKONI_DONE; at = next) {
        size_t before = said->length, length = line_at(all, at, &next);
        number++;
        status = give(&hub, all->at + at, length, said);
        if (status == VARUKONI_BAD) {
            char head[64];
            struct text bad = {0};
            put(&bad, (uint8_t *)head, (size_t)snprintf(head, sizeof head, "line %zu: ", number));
            put(&bad, said->at + before, said->length - before);
            put(&bad, (const uint8_t *)"\n", 1);
            said->length = 0;
            put(said, bad.at, bad.length);
            free(bad.at);
        }
    }
    varukoni_close(&hub);
    varukoni_close(&hub);
    if (hub.is_open || hub.at) fail("close");
    return status;
}

typedef uint8_t whole_call(const uint8_t *, size_t, uint8_t *, size_t, size_t *);

static int run_whole(whole_call *call, const struct text *all, struct text *said) {
    uint8_t small[SMALL];
    size_t length = 0, again = 0;
    uint8_t status = call(all->at, all->length, small, sizeof small, &length);
    if (status == VARUKONI_NO_ROOM) fail("no room, with no allocation refused");
    uint8_t *room = __real_malloc(length + 1);
    if (call(all->at, all->length, room, length, &again) != status || again != length) {
        fail("another answer of the same text");
    }
    put(said, room, length);
    free(room);
    return status;
}

/* Gives a line again where nothing was changed, and asks for what found no memory. */
static uint8_t give_refused(struct varukoni_hub *hub, const uint8_t *line, size_t length,
                            struct text *said, unsigned long counts[7]) {
    size_t before = said->length;
    uint8_t answer = give(hub, line, length, said);
    counts[answer]++;
    if (answer == VARUKONI_NO_MEMORY) {
        if (said->length != before) fail("no memory, and a text");
        answer = give(hub, line, length, said);
        if (answer == VARUKONI_NO_MEMORY) fail("no memory, with no allocation refused");
    } else if (answer == VARUKONI_NO_ROOM) {
        put_said(hub, said);
        answer = VARUKONI_DONE;
    }
    return answer;
}

static void run_refusing(const struct text *all, unsigned long number, struct text *said,
                         int *is_lost, unsigned long counts[7]) {
    struct varukoni_hub hub = VARUKONI_HUB_CLOSED;
    left = number;
    is_refused = *is_lost = 0;
    uint8_t answer = varukoni_open(&hub);
    if (answer == VARUKONI_NO_MEMORY) {
        if (hub.is_open || varukoni_open(&hub) != VARUKONI_DONE) fail("open: not again");
    } else if (answer != VARUKONI_DONE) {
        fail("open");
    }
    for (size_t at = 0, next; at < all->length; at = next) {
        size_t length = line_at(all, at, &next);
        answer = give_refused(&hub, all->at + at, length, said, counts);
        if (*is_lost && answer != VARUKONI_LOST) fail("lost, and then not");
        if (answer == VARUKONI_LOST) *is_lost = 1;
        if (answer == VARUKONI_BAD || answer == VARUKONI_WRONG_STATE) {
            fail("a good line is refused");
        }
    }
    left = 0;
    varukoni_close(&hub);
}

static int refuse_each(const struct text *all) {
    struct text wanted = {0};
    unsigned long counts[7] = {0}, number = 0, lost = 0;
    int is_lost;
    run_refusing(all, 0, &wanted, &is_lost, counts);
    memset(counts, 0, sizeof counts);
    for (is_refused = 1; is_refused;) {
        struct text said = {0};
        run_refusing(all, ++number, &said, &is_lost, counts);
        lost += (unsigned long)is_lost;
        /* What was said is a beginning of the text, and all of it where the hub wasn't lost. */
        if (said.length > wanted.length || memcmp(said.at, wanted.at, said.length) != 0) {
            fail("another text");
        }
        if (!is_lost && said.length != wanted.length) fail("a shorter text");
        free(said.at);
    }
    printf("%lu refused, %lu given again, %lu told later, %lu lost\n", number - 1,
           counts[VARUKONI_NO_MEMORY], counts[VARUKONI_NO_ROOM], lost);
    free(wanted.at);
    return 0;
}

struct task {
    const struct text *all, *wanted;
    unsigned long lines;
};

static void *run_task(void *argument) {
    struct task *task = argument;
    for (int turn = 0; turn < TURNS; turn++) {
        struct text said = {0};
        if (run_lines(task->all, &said) != VARUKONI_DONE) fail("threads: a status");
        if (said.length != task->wanted->length) fail("threads: another length");
        if (memcmp(said.at, task->wanted->at, said.length) != 0) fail("threads: another text");
        for (size_t at = 0; at < said.length; at++) task->lines += said.at[at] == '\n';
        free(said.at);
    }
    return NULL;
}

static int run_threads(const struct text *all) {
    struct text wanted = {0};
    struct task tasks[THREADS];
    pthread_t threads[THREADS];
    unsigned long lines = 0;
    if (run_lines(all, &wanted) != VARUKONI_DONE) fail("threads: a bad text");
    for (int at = 0; at < THREADS; at++) {
        tasks[at] = (struct task){all, &wanted, 0};
        if (pthread_create(&threads[at], NULL, run_task, &tasks[at])) fail("threads: none made");
    }
    for (int at = 0; at < THREADS; at++) {
        pthread_join(threads[at], NULL);
        lines += tasks[at].lines;
    }
    printf("%lu lines\n", lines);
    free(wanted.at);
    return 0;
}

int main(int count, char **words) {
    const char *what = count == 2 ? words[1] : "";
    struct text all = input(), said = {0};
    int status = BROKEN;
    if (varukoni_version() != VARUKONI_VERSION) fail("another version");
    /* No pointer is null, also where its length is 0. */
    if (!all.at) all.at = __real_malloc(1);
    if (strcmp(what, "lines") == 0) status = run_lines(&all, &said);
    if (strcmp(what, "steps") == 0) status = run_whole(varukoni_steps, &all, &said);
    if (strcmp(what, "check") == 0) status = run_whole(varukoni_check, &all, &said);
    if (strcmp(what, "script") == 0) status = run_whole(varukoni_script, &all, &said);
    if (strcmp(what, "refuse") == 0) status = refuse_each(&all);
    if (strcmp(what, "threads") == 0) status = run_threads(&all);
    if (said.length) fwrite(said.at, 1, said.length, stdout);
    free(said.at);
    free(all.at);
    return status;
}

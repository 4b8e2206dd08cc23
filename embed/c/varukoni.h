/* Varukoni's hub in a C or C++ program: step lines in, outcome lines out, with no thread, no file
 * and no lock. docs/EMBEDDING.md tells how to build it, docs/FORMATS.md has the step lines.
 *
 * It is proved of each function that it is safe and returns, and that what it answers is right (the
 * contracts stand in crates/hub_c/src), if its caller does what is asked here. Nothing checks the
 * caller.
 *
 * Memory    The caller owns each `struct varukoni_hub` and all buffers. A call keeps nothing of
 *           what it is passed but the hub's own memory, which varukoni_close gives back. The
 *           library takes memory by malloc and realloc of the program and gives it back by free:
 *           these have to be one allocator, whose blocks are aligned to each power of two up to 16
 *           that divides their size. Memory may run out at any call that says so below; no call
 *           ends the program.
 * Buffers   A pointer is never null, also where its length is 0. A length is below 2^63. What a
 *           call writes (`hub`, `room`, `length`) overlaps nothing else that it is passed.
 * Threads   One call at a time for one hub. Calls for different hubs may run at once, and so may
 *           varukoni_steps, varukoni_check and varukoni_script. A hub may be used by another
 *           thread where the calls are ordered by a lock, or by the start or the join of a thread.
 *           No call from a signal handler, nor in the child of a fork of a program with threads.
 * Stack     A call takes less than 256 KiB.
 */
#ifndef VARUKONI_H
#define VARUKONI_H

#include <stdbool.h>
#include <stddef.h>
#include <stdint.h>

#ifdef __cplusplus
extern "C" {
#endif

/* A hub. All bytes zero are a closed one. A program may read `is_open`, and writes neither field.
 * An open hub is not copied and used twice. It may move: `at` points to memory of the library. */
struct varukoni_hub {
    void *at;
    bool is_open;
};
#define VARUKONI_HUB_CLOSED {0, false}

/* What calls answer. */
enum {
    VARUKONI_DONE = 0,        /* done: the line was run, the logs are clean, the script is good */
    VARUKONI_FAULT = 1,       /* varukoni_check: the logs have a fault */
    VARUKONI_BAD = 2,         /* bad input: nothing was run, and `room` says what is wrong */
    VARUKONI_NO_MEMORY = 3,   /* memory ran out and nothing was changed: call again */
    VARUKONI_NO_ROOM = 4,     /* memory ran out for what is said: see each call */
    VARUKONI_WRONG_STATE = 5, /* the hub is closed and should be open, or the other way round */
    VARUKONI_LOST = 6         /* memory ran out within the steps of a line: close the hub */
};

/* The interface that this header describes. varukoni_version() of the library has its number. */
#define VARUKONI_VERSION 1
uint32_t varukoni_version(void);

/* Opens a closed hub, which has run nothing. DONE; NO_MEMORY; WRONG_STATE, and an open hub is as it
 * was. */
uint8_t varukoni_open(struct varukoni_hub *hub);

/* Closes a hub and gives back its memory. A closed one stays closed. */
void varukoni_close(struct varukoni_hub *hub);

/* Runs one step line, which comes without its LF, after all those before it.
 *
 * DONE         `room` has the outcome line with its LF
 * BAD          it is no step line: `room` has the name of the first test that it fails, with no LF
 * NO_MEMORY    nothing was changed: the line may be given again
 * NO_ROOM      the line was run; its outcome line found no memory, and varukoni_said gives it later
 * WRONG_STATE  the hub is closed
 * LOST         memory ran out within this line, which takes several steps, or within an earlier
 *              one. Some steps may have been taken. Each later line is answered so too
 *
 * At DONE and BAD `*length` is the length of the whole text, of which `room` has as much as it has
 * room for, and varukoni_said gives it again. At any other status `room` and `*length` are as they
 * were. The outcome line of a delivery is below 262,500 bytes; those of `sweep` and `cast` grow
 * with the number of envelopes and channels. Where it is `not-now`, print the lines so far into a
 * file: `tools/why FILE` says which test failed. */
uint8_t varukoni_line(struct varukoni_hub *hub, const uint8_t *line, size_t line_length,
                      uint8_t *room, size_t room_length, size_t *length);

/* Puts what the last line was answered with, that was run or bad, into `room` once more. DONE;
 * NO_MEMORY, only where that line was answered NO_ROOM, and then it may be asked again;
 * WRONG_STATE. */
uint8_t varukoni_said(struct varukoni_hub *hub, uint8_t *room, size_t room_length, size_t *length);

/* `messagehub steps` and `messagehub check` of a whole input: `room` has what they print, as far as
 * there is room, `*length` is the length of all that, and the answer is their exit status. There
 * NO_MEMORY means that the text ends with the line `out of memory`. At NO_ROOM there was no memory
 * for the text, and `room` and `*length` are as they were. */
uint8_t varukoni_steps(const uint8_t *input, size_t input_length, uint8_t *room,
                       size_t room_length, size_t *length);
uint8_t varukoni_check(const uint8_t *input, size_t input_length, uint8_t *room,
                       size_t room_length, size_t *length);

/* Reads a script as `messagehub run` does before it runs one. DONE, and no text; BAD, and `room`
 * has `line N: KIND` of the first bad line with its LF; NO_MEMORY and NO_ROOM as above. */
uint8_t varukoni_script(const uint8_t *input, size_t input_length, uint8_t *room,
                        size_t room_length, size_t *length);

#ifdef __cplusplus
}
#endif

#endif

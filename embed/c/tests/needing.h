/* What the tests of the ports share: facts that end a program where one doesn't hold, and messages
 * that have a number. */
#include "varukoni_ports.h"

#include <stdio.h>

enum { BROKEN = 99 };

#define NEED(what)                                                              \
    do {                                                                        \
        if (!(what)) {                                                          \
            fprintf(stderr, "%s: line %d: %s\n", __FILE__, __LINE__, #what);    \
            exit(BROKEN);                                                       \
        }                                                                       \
        needed++;                                                               \
    } while (0)
static _Thread_local unsigned long needed;

static inline struct varukoni_message numbered(uint64_t number) {
    struct varukoni_message message = {NULL, (size_t)number, NULL};
    return message;
}

/* Runs the step lines of standard input one by one, and prints their outcome lines at the end. */
#include "varukoni.h"

#include <stdio.h>
#include <stdlib.h>
#include <string.h>

struct text {
    uint8_t *at;
    size_t length, size;
};

static void room_for(struct text *text, size_t more) {
    if (text->length + more <= text->size) return;
    text->size = 2 * (text->length + more);
    text->at = realloc(text->at, text->size);
    if (!text->at) exit(3);
}

int main(void) {
    struct text all = {0}, said = {0};
    struct varukoni_hub hub = VARUKONI_HUB_CLOSED;
    size_t length;
    do {
        room_for(&all, 1 << 16);
        length = fread(all.at + all.length, 1, 1 << 16, stdin);
        all.length += length;
    } while (length > 0);
    if (varukoni_open(&hub) != VARUKONI_DONE) return 3;
    for (uint8_t *at = all.at, *end = all.at + all.length; at < end;) {
        uint8_t *next = memchr(at, '\n', (size_t)(end - at));
        if (!next) next = end;
        room_for(&said, 4096);
        uint8_t answer = varukoni_line(&hub, at, (size_t)(next - at), said.at + said.length,
                                       said.size - said.length, &length);
        if (answer != VARUKONI_DONE || length > said.size - said.length) return 2;
        said.length += length;
        at = next + 1;
    }
    varukoni_close(&hub);
    return fwrite(said.at, 1, said.length, stdout) != said.length;
}

/* The step lines of examples/first.steps and their outcome lines, from a C program. */
#include "varukoni.h"

#include <stdio.h>
#include <string.h>

int main(void) {
    const char *lines[] = {"agent -", "channel 0", "post 0 - {\"a\":1}", "start 1", "take 1"};
    struct varukoni_hub hub = VARUKONI_HUB_CLOSED;
    if (varukoni_open(&hub) != VARUKONI_DONE) return 1;
    for (size_t i = 0; i < sizeof lines / sizeof *lines; i++) {
        uint8_t room[4096];
        size_t length;
        uint8_t answer = varukoni_line(&hub, (const uint8_t *)lines[i], strlen(lines[i]), room,
                                       sizeof room, &length);
        if (answer != VARUKONI_DONE) return 1;
        fwrite(room, 1, length, stdout);
    }
    varukoni_close(&hub);
    return 0;
}

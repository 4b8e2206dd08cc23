/* Calls record/hublog.h, for tests/test_record.py: one log with each entry, and each refusal.
 *
 * usage: hublog FOLDER
 *
 * It prints how many answers were right, and ends with 99 at the first that isn't.
 */
#include "hublog.h"

#include <stdlib.h>

#define ANSWERS(right, call)                                                   \
    do {                                                                       \
        enum hublog_answer answer = (call);                                    \
        if (answer != (right)) {                                               \
            fprintf(stderr, "hublog: line %d: %d\n", __LINE__, (int)answer);   \
            exit(99);                                                          \
        }                                                                      \
        count++;                                                               \
    } while (0)
static int count;

static struct hublog whole, other;

/* Each refusal: the entry before it stays the last one. */
static void refusals(void) {
    const uint32_t twice[2] = {4, 4}, far_off[1] = {65536};
    uint32_t many[17];
    for (uint32_t k = 0; k < 17; k++) many[k] = k;
    ANSWERS(HUBLOG_BAD_END, hublog_put(&whole, 65536, 0, 0, 0, NULL, 0, "", 0));
    ANSWERS(HUBLOG_BAD_LINE, hublog_put(&whole, 0, 32, 0, 0, NULL, 0, "", 0));
    ANSWERS(HUBLOG_BAD_EPOCH, hublog_got(&whole, 0, 0, 65536, 0, NULL, 0, "", 0));
    ANSWERS(HUBLOG_BAD_NUMBER, hublog_got(&whole, 0, 0, 0, 1ull << 62, NULL, 0, "", 0));
    ANSWERS(HUBLOG_BAD_PORTS, hublog_put(&whole, 0, 0, 0, 0, twice, 2, "", 0));
    ANSWERS(HUBLOG_BAD_PORTS, hublog_put(&whole, 0, 0, 0, 0, far_off, 1, "", 0));
    ANSWERS(HUBLOG_BAD_PORTS, hublog_put(&whole, 0, 0, 0, 0, many, 17, "", 0));
    ANSWERS(HUBLOG_BAD_LINE, hublog_put_notice(&whole, 0, 32, 0, 0));
    ANSWERS(HUBLOG_BAD_END, hublog_adopted(&whole, 65536, 0));
    ANSWERS(HUBLOG_BAD_EPOCH, hublog_adopted(&whole, 0, 65536));
    ANSWERS(HUBLOG_BAD_END, hublog_closed(&whole, 65536));
}

int main(int words, char **word) {
    char path[4096];
    uint32_t ports[16];
    if (words != 2) return 2;
    for (uint32_t k = 0; k < 16; k++) ports[k] = 65535 - k;
    ANSWERS(HUBLOG_FINISHED, hublog_put(&whole, 0, 0, 0, 0, NULL, 0, "", 0));
    ANSWERS(HUBLOG_FINISHED, hublog_take_back(&whole));
    snprintf(path, sizeof path, "%s/agent-15.log", word[1]);
    ANSWERS(HUBLOG_BAD_AGENT, hublog_open(&whole, path, 16));
    ANSWERS(HUBLOG_DONE, hublog_open(&whole, path, 15));
    ANSWERS(HUBLOG_IO, hublog_open(&other, path, 0));
    ANSWERS(HUBLOG_NOTHING, hublog_take_back(&whole));
    ANSWERS(HUBLOG_DONE, hublog_put(&whole, 1, 0, 0, 0, NULL, 0, "", 0));
    ANSWERS(HUBLOG_DONE, hublog_put(&whole, 1, 0, 0, 1, ports, 16, "a", 1));
    refusals();
    ANSWERS(HUBLOG_DONE, hublog_take_back(&whole));
    ANSWERS(HUBLOG_NOTHING, hublog_take_back(&whole));
    ANSWERS(HUBLOG_DONE, hublog_put(&whole, 1, 0, 0, 1, ports, 2, "foobar", 6));
    ANSWERS(HUBLOG_DONE, hublog_put_notice(&whole, 1, 0, 0, 2));
    ANSWERS(HUBLOG_DONE, hublog_take_back(&whole));
    ANSWERS(HUBLOG_DONE, hublog_put_notice(&whole, 1, 0, 0, 2));
    ANSWERS(HUBLOG_DONE, hublog_got(&whole, 1, 0, 0, 0, NULL, 0, "", 0));
    ANSWERS(HUBLOG_NOTHING, hublog_take_back(&whole));
    ANSWERS(HUBLOG_DONE, hublog_adopted(&whole, 65535, 65535));
    ANSWERS(HUBLOG_DONE, hublog_got(&whole, 1, 0, 0, 1, ports, 2, "foobar", 6));
    ANSWERS(HUBLOG_DONE, hublog_got_notice(&whole, 1, 0, 0, 2));
    ANSWERS(HUBLOG_DONE, hublog_closed(&whole, 1));
    ANSWERS(HUBLOG_CLOSED_TWICE, hublog_closed(&whole, 1));
    ANSWERS(HUBLOG_DONE, hublog_finish(&whole));
    ANSWERS(HUBLOG_DONE, hublog_finish(&whole));
    ANSWERS(HUBLOG_FINISHED, hublog_closed(&whole, 2));
    printf("answers: %d\n", count);
    return 0;
}

/* Calls of fans and groups on one thread, for tests/test_embed_ports.py. A word says which:
 *
 *   answers   each call on closed handles and on handles of another kind; lines that are opened,
 *             asked in turn, given back and used again; a fan that is closed; a group's casts
 *   refuse    a scenario with the first allocation refused, then with the second, and so on
 *
 * It prints how much it did. The exit status is 99 where the library breaks its word; then standard
 * error says where.
 */
#include "refusing.h"

enum { LINES = VARUKONI_FAN_LINES };

static void post(struct varukoni_poster *poster, size_t number) {
    struct varukoni_message message = numbered(number);
    uint64_t wake;
    NEED(varukoni_poster_post(poster, &message, &wake) == VARUKONI_PORT_DONE && wake == 0);
}

/* The next message is this one, of that line. */
static void gives(struct varukoni_fan *fan, uint32_t line, size_t number) {
    struct varukoni_message message = numbered(number + 1);
    uint32_t gave = 99;
    NEED(varukoni_fan_take(fan, &message, &gave) == VARUKONI_PORT_DONE);
    NEED(gave == line && message.length == number);
}

static void answers_otherwise(struct varukoni_fan *fan, uint8_t status) {
    struct varukoni_message message = numbered(7);
    uint32_t line = 99;
    NEED(varukoni_fan_take(fan, &message, &line) == status && line == 99 && message.length == 7);
}

static void ends(struct varukoni_fan *fan, uint32_t line) {
    struct varukoni_message message = numbered(7);
    uint32_t ended = 99;
    NEED(varukoni_fan_take(fan, &message, &ended) == VARUKONI_PORT_ENDED);
    NEED(ended == line && message.length == 7);
}

/* Each call at handles that it isn't for: the answer is WRONG_STATE, and nothing is written. */
static void is_no_fan(struct varukoni_fan *fan) {
    struct varukoni_poster poster = VARUKONI_PORT_INIT;
    struct varukoni_message message = numbered(7);
    uint64_t one = 8;
    uint32_t line = 9;
    NEED(varukoni_fan_line(fan, &poster, &line) == VARUKONI_PORT_WRONG_STATE);
    NEED(varukoni_fan_start(fan) == VARUKONI_PORT_WRONG_STATE);
    NEED(varukoni_fan_take(fan, &message, &line) == VARUKONI_PORT_WRONG_STATE);
    NEED(varukoni_fan_arm(fan, 1, &one) == VARUKONI_PORT_WRONG_STATE);
    NEED(varukoni_fan_close(fan, &one) == VARUKONI_PORT_WRONG_STATE);
    NEED(one == 8 && line == 9 && message.length == 7 && !poster.is_open);
}

static void is_no_poster(struct varukoni_poster *poster) {
    struct varukoni_message message = numbered(7);
    uint64_t one = 8;
    NEED(varukoni_poster_post(poster, &message, &one) == VARUKONI_PORT_WRONG_STATE);
    NEED(varukoni_poster_close(poster, &one) == VARUKONI_PORT_WRONG_STATE && one == 8);
}

static void is_no_group(struct varukoni_group *group, struct varukoni_poster *poster) {
    struct varukoni_message message = numbered(7);
    struct varukoni_answer answers[1] = {{5, 6, 7}};
    uint64_t one = 8;
    size_t count = 9;
    bool is_open = poster->is_open;
    NEED(varukoni_group_join(group, poster, &one) == VARUKONI_PORT_WRONG_STATE);
    NEED(varukoni_group_count(group, &count) == VARUKONI_PORT_WRONG_STATE);
    NEED(varukoni_group_cast(group, 0, &message, answers, 1) == VARUKONI_PORT_WRONG_STATE);
    NEED(varukoni_group_leave(group, 1, &one) == VARUKONI_PORT_WRONG_STATE);
    NEED(one == 8 && count == 9 && answers[0].member == 5 && answers[0].wake == 6);
    NEED(answers[0].status == 7 && poster->is_open == is_open);
}

/* A handle of another kind, as C can pass it by a cast alone. */
static void kinds(void) {
    struct varukoni_fan fan = VARUKONI_PORT_INIT;
    struct varukoni_poster poster = VARUKONI_PORT_INIT, none = VARUKONI_PORT_INIT;
    struct varukoni_group group = VARUKONI_PORT_INIT;
    struct varukoni_message message;
    uint32_t line;
    uint64_t own;
    is_no_fan(&fan), is_no_poster(&poster), is_no_group(&group, &poster);
    NEED(varukoni_fan_drain(&fan, &message, &line) == VARUKONI_PORT_WRONG_STATE);
    NEED(varukoni_fan_open(&fan) == VARUKONI_PORT_DONE);
    NEED(varukoni_fan_open(&fan) == VARUKONI_PORT_WRONG_STATE);
    NEED(varukoni_fan_line(&fan, &poster, &line) == VARUKONI_PORT_DONE && line == 0);
    NEED(varukoni_fan_line(&fan, &poster, &line) == VARUKONI_PORT_WRONG_STATE);
    NEED(varukoni_group_open(&group) == VARUKONI_PORT_DONE);
    NEED(varukoni_group_open(&group) == VARUKONI_PORT_WRONG_STATE);
    is_no_fan((struct varukoni_fan *)&poster), is_no_fan((struct varukoni_fan *)&group);
    is_no_poster((struct varukoni_poster *)&fan), is_no_poster((struct varukoni_poster *)&group);
    is_no_group((struct varukoni_group *)&fan, &poster);
    NEED(varukoni_group_join(&group, &none, &own) == VARUKONI_PORT_WRONG_STATE);
    NEED(varukoni_group_join(&group, (struct varukoni_poster *)&fan, &own)
         == VARUKONI_PORT_WRONG_STATE);
    NEED(varukoni_fan_drain(&fan, &message, &line) == VARUKONI_PORT_WRONG_STATE && fan.is_open);
    NEED(varukoni_fan_close(&fan, &own) == VARUKONI_PORT_DONE && own == 0);
    is_no_fan(&fan);
    varukoni_fan_drop(&fan), varukoni_group_drop(&group);
    NEED(varukoni_poster_close(&poster, &own) == VARUKONI_PORT_DONE && !poster.is_open);
    varukoni_fan_drop(&fan), varukoni_group_drop(&group);
    NEED(!fan.is_open && !group.is_open && taken == 0);
}

static void lines(void) {
    struct varukoni_fan fan = VARUKONI_PORT_INIT;
    struct varukoni_poster posters[LINES] = {VARUKONI_PORT_INIT}, more = VARUKONI_PORT_INIT;
    uint32_t line = 99;
    uint64_t wake;
    NEED(varukoni_fan_open(&fan) == VARUKONI_PORT_DONE);
    for (uint32_t n = 0; n < LINES; n++)
        NEED(varukoni_fan_line(&fan, &posters[n], &line) == VARUKONI_PORT_DONE && line == n);
    NEED(varukoni_fan_line(&fan, &more, &line) == VARUKONI_PORT_FULL && !more.is_open);
    for (size_t n = 0; n < 3; n++)
        for (uint32_t k = 0; k < LINES; k += 5) post(&posters[k], 10 * n + k);
    answers_otherwise(&fan, VARUKONI_PORT_DISABLED);
    NEED(varukoni_fan_start(&fan) == VARUKONI_PORT_DONE);
    for (size_t n = 0; n < 3; n++)
        for (uint32_t k = 0; k < LINES; k += 5) gives(&fan, k, 10 * n + k);
    answers_otherwise(&fan, VARUKONI_PORT_EMPTY);
    post(&posters[4], 1), post(&posters[20], 2), post(&posters[31], 3);
    gives(&fan, 31, 3), gives(&fan, 4, 1), gives(&fan, 20, 2);
    post(&posters[7], 1);
    for (uint32_t k = 6; k < 9; k++)
        NEED(varukoni_poster_close(&posters[k], &wake) == VARUKONI_PORT_DONE && wake == 0);
    NEED(varukoni_fan_line(&fan, &more, &line) == VARUKONI_PORT_FULL);
    ends(&fan, 6), gives(&fan, 7, 1), ends(&fan, 8), ends(&fan, 7);
    answers_otherwise(&fan, VARUKONI_PORT_EMPTY);
    for (uint32_t k = 6; k < 9; k++)
        NEED(varukoni_fan_line(&fan, &posters[k], &line) == VARUKONI_PORT_DONE && line == k);
    post(&posters[8], 5);
    gives(&fan, 8, 5);
    for (uint32_t k = 0; k < LINES; k++) varukoni_poster_close(&posters[k], &wake);
    for (uint32_t k = 0; k < LINES; k++) ends(&fan, (k + 9) % LINES);
    answers_otherwise(&fan, VARUKONI_PORT_EMPTY);
    varukoni_fan_drop(&fan);
    NEED(taken == 0);
}

static void tokens(void) {
    struct varukoni_fan fan = VARUKONI_PORT_INIT;
    struct varukoni_poster one = VARUKONI_PORT_INIT, other = VARUKONI_PORT_INIT;
    struct varukoni_message message = numbered(1);
    uint32_t line;
    uint64_t token = 1;
    varukoni_fan_open(&fan), varukoni_fan_start(&fan);
    varukoni_fan_line(&fan, &one, &line), varukoni_fan_line(&fan, &other, &line);
    NEED(varukoni_fan_arm(&fan, 41, &token) == VARUKONI_PORT_EMPTY && token == 0);
    NEED(varukoni_fan_arm(&fan, 42, &token) == VARUKONI_PORT_EMPTY && token == 41);
    NEED(varukoni_poster_post(&other, &message, &token) == VARUKONI_PORT_DONE && token == 42);
    NEED(varukoni_poster_post(&one, &message, &token) == VARUKONI_PORT_DONE && token == 0);
    NEED(varukoni_fan_arm(&fan, 43, &token) == VARUKONI_PORT_DONE && token == 0);
    gives(&fan, 0, 1), gives(&fan, 1, 1);
    answers_otherwise(&fan, VARUKONI_PORT_EMPTY);
    NEED(varukoni_fan_arm(&fan, 44, &token) == VARUKONI_PORT_EMPTY && token == 43);
    NEED(varukoni_poster_close(&one, &token) == VARUKONI_PORT_DONE && token == 44);
    NEED(varukoni_fan_arm(&fan, 45, &token) == VARUKONI_PORT_DONE && token == 0);
    ends(&fan, 0);
    NEED(varukoni_fan_arm(&fan, 46, &token) == VARUKONI_PORT_EMPTY && token == 45);
    NEED(varukoni_fan_close(&fan, &token) == VARUKONI_PORT_DONE && token == 46);
    NEED(varukoni_poster_post(&other, &message, &token) == VARUKONI_PORT_CLOSED && token == 46);
    varukoni_poster_close(&other, &token), varukoni_fan_drop(&fan);
    NEED(taken == 0);
}

static void closing(void) {
    struct varukoni_fan fan = VARUKONI_PORT_INIT;
    struct varukoni_poster posters[3] = {VARUKONI_PORT_INIT};
    struct varukoni_message message = numbered(7);
    uint32_t line;
    uint64_t wake;
    varukoni_fan_open(&fan), varukoni_fan_start(&fan);
    for (int k = 0; k < 3; k++) varukoni_fan_line(&fan, &posters[k], &line);
    for (size_t n = 0; n < 300; n++) post(&posters[n % 3], n);
    gives(&fan, 0, 0), gives(&fan, 1, 1), gives(&fan, 2, 2), gives(&fan, 0, 3);
    varukoni_poster_close(&posters[2], &wake);
    NEED(varukoni_fan_close(&fan, &wake) == VARUKONI_PORT_DONE);
    size_t next[3] = {6, 4, 5};
    for (int n = 0; n < 296; n++) {
        NEED(varukoni_fan_drain(&fan, &message, &line) == VARUKONI_PORT_DONE && line < 3);
        NEED(message.length == next[line]);
        next[line] += 3;
    }
    line = 9;
    NEED(varukoni_fan_drain(&fan, &message, &line) == VARUKONI_PORT_EMPTY && line == 9);
    for (int k = 0; k < 2; k++) {
        NEED(varukoni_fan_drain(&fan, &message, &line) == VARUKONI_PORT_EMPTY);
        NEED(varukoni_poster_post(&posters[k], &message, &wake) == VARUKONI_PORT_CLOSED);
    }
    NEED(varukoni_fan_drain(&fan, &message, &line) == VARUKONI_PORT_ENDED && line == 9);
    NEED(varukoni_fan_drain(&fan, &message, &line) == VARUKONI_PORT_ENDED);
    varukoni_fan_drop(&fan);
    for (int k = 0; k < 2; k++) varukoni_poster_close(&posters[k], &wake);
    varukoni_fan_open(&fan), varukoni_fan_close(&fan, &wake);
    NEED(varukoni_fan_drain(&fan, &message, &line) == VARUKONI_PORT_ENDED);
    varukoni_fan_drop(&fan);
    NEED(taken == 0);
}

/* What the members of a group answer: one letter for each. */
static void casts(struct varukoni_group *group, uint64_t source, size_t number, const char *said) {
    struct varukoni_answer answers[8];
    struct varukoni_message message = numbered(number);
    size_t count;
    memset(answers, 77, sizeof answers);
    NEED(varukoni_group_count(group, &count) == VARUKONI_PORT_DONE && count == strlen(said));
    NEED(count == 0
         || varukoni_group_cast(group, source, &message, answers, count - 1) == VARUKONI_PORT_FULL);
    NEED(answers[0].status == 77);
    NEED(varukoni_group_cast(group, source, &message, answers, 8) == VARUKONI_PORT_DONE);
    for (size_t k = 0; k < count; k++) {
        NEED(answers[k].status == (said[k] == 'p'   ? VARUKONI_PORT_DONE
                                   : said[k] == 's' ? VARUKONI_PORT_SOURCE
                                                    : VARUKONI_PORT_CLOSED));
        NEED(answers[k].wake == 0 && answers[k].member > (k > 0 ? answers[k - 1].member : 0));
        NEED((answers[k].member == source) == (said[k] == 's'));
    }
    NEED(answers[count].status == 77);
}

static void groups(void) {
    struct varukoni_group group = VARUKONI_PORT_INIT;
    struct varukoni_fan fans[4] = {VARUKONI_PORT_INIT};
    struct varukoni_unclaimed unclaimed = {NULL, NULL};
    struct varukoni_message message;
    struct varukoni_answer answers[4];
    uint64_t members[4], wake;
    uint32_t line;
    char room[5];
    NEED(varukoni_group_open(&group) == VARUKONI_PORT_DONE);
    casts(&group, 0, 1, "");
    for (int k = 0; k < 4; k++) {
        struct varukoni_poster poster = VARUKONI_PORT_INIT;
        varukoni_fan_open(&fans[k]), varukoni_fan_start(&fans[k]);
        varukoni_fan_line(&fans[k], &poster, &line);
        NEED(varukoni_group_join(&group, &poster, &members[k]) == VARUKONI_PORT_DONE);
        NEED(!poster.is_open && members[k] == (uint64_t)k + 1);
    }
    casts(&group, members[1], 1, "pspp");
    casts(&group, 0, 2, "pppp");
    casts(&group, 99, 3, "pppp");
    for (int k = 0; k < 4; k++)
        for (size_t n = k == 1 ? 2 : 1; n < 4; n++) gives(&fans[k], 0, n);
    NEED(varukoni_fan_arm(&fans[2], 70, &wake) == VARUKONI_PORT_EMPTY);
    NEED(varukoni_group_leave(&group, members[2], &wake) == VARUKONI_PORT_DONE && wake == 70);
    NEED(varukoni_group_leave(&group, members[2], &wake) == VARUKONI_PORT_EMPTY && wake == 70);
    ends(&fans[2], 0);
    casts(&group, members[3], 4, "pps");
    gives(&fans[0], 0, 4), gives(&fans[1], 0, 4);
    answers_otherwise(&fans[3], VARUKONI_PORT_EMPTY);
    varukoni_fan_close(&fans[1], &wake);
    casts(&group, members[0], 5, "scp");
    NEED(varukoni_fan_drain(&fans[1], &message, &line) == VARUKONI_PORT_ENDED);
    gives(&fans[3], 0, 5);
    NEED(varukoni_group_send(&group, 0, "hello", 5, answers, 2) == VARUKONI_PORT_FULL);
    NEED(varukoni_group_send(&group, 0, "hello", 5, answers, 4) == VARUKONI_PORT_DONE);
    NEED(varukoni_fan_take(&fans[0], &message, &line) == VARUKONI_PORT_DONE);
    NEED(varukoni_message_copy(&message, room, 5) == 5 && memcmp(room, "hello", 5) == 0);
    varukoni_message_free(&message, &unclaimed);
    NEED(varukoni_fan_shut(&fans[3], &unclaimed) == VARUKONI_PORT_EMPTY);
    varukoni_group_drop(&group);
    NEED(varukoni_fan_shut(&fans[3], &unclaimed) == VARUKONI_PORT_ENDED && !fans[3].is_open);
    ends(&fans[0], 0);
    for (int k = 0; k < 4; k++) varukoni_fan_drop(&fans[k]);
    NEED(taken == 0);
}

/* Posters and their fans send what ports send. */
static void parcels(void) {
    struct varukoni_fan fan = VARUKONI_PORT_INIT;
    struct varukoni_poster poster = VARUKONI_PORT_INIT;
    struct varukoni_port sent[17], far_ends[17];
    struct varukoni_unclaimed unclaimed = {NULL, NULL};
    struct varukoni_message message;
    uint64_t wake;
    uint32_t line;
    size_t count;
    varukoni_fan_open(&fan), varukoni_fan_start(&fan), varukoni_fan_line(&fan, &poster, &line);
    for (int k = 0; k < 17; k++) {
        memset(&sent[k], 0, sizeof sent[k]), memset(&far_ends[k], 0, sizeof far_ends[k]);
        varukoni_ports_open(&sent[k], &far_ends[k]);
    }
    NEED(varukoni_poster_send(&poster, "", 0, sent, 17, &wake) == VARUKONI_PORT_TOO_MANY);
    NEED(varukoni_poster_send(&poster, "ports", 5, sent, 16, &wake) == VARUKONI_PORT_DONE);
    NEED(varukoni_poster_send(&poster, "", 0, sent, 1, &wake) == VARUKONI_PORT_WRONG_STATE);
    NEED(varukoni_fan_take(&fan, &message, &line) == VARUKONI_PORT_DONE && message.length == 5);
    NEED(varukoni_message_ports(&message, &count)[15].is_open && count == 16);
    NEED(varukoni_poster_send(&poster, "", 0, &sent[16], 1, &wake) == VARUKONI_PORT_DONE);
    for (int k = 0; k < 17; k++) varukoni_port_drop(&far_ends[k]);
    varukoni_message_free(&message, &unclaimed);
    varukoni_poster_close(&poster, &wake);
    NEED(varukoni_fan_shut(&fan, &unclaimed) == VARUKONI_PORT_ENDED && unclaimed.first == NULL);
    NEED(taken == 0);
}

static int answers(void) {
    kinds(), lines(), tokens(), closing(), groups(), parcels();
    printf("answers: %lu\n", needed);
    return 0;
}

/* A group of three fans, one of which has lines of its own too, with lines that grow over rings. */
static unsigned long scenario(void) {
    struct varukoni_group group = VARUKONI_PORT_INIT;
    struct varukoni_fan fans[3] = {VARUKONI_PORT_INIT};
    struct varukoni_poster posters[9] = {VARUKONI_PORT_INIT}, poster = VARUKONI_PORT_INIT;
    struct varukoni_answer answers[3];
    struct varukoni_message message = numbered(0);
    unsigned long refused = 0;
    uint64_t member, wake;
    uint32_t line = 99;
    while (varukoni_group_open(&group) != VARUKONI_PORT_DONE) refused++;
    for (int k = 0; k < 3; k++) {
        while (varukoni_fan_open(&fans[k]) != VARUKONI_PORT_DONE) refused++;
        while (varukoni_fan_line(&fans[k], &poster, &line) != VARUKONI_PORT_DONE) {
            NEED(fans[k].is_open && !poster.is_open);
            refused++;
        }
        NEED(line == 0);
        while (varukoni_group_join(&group, &poster, &member) != VARUKONI_PORT_DONE) {
            NEED(group.is_open && poster.is_open);
            refused++;
        }
        NEED(member == (uint64_t)k + 1);
        varukoni_fan_start(&fans[k]);
    }
    for (uint32_t k = 0; k < 9; k++) {
        while (varukoni_fan_line(&fans[0], &posters[k], &line) != VARUKONI_PORT_DONE) refused++;
        NEED(line == k + 1);
    }
    for (size_t n = 0; n < 200; n++) {
        size_t k = n % 9;
        message = numbered(n);
        while (varukoni_poster_post(&posters[k], &message, &wake) != VARUKONI_PORT_DONE) refused++;
        NEED(varukoni_group_cast(&group, 2, &message, answers, 3) == VARUKONI_PORT_DONE);
        NEED(answers[1].status == VARUKONI_PORT_SOURCE);
        for (int m = 0; m < 3; m += 2)
            if (answers[m].status == VARUKONI_PORT_NO_MEMORY) refused++;
            else NEED(answers[m].status == VARUKONI_PORT_DONE);
    }
    for (size_t n = 0; n < 200; n++) NEED(varukoni_fan_take(&fans[0], &message, &line) == 0);
    for (uint32_t k = 0; k < 9; k++) varukoni_poster_close(&posters[k], &wake);
    varukoni_group_drop(&group);
    for (int k = 0; k < 3; k++) varukoni_fan_drop(&fans[k]);
    NEED(taken == 0);
    return refused;
}

int main(int count, char **words) {
    const char *word = count == 2 ? words[1] : "";
    if (strcmp(word, "answers") == 0) return answers();
    if (strcmp(word, "refuse") == 0) return refuse_each(scenario);
    fprintf(stderr, "fans_calls: answers or refuse\n");
    return 2;
}

/* The library for Node: a class Hub with the methods line, said and close, and the functions steps,
 * check and readScript. varukoni.mjs hands them on, and says what each gives. It keeps nothing
 * outside of what Node lends it, so each thread of Node may load it. */
#define NAPI_VERSION 8
#include "../c/varukoni.h"

#include <node_api.h>
#include <stdio.h>
#include <stdlib.h>
#include <string.h>

enum { FIRST_SIZE = 4096, MOST_BYTES_OF_A_CHARACTER = 4 };

/* Bytes of which `size` are there. */
struct bytes {
    char *at;
    size_t size;
};

/* What a Hub of JavaScript holds. */
struct held {
    struct varukoni_hub hub;
    struct bytes line, room;
};

/* By this a Hub is told from another object. */
static const napi_type_tag HUB = {0x766172756b6f6e69, 0x6875620000000001};

static bool grow(struct bytes *bytes, size_t size) {
    if (size <= bytes->size) return true;
    char *at = realloc(bytes->at, size);
    if (!at) return false;
    bytes->at = at;
    bytes->size = size;
    return true;
}

/* An Error of that name, which isn't thrown yet. */
static napi_value error_of(napi_env env, const char *name, napi_value what) {
    napi_value error, value;
    napi_create_error(env, NULL, what, &error);
    napi_create_string_utf8(env, name, NAPI_AUTO_LENGTH, &value);
    napi_set_named_property(env, error, "name", value);
    return error;
}

static napi_value fail(napi_env env, const char *name, const char *what) {
    napi_value text;
    napi_create_string_utf8(env, what, NAPI_AUTO_LENGTH, &text);
    napi_throw(env, error_of(env, name, text));
    return NULL;
}

static napi_value no_memory(napi_env env) {
    return fail(env, "NoMemory", "out of memory, and nothing was changed");
}

/* Throws a BadLine, whose message is its kind and the front of the text line, if there is one. */
static napi_value bad_line(napi_env env, const char *kind, size_t length, const struct bytes *line,
                           size_t line_length) {
    char what[256];
    napi_value error, name, text;
    napi_create_string_utf8(env, kind, length, &name);
    text = name;
    if (line) {
        int shown = line_length < 160 ? (int)line_length : 160;
        snprintf(what, sizeof what, "%.*s: %.*s", (int)length, kind, shown, line->at);
        napi_create_string_utf8(env, what, NAPI_AUTO_LENGTH, &text);
    }
    error = error_of(env, "BadLine", text);
    napi_set_named_property(env, error, "kind", name);
    napi_throw(env, error);
    return NULL;
}

/* Copies a string of JavaScript as UTF-8. It is false, and has thrown, where that is none. */
static bool copy_string(napi_env env, napi_value value, struct bytes *bytes, size_t *length) {
    if (!grow(bytes, FIRST_SIZE)) {
        no_memory(env);
        return false;
    }
    for (;;) {
        if (napi_get_value_string_utf8(env, value, bytes->at, bytes->size, length) != napi_ok) {
            napi_throw_type_error(env, NULL, "a string is due");
            return false;
        }
        /* A string that was cut leaves no room for one more character and the zero. */
        if (*length + MOST_BYTES_OF_A_CHARACTER < bytes->size) return true;
        size_t whole;
        napi_get_value_string_utf8(env, value, NULL, 0, &whole);
        if (!grow(bytes, whole + MOST_BYTES_OF_A_CHARACTER + 1)) {
            no_memory(env);
            return false;
        }
    }
}

static void let_go(struct held *held) {
    varukoni_close(&held->hub);
    free(held->line.at);
    free(held->room.at);
    free(held);
}

static void finalize(napi_env env, void *data, void *hint) {
    (void)env;
    (void)hint;
    let_go(data);
}

static napi_value construct(napi_env env, napi_callback_info info) {
    napi_value self, target;
    napi_get_new_target(env, info, &target);
    if (!target) return fail(env, "TypeError", "a Hub is made by `new Hub()`");
    napi_get_cb_info(env, info, NULL, NULL, &self, NULL);
    struct held *held = calloc(1, sizeof *held);
    if (!held) return no_memory(env);
    if (!grow(&held->room, FIRST_SIZE) || varukoni_open(&held->hub) != VARUKONI_DONE) {
        let_go(held);
        return no_memory(env);
    }
    if (napi_wrap(env, self, held, finalize, NULL, NULL) != napi_ok) {
        let_go(held);
        return fail(env, "Error", "the object can't hold a hub");
    }
    napi_type_tag_object(env, self, &HUB);
    return self;
}

/* The hub that `this` is, and the first argument. NULL, with an error thrown, where it is none. */
static struct held *held_by(napi_env env, napi_callback_info info, napi_value *argument) {
    size_t count = 1;
    napi_value self;
    bool is_hub = false;
    struct held *held = NULL;
    napi_get_cb_info(env, info, &count, argument, &self, NULL);
    if (napi_check_object_type_tag(env, self, &HUB, &is_hub) == napi_ok && is_hub &&
        napi_unwrap(env, self, (void **)&held) == napi_ok) {
        return held;
    }
    napi_throw_type_error(env, NULL, "`this` is no Hub");
    return NULL;
}

/* Has the whole of what was said last in the room. */
static uint8_t put_said(struct held *held, size_t *length) {
    for (;;) {
        uint8_t answer =
            varukoni_said(&held->hub, (uint8_t *)held->room.at, held->room.size, length);
        if (answer != VARUKONI_DONE || *length <= held->room.size) return answer;
        if (!grow(&held->room, *length)) return VARUKONI_NO_MEMORY;
    }
}

static napi_value said_as(napi_env env, struct held *held, size_t length) {
    napi_value text;
    if (length > 0 && held->room.at[length - 1] == '\n') length--;
    if (napi_create_string_utf8(env, held->room.at, length, &text) != napi_ok) {
        return no_memory(env);
    }
    return text;
}

static napi_value refused(napi_env env, uint8_t answer) {
    switch (answer) {
    case VARUKONI_NO_MEMORY:
        return no_memory(env);
    case VARUKONI_NO_ROOM:
        return fail(env, "NoRoom", "out of memory for the outcome line, which `said` gives");
    case VARUKONI_LOST:
        return fail(env, "Lost", "out of memory within the steps of a line");
    default:
        return fail(env, "Closed", "the hub is closed");
    }
}

static napi_value line(napi_env env, napi_callback_info info) {
    napi_value argument;
    size_t line_length, length = 0;
    struct held *held = held_by(env, info, &argument);
    if (!held || !copy_string(env, argument, &held->line, &line_length)) return NULL;
    uint8_t answer = varukoni_line(&held->hub, (uint8_t *)held->line.at, line_length,
                                   (uint8_t *)held->room.at, held->room.size, &length);
    if (answer != VARUKONI_DONE && answer != VARUKONI_BAD) return refused(env, answer);
    if (length > held->room.size && put_said(held, &length) != VARUKONI_DONE) {
        return refused(env, VARUKONI_NO_ROOM);
    }
    if (answer == VARUKONI_BAD) {
        return bad_line(env, held->room.at, length, &held->line, line_length);
    }
    return said_as(env, held, length);
}

static napi_value said(napi_env env, napi_callback_info info) {
    napi_value argument;
    size_t length = 0;
    struct held *held = held_by(env, info, &argument);
    if (!held) return NULL;
    uint8_t answer = put_said(held, &length);
    if (answer != VARUKONI_DONE) return refused(env, answer);
    return said_as(env, held, length);
}

static napi_value close_hub(napi_env env, napi_callback_info info) {
    napi_value argument;
    struct held *held = held_by(env, info, &argument);
    if (held) varukoni_close(&held->hub);
    return NULL;
}

typedef uint8_t whole_call(const uint8_t *, size_t, uint8_t *, size_t, size_t *);

/* Gives a whole text to a call, and has what it says in the room. */
static uint8_t answer_whole(whole_call *call, const struct bytes *text, size_t text_length,
                            struct bytes *room, size_t *length) {
    if (!grow(room, 2 * text_length + FIRST_SIZE)) return VARUKONI_NO_ROOM;
    for (;;) {
        uint8_t status =
            call((uint8_t *)text->at, text_length, (uint8_t *)room->at, room->size, length);
        if (status == VARUKONI_NO_ROOM || *length <= room->size) return status;
        if (!grow(room, *length)) return VARUKONI_NO_ROOM;
    }
}

/* { status, text } */
static napi_value printed(napi_env env, uint8_t status, const struct bytes *room, size_t length) {
    napi_value object, number, text;
    if (napi_create_string_utf8(env, room->at, length, &text) != napi_ok) return no_memory(env);
    napi_create_object(env, &object);
    napi_create_uint32(env, status, &number);
    napi_set_named_property(env, object, "status", number);
    napi_set_named_property(env, object, "text", text);
    return object;
}

static napi_value whole(napi_env env, napi_callback_info info, whole_call *call) {
    size_t count = 1, text_length, length = 0;
    napi_value argument, result = NULL;
    struct bytes text = {0}, room = {0};
    napi_get_cb_info(env, info, &count, &argument, NULL, NULL);
    if (copy_string(env, argument, &text, &text_length)) {
        uint8_t status = answer_whole(call, &text, text_length, &room, &length);
        if (status == VARUKONI_NO_ROOM) {
            no_memory(env);
        } else if (call != varukoni_script) {
            result = printed(env, status, &room, length);
        } else if (status == VARUKONI_BAD) {
            bad_line(env, room.at, length - 1, NULL, 0);
        } else if (status != VARUKONI_DONE) {
            no_memory(env);
        }
    }
    free(text.at);
    free(room.at);
    return result;
}

static napi_value steps(napi_env env, napi_callback_info info) {
    return whole(env, info, varukoni_steps);
}

static napi_value check(napi_env env, napi_callback_info info) {
    return whole(env, info, varukoni_check);
}

static napi_value read_script(napi_env env, napi_callback_info info) {
    return whole(env, info, varukoni_script);
}

static void export(napi_env env, napi_value exports, const char *name, napi_callback call) {
    napi_value function;
    napi_create_function(env, name, NAPI_AUTO_LENGTH, call, NULL, &function);
    napi_set_named_property(env, exports, name, function);
}

NAPI_MODULE_INIT() {
    const napi_property_descriptor methods[] = {
        {"line", NULL, line, NULL, NULL, NULL, napi_default_method, NULL},
        {"said", NULL, said, NULL, NULL, NULL, napi_default_method, NULL},
        {"close", NULL, close_hub, NULL, NULL, NULL, napi_default_method, NULL},
    };
    napi_value hub;
    if (varukoni_version() != VARUKONI_VERSION) {
        return fail(env, "Error", "the library has another interface than its header");
    }
    napi_define_class(env, "Hub", NAPI_AUTO_LENGTH, construct, NULL,
                      sizeof methods / sizeof *methods, methods, &hub);
    napi_set_named_property(env, exports, "Hub", hub);
    export(env, exports, "steps", steps);
    export(env, exports, "check", check);
    export(env, exports, "readScript", read_script);
    return exports;
}

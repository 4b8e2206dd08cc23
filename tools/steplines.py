"""Step lines as docs/FORMATS.md defines them: which are well formed, and what is wrong with others.

`read` gives the step lines of a text, or raises BadLine with the first bad one and its kind.
"""

import re

import hublog
import scriptlines
from hublog import lines_of

# What a word may be. A name and a body are the rest of the line.
URL, NUMBER, POSTER, LIST, NAME, BODY, EVENT = range(7)
SHAPES = {
    "agent": (URL,), "channel": (NUMBER,), "client": (NUMBER,), "worker": (NUMBER,),
    "member": (NUMBER, NAME), "line": (NUMBER, NUMBER), "back": (POSTER,), "enter": (POSTER,),
    "push": (POSTER, LIST, BODY), "leave": (POSTER,), "hop": (POSTER,),
    "post": (POSTER, LIST, BODY), "start": (NUMBER,), "loaded": (NUMBER,), "take": (NUMBER,),
    "look": (NUMBER,), "hand": (NUMBER, NUMBER), "adopt": (NUMBER, NUMBER), "close": (NUMBER,),
    "sweep": (NUMBER,), "cast": (NUMBER, LIST, BODY), "part": (NUMBER,), "order": (NUMBER,),
    "see": (NUMBER,), "event": (NUMBER, EVENT),
}
DIGITS = re.compile("0|[1-9][0-9]{0,9}")


class BadLine(hublog.BadInput):
    """A bad step line: its number, from 1, and its kind."""


class NotThis(Exception):
    """The kind of a bad step line."""


def read(data):
    return [checked(line, at) for at, line in enumerate(lines_of(data), 1)]


def checked(line, at):
    try:
        text = line.decode()
        check(text)
    except UnicodeDecodeError:
        raise BadLine(at, "BadUtf8") from None
    except NotThis as kind:
        raise BadLine(at, kind) from None
    return text


def need(holds, kind):
    if not holds:
        raise NotThis(kind)


def check(text):
    word, _, rest = text.removeprefix("!").partition(" ")
    need(word in SHAPES, "UnknownStep")
    shape = SHAPES[word]
    has_rest = shape[-1] in (NAME, BODY)
    words = rest.split(" ", len(shape) - 1 if has_rest else -1) if " " in text else []
    need(len(words) == len(shape), "BadWords")
    for kind, said in zip(shape, words):
        CHECKS[kind](said)


def is_number(word):
    return bool(DIGITS.fullmatch(word)) and int(word) <= scriptlines.MOST_NUMBER


def check_poster(word):
    need(word.count("/") < 2 and all(map(is_number, word.split("/"))), "BadPoster")


def check_list(word):
    need(word == "-" or all(map(is_number, word.split(","))), "BadList")


def check_name(text):
    try:
        need(isinstance(hublog.json_of(text), str), "BadName")
    except hublog.NotThis:
        raise NotThis("BadName") from None


def check_body(text):
    try:
        kind = scriptlines.body_kind(hublog.json_of(text), text)
    except hublog.NotThis:
        raise NotThis("NotJson") from None
    need(kind is None, kind)


CHECKS = {
    URL: lambda _word: None,
    NUMBER: lambda word: need(is_number(word), "BadNumber"),
    POSTER: check_poster,
    LIST: check_list,
    NAME: check_name,
    BODY: check_body,
    EVENT: lambda word: need(word in scriptlines.EVENTS, "BadEvent"),
}

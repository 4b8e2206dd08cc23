"""One line of a script by itself: its JSON object, its fields, and what is wrong with them.

`object_in` gives the fields of a line, and `faults_of` what docs/FORMATS.md asks of them whatever
stands in other lines. What a line says behind those before it is tools/hubscript.py's.
"""

import dataclasses
import difflib
import json
import typing

import hublog
import weburl

SYNTAX, UNKNOWN_ACTION, UNKNOWN_NAME = "Syntax", "UnknownAction", "UnknownName"
TOO_LARGE = "TooLarge"
MOST_NUMBER = 2**32 - 1
MOST_BODY_BYTES = 262_144
KINDS = ("window", "worker")
EVENTS = ("install", "activate", "extend", "settle", "fail", "returned", "discard", "terminate")
QUEUE = "queue"
# What a field may have: what has to be so, and what is said where it isn't.
KIND, TEXT, URL, PAIR, AGENT, COUNT = "kind", "text", "url", "pair", "agent", "count"
WORD, EVENT, LIST, BODY = "word", "event", "list", "body"
# By the field that tells a line, all its fields, in the order in which the first is looked for.
FORMS = {
    "agent": {"agent": KIND, "origin": URL},
    "channel": {"channel": PAIR, "at": AGENT},
    "member": {"member": TEXT, "at": AGENT, "on": TEXT},
    "post": {"post": TEXT, "body": BODY, "transfer": LIST, "at": AGENT},
    "send": {"send": AGENT, "body": BODY, "transfer": LIST, "at": AGENT},
    "cast": {"cast": TEXT, "body": BODY, "at": AGENT},
    "start": {"start": TEXT, "at": AGENT},
    "loaded": {"loaded": WORD, "at": AGENT},
    "close": {"close": TEXT, "at": AGENT},
    "wait": {"wait": COUNT, "at": AGENT},
    "receive": {"receive": TEXT, "at": AGENT},
    "order": {"order": AGENT, "at": AGENT},
    "event": {"event": EVENT, "at": AGENT},
    "hand": {"hand": AGENT, "at": AGENT},
    "fetch": {"fetch": AGENT, "at": AGENT},
}
DECLARATIONS = ("agent", "channel", "member")
OPTIONAL = {"transfer"}
# The field by which `tools/play` knows an agent.
NAME = "name"
MOST_LETTERS = 40


@dataclasses.dataclass(frozen=True)
class Fault:
    kind: str
    said: str


class Field(typing.NamedTuple):
    """A field's value, and the text of the line that has it under a name."""

    value: object
    name: str
    line: str

    @property
    def written(self):
        """The value with its numbers as they are written."""
        return json.loads(self.line, parse_int=Literal, parse_float=Literal)[self.name]


class NoObject(Exception):
    """Why a line is no JSON object."""


# The object


def object_in(line):
    """The fields of a line, of equal ones the last. NoObject says why it has none."""
    try:
        text = line.decode()
    except UnicodeDecodeError as error:
        raise NoObject(f"byte {line[error.start]:02X} in column {error.start + 1} is no UTF-8")
    try:
        fields = hublog.json_of(text)
    except hublog.NotThis:
        raise NoObject(why_not_json(text)) from None
    if not isinstance(fields, hublog.Pairs):
        raise NoObject(f"{cut(text.strip())} is no object: one object a line was expected")
    return {name: Field(value, name, text) for name, value in fields}


def why_not_json(text):
    """Why the reader of the program doesn't take a text."""
    if not text.strip():
        return "the line is empty: one object a line was expected"
    if hublog.nesting_in(text) > hublog.MOST_NESTING_READ:
        return f"it is nested more than {hublog.MOST_NESTING_READ} deep"
    try:
        json.loads(text, parse_int=str, parse_constant=hublog.refuse)
    except json.JSONDecodeError as error:
        return why_at(text, error.pos, error.msg)
    except hublog.NotThis:
        return "NaN and Infinity are no JSON"
    return "a number is past the range of a float, or a text has half of a surrogate pair"


def why_at(text, at, said):
    """What was expected where a text is no JSON any more."""
    before, rest = text[:at].rstrip(), text[at:].strip()
    where = f"column {at + 1}"
    if before.lstrip().startswith("#") or (not before and rest.startswith("#")):
        return "# begins no comment: // does"
    if rest.startswith("//"):
        return f"{where}: a comment has a line of its own"
    if before.endswith(",") and rest[:1] in ("}", "]"):
        wanted = "a field" if rest[0] == "}" else "a value"
        return f"{where}: a comma with nothing behind it: {wanted} or {rest[0]} was expected"
    if said == "Extra data":
        return f"{where}: {cut(rest)} stands behind the object: one object a line was expected"
    if not rest:
        return "the object doesn't end on its line: one object a line was expected"
    return f"{where}: {cut(rest)}: {said[0].lower()}{said[1:]}"


# What is shown of values


class Literal(str):
    """A number as it is written."""


def shown(value):
    """A value as JSON, cut where it is long."""
    if isinstance(value, Literal):
        return cut(value)
    if isinstance(value, dict):
        inner = ",".join(f"{json.dumps(key)}:{shown(it)}" for key, it in value.items())
        return cut("{" + inner + "}")
    if isinstance(value, list):
        return cut(f"[{','.join(map(shown, value))}]")
    text = json.dumps(value, ensure_ascii=False)
    return cut(text if text.isprintable() else json.dumps(value))


def cut(text):
    return text if len(text) <= MOST_LETTERS else f"{text[:MOST_LETTERS]}…"


def close_to(word, words):
    """`, did you mean ..?` where one of the words is near, else nothing."""
    found = difflib.get_close_matches(word, list(words), 1)
    return f", did you mean {shown(found[0])}?" if found else ""


# The fields


def keyword_of(fields):
    return next((word for word in FORMS if word in fields), None)


def unknown_action(fields):
    """The fault of a line that is told by no field, and its fields as they were meant."""
    known = {name for form in FORMS.values() for name in form} | {NAME}
    for word in (it for it in fields if it not in known):
        found = difflib.get_close_matches(word, FORMS, 1)
        if found:
            said = f"{shown(word)} is no action{close_to(word, FORMS)}"
            meant = {found[0] if it == word else it: value for it, value in fields.items()}
            return Fault(UNKNOWN_ACTION, said), meant
    others = ", ".join(shown(word) for word in fields if word not in known)
    said = f"{others}: no action: " if others else "it says nothing that is done: "
    return Fault(UNKNOWN_ACTION, f"{said}one of {', '.join(FORMS)} was expected"), None


def fields_meant(word, fields, may_name):
    """The fields of a line, and faults of fields that are none of its own or are missing."""
    form, faults, meant = FORMS[word], [], dict(fields)
    missing = [it for it in form if it not in fields and it not in OPTIONAL]
    for name in fields:
        if name in form or (may_name and word == "agent" and name == NAME):
            continue
        near = difflib.get_close_matches(name, [it for it in form if it not in fields], 1)
        if near:
            faults.append(f"unknown field {shown(name)}, did you mean {shown(near[0])}?")
            meant[near[0]] = meant.pop(name)
            missing = [it for it in missing if it != near[0]]
        else:
            own = ", ".join(map(shown, form))
            faults.append(f"unknown field {shown(name)}: a line with {shown(word)} has {own}")
    faults += [f"{shown(word)} needs the field {shown(it)}" for it in missing]
    return meant, [Fault(SYNTAX, said) for said in faults]


def is_texts(value):
    return isinstance(value, list) and not isinstance(value, hublog.Pairs) and all(
        isinstance(it, str) for it in value
    )


def is_number(value):
    return type(value) is int and 0 <= value <= MOST_NUMBER


# By what a field has: whether a value is that, and what is said where it isn't.
VALUES = {
    KIND: (lambda value: value in KINDS, 'is neither "window" nor "worker"'),
    TEXT: (lambda value: isinstance(value, str), "is no text"),
    URL: (lambda value: isinstance(value, str), "is no text"),
    PAIR: (lambda value: is_texts(value) and len(value) == 2, "is no list of two names"),
    AGENT: (is_number, f"is no whole number from 0 to {MOST_NUMBER}"),
    COUNT: (is_number, f"is no whole number from 0 to {MOST_NUMBER}"),
    WORD: (lambda value: value == QUEUE, f"isn't {shown(QUEUE)}"),
    EVENT: (lambda value: value in EVENTS, f"is none of {', '.join(EVENTS)}"),
    LIST: (is_texts, "is no list of names"),
    BODY: (lambda _value: True, ""),
}


def type_fault(name, what, field):
    is_so, said = VALUES[what]
    if is_so(field.value):
        return None
    if what == EVENT and isinstance(field.value, str):
        said += close_to(field.value, EVENTS)
    return Fault(SYNTAX, f"{name}: {shown(field.written)} {said}")


# Bodies and URLs


NOT_WHOLE, TOO_DEEP, TOO_LONG = "NotWhole", "TooDeep", "TooLong"


def body_kind(value, text):
    """The kind of what is wrong with a value as a body, by the first test it fails, or None.

    It stands in the text, than which its compact text is never longer.
    """
    if first_odd(value) is not None:
        return NOT_WHOLE
    if depth_of(value) > hublog.MOST_NESTING:
        return TOO_DEEP
    may_be_long = 4 * len(text) > MOST_BODY_BYTES
    return TOO_LONG if may_be_long and len(compact(value).encode()) > MOST_BODY_BYTES else None


def body_fault(field):
    kind = body_kind(field.value, field.line)
    if kind == NOT_WHOLE:
        path, number = first_odd(field.value, field.written)
        why = "is no whole number of 64 bits" if number.isdigit() else "is no whole number"
        return Fault(SYNTAX, f"{path}: {shown(number)} {why}")
    if kind == TOO_DEEP:
        return Fault(TOO_LARGE, f"body: it is nested more than {hublog.MOST_NESTING} deep")
    if kind == TOO_LONG:
        count = len(compact(field.value).encode())
        said = f"body: its compact text has {count:,} bytes, and {MOST_BODY_BYTES:,} are the most"
        return Fault(TOO_LARGE, said)
    return None


def first_odd(value, written=None, path="body"):
    """The path and the text of the first number that isn't whole, or None."""
    if value is hublog.Fraction:
        return path, written
    if isinstance(value, hublog.Pairs):
        parts = [(it, f"{path}.{key}" if key.isidentifier() else f"{path}[{shown(key)}]", key)
                 for key, it in dict(value).items()]
    elif isinstance(value, list):
        parts = [(it, f"{path}[{at}]", at) for at, it in enumerate(value)]
    else:
        return None
    found = (first_odd(it, written and written[key], inner) for it, inner, key in parts)
    return next(filter(None, found), None)


def depth_of(value):
    """How deep a value is nested, of equal keys the last alone."""
    deepest, level = 0, [value]
    while level := [it for it in level if isinstance(it, list)]:
        deepest += 1
        level = [
            inner for it in level
            for inner in (dict(it).values() if isinstance(it, hublog.Pairs) else it)
        ]
    return deepest


def plain(value):
    """A value with its objects as Python has them."""
    if isinstance(value, hublog.Pairs):
        return {key: plain(it) for key, it in dict(value).items()}
    return list(map(plain, value)) if isinstance(value, list) else value


def compact(value):
    return json.dumps(plain(value), ensure_ascii=False, separators=(",", ":"), sort_keys=True)


def url_fault(url):
    try:
        weburl.origin_of(url)
    except weburl.OpaqueOrigin:
        return Fault(SYNTAX, f"origin: {shown(url)} has an opaque origin, which no agent has")
    except weburl.BadUrl:
        said = f"origin: {shown(url)} is no URL"
        if weburl.SCHEME.match(url) is None:
            said += f": it has no scheme, as {shown('https://' + url)} has"
        return Fault(SYNTAX, said)
    return None

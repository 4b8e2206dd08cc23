"""Logs as docs/FORMATS.md defines them: reads them, and judges them.

This is the second checker beside `messagehub check`, with which it shares no code. `tools/judge` is
its command, `tools/draw` draws what it reads, and tests/soak compares its verdicts with those of
the program. `read_logs` gives the logs, `judge` their verdict, `deliveries` what was delivered,
`answer` what is printed for any bytes, and `text_of` an entry as logs have it.
"""

import bisect
import dataclasses
import itertools
import json
import re

MOST_AGENT = 15
MOST_END = 65_535
MOST_EPOCH = 65_535
MOST_NUMBER = 2**62 - 1
MOST_PORTS = 16
MOST_NESTING = 64
# What the JSON reader of the program takes at all.
MOST_NESTING_READ = 127
LEAST_WHOLE = -(2**63)
MOST_WHOLE = 2**64 - 1

# header: whether it has notices, the greatest line, the greatest length of a body in bytes
FORMS = {
    b"hublog 1": (False, 15, 65_536),
    b"hublog 2": (True, 15, 65_536),
    b"hublog 3": (True, 31, 262_144),
}

# An opening bracket and a closing one, and texts, whose brackets are none.
BRACKETS = re.compile(r'"[^"\\]*(?:\\.[^"\\]*)*"?|([\[{])|([\]}])', re.DOTALL)
NUMBER = re.compile(r"(?:0|[1-9][0-9]*)\Z")


class BadInput(Exception):
    """A bad line: its number, from 1, and its kind."""

    def __init__(self, line, kind):
        super().__init__(f"line {line}: {kind}")
        self.line, self.kind = line, kind


class NotThis(Exception):
    """A line or a body that isn't of the form."""


class Fraction:
    """A number in a body that isn't whole, or too great."""


class Entry:
    """A `put` or `got` entry. `content` is (list, body), or None of a notice."""

    __slots__ = ("end", "line", "epoch", "number", "content", "at")

    def __init__(self, end, line, epoch, number, content, at):
        self.end, self.line, self.epoch, self.number = end, line, epoch, number
        self.content, self.at = content, at

    def name(self):
        return self.epoch, self.number

    def name_text(self):
        return f"{self.epoch}:{self.number}"

    def key(self):
        """What tells it from all others: its end, its line and its name."""
        return self.end, self.line, self.epoch, self.number


@dataclasses.dataclass(eq=False, slots=True)
class Item:
    """An entry of any word, with its agent and its line in the input."""

    agent: int
    word: str
    said: object
    at: int

    @property
    def end(self):
        if self.word in ("put", "got"):
            return self.said.end
        return self.said[0] if self.word == "adopted" else self.said

    @property
    def is_message(self):
        return self.word in ("put", "got") and self.said.content is not None

    @property
    def is_notice(self):
        return self.word in ("put", "got") and self.said.content is None

    @property
    def ports(self):
        return self.said.content[0] if self.is_message else ()

    def name(self):
        return self.said.name_text()


class Log:
    """What one agent logged: pairs of a word and what stands behind it, in order.

    `places` has the number of each entry's text line, from 1.
    """

    def __init__(self, agent):
        self.agent = agent
        self.entries, self.places = [], []

    def without(self, left_out):
        other = Log(self.agent)
        for entry, at in zip(self.entries, self.places):
            if at not in left_out:
                other.entries.append(entry)
                other.places.append(at)
        return other


# Bodies


def whole(digits):
    # The reader of the program holds `-0` as a float.
    if digits == "-0" or len(digits) > 20:
        return Fraction
    number = int(digits)
    return number if LEAST_WHOLE <= number <= MOST_WHOLE else Fraction


def fraction(digits):
    if float(digits) in (float("inf"), float("-inf")):
        raise NotThis
    return Fraction


def refuse(_constant):
    raise NotThis


class Pairs(list):
    """The members of an object as they stand in the text, equal keys among them."""


DECODER = json.JSONDecoder(
    object_pairs_hook=Pairs, parse_int=whole, parse_float=fraction, parse_constant=refuse
)
ENCODER = json.JSONEncoder(ensure_ascii=False, separators=(",", ":"), sort_keys=True)


def nesting_in(text):
    """How deep brackets are nested in a JSON text, also in values that equal keys replace."""
    if text.count("[") + text.count("{") <= MOST_NESTING_READ:
        return 0
    steps = ((found[1] is not None) - (found[2] is not None) for found in BRACKETS.finditer(text))
    return max(itertools.accumulate(steps, initial=0))


def check_texts(value):
    """Refuses texts that stand for no characters, also in values that equal keys replace."""
    # Half of a surrogate pair that stands alone is no character.
    if isinstance(value, str) and any("\ud800" <= letter <= "\udfff" for letter in value):
        raise NotThis
    if isinstance(value, Pairs):
        for key, member in value:
            check_texts(key)
            check_texts(member)
    elif isinstance(value, list):
        for member in value:
            check_texts(member)


def profile_of(value, depth):
    """The value with the last of equal keys alone, which has to be whole and flat enough."""
    if value is Fraction:
        raise NotThis
    if isinstance(value, list):
        if depth == MOST_NESTING:
            raise NotThis
        if isinstance(value, Pairs):
            return {key: profile_of(member, depth + 1) for key, member in dict(value).items()}
        return [profile_of(member, depth + 1) for member in value]
    return value


def json_of(text):
    """The value of a JSON text, with objects as Pairs. NotThis where the program reads none."""
    if nesting_in(text) > MOST_NESTING_READ:
        raise NotThis
    try:
        value = DECODER.decode(text)
    except ValueError:
        raise NotThis from None
    check_texts(value)
    return value


def compact_body(text):
    if text.startswith(" "):
        raise NotThis
    value = profile_of(json_of(text), 0)
    return ENCODER.encode(value)


# Log lines


def number_of(word, most):
    if not NUMBER.match(word) or len(word) > 20 or int(word) > most:
        raise NotThis
    return int(word)


def list_of(word):
    if word == "-":
        return ()
    ends = tuple(number_of(part, MOST_END) for part in word.split(","))
    if len(ends) > MOST_PORTS or len(set(ends)) < len(ends):
        raise NotThis
    return ends


def entry_of(rest, form, at):
    """An entry from `E L EP:N LIST BODY` or `E L EP:N notice`."""
    has_notices, most_line, most_bytes = form
    words = rest.split(" ", 4)
    if len(words) < 4 or words[2].count(":") != 1:
        raise NotThis
    epoch, number = words[2].split(":")
    if len(words) == 4:
        if words[3] != "notice" or not has_notices:
            raise NotThis
        content = None
    else:
        body = compact_body(words[4])
        if len(body.encode()) > most_bytes:
            raise NotThis
        content = (list_of(words[3]), body)
    end, line = number_of(words[0], MOST_END), number_of(words[1], most_line)
    name = number_of(epoch, MOST_EPOCH), number_of(number, MOST_NUMBER)
    return Entry(end, line, *name, content, at)


def log_line_of(text, form, at):
    word, space, rest = text.partition(" ")
    if not space:
        raise NotThis
    if word in ("put", "got"):
        return word, entry_of(rest, form, at)
    if word == "agent":
        return word, number_of(rest, MOST_AGENT)
    if word == "closed":
        return word, number_of(rest, MOST_END)
    if word == "adopted":
        parts = rest.split(" ")
        if len(parts) != 2:
            raise NotThis
        return word, (number_of(parts[0], MOST_END), number_of(parts[1], MOST_EPOCH))
    raise NotThis


def lines_of(data):
    lines = data.split(b"\n")
    return lines[:-1] if lines[-1] == b"" else lines


def read_logs(data):
    """The logs that the bytes spell. BadInput tells the first bad line."""
    return logs_of(lines_of(data))


def logs_of(lines):
    """The logs that the text lines spell."""
    if not lines:
        return []
    form = FORMS.get(lines[0])
    if form is None:
        raise BadInput(1, "BadHeader")
    logs, closed = [], set()
    for at, line in enumerate(lines[1:], 2):
        if line == b"deliveries":
            break
        try:
            word, said = log_line_of(line.decode(), form, at)
        except (NotThis, UnicodeDecodeError, RecursionError):
            raise BadInput(at, "BadLine") from None
        if word == "agent":
            logs.append(Log(said))
        elif not logs or (word == "closed" and said in closed):
            raise BadInput(at, "BadLine")
        else:
            logs[-1].entries.append((word, said))
            logs[-1].places.append(at)
            if word == "closed":
                closed.add(said)
    return logs


# The verdict


def accepted_lists(logs):
    """By (end, line): the `put` entries by epoch and number, then in the order of the input."""
    found = {}
    for log in logs:
        for word, said in log.entries:
            if word == "put":
                found.setdefault((said.end, said.line), []).append(said)
    for entries in found.values():
        entries.sort(key=Entry.name)
    return found


def arrivals_of(logs):
    """By end: (stretch, place in the input, entry or None where the end was closed), in order."""
    found, place = {}, 0
    for log in logs:
        stretches = {}
        for word, said in log.entries:
            place += 1
            if word == "adopted":
                stretches[said[0]] = said[1]
            elif word == "got":
                found.setdefault(said.end, []).append((stretches.get(said.end, 0), place, said))
            elif word == "closed":
                found.setdefault(said, []).append((stretches.get(said, 0), place, None))
    for arrivals in found.values():
        arrivals.sort(key=lambda arrival: arrival[:2])
    return found


def got_lists(logs):
    """By (end, line): pairs of a `got` entry and whether it comes after the end was closed."""
    found = {}
    for end, arrivals in arrivals_of(logs).items():
        is_closed = False
        for _, _, entry in arrivals:
            if entry is None:
                is_closed = True
            else:
                found.setdefault((end, entry.line), []).append((entry, is_closed))
    return found


class LineJudge:
    """Judges what is got on one line, one entry after another, and goes on behind each fault.

    `due` is the place in the accepted list of what is next. An entry with that name moves it on by
    one, and so does a Changed one. Behind a Gap it stands behind what came: what was passed over
    may still come, and is no other fault then. Twice and Foreign leave it where it is. Whatever
    comes behind the close, or behind the notice, is a fault of that kind.
    """

    def __init__(self, accepted):
        self.accepted, self.due = accepted, 0
        self.names = [entry.name() for entry in accepted]
        self.earlier, self.is_noticed = set(), False

    def kind_of(self, entry, is_late):
        """What is wrong with the next entry that was got, or None."""
        kind = self.kind_here(entry, entry.name(), is_late)
        self.is_noticed = self.is_noticed or entry.content is None
        self.earlier.add(entry.name())
        return kind

    def kind_here(self, entry, name, is_late):
        if is_late:
            return "AfterClose"
        if self.is_noticed:
            return "AfterNotice"
        if self.due < len(self.names) and self.names[self.due] == name:
            self.due += 1
            return self.changed(entry, self.due - 1)
        if name in self.earlier:
            return "Twice"
        at = bisect.bisect_left(self.names, name, self.due)
        if at < len(self.names) and self.names[at] == name:
            self.due = at + 1
            return "Gap"
        at = bisect.bisect_left(self.names, name, 0, self.due)
        is_passed = at < self.due and self.names[at] == name
        return self.changed(entry, at) if is_passed else "Foreign"

    def changed(self, entry, at):
        return None if self.accepted[at].content == entry.content else "Changed"


def faults_of_line(got, accepted):
    """All that is wrong on a line: the place, the kind, and where what is next stood before it."""
    line = LineJudge(accepted)
    for place, (entry, is_late) in enumerate(got):
        due = line.due
        kind = line.kind_of(entry, is_late)
        if kind is not None:
            yield place, kind, due


def judge(logs):
    accepted = accepted_lists(logs)
    for (end, line), got in sorted(got_lists(logs).items()):
        for place, kind, _ in faults_of_line(got, accepted.get((end, line), [])):
            return f"fault {end} {line} {place} {kind}"
    return "clean"


def deliveries(logs):
    """The lines that `run` prints between `deliveries` and the verdict."""
    found = []
    for (end, line), got in sorted(got_lists(logs).items()):
        names = " ".join(entry.name_text() for entry, _ in got)
        found.append(f"end {end} line {line} {names}")
    return found


def answer(data):
    """What is printed for the bytes, without its LF, and the status."""
    try:
        verdict = judge(read_logs(data))
    except BadInput as bad:
        return str(bad), 2
    return verdict, 0 if verdict == "clean" else 1


def text_of(word, said):
    """An entry as it stands in logs, its body as compact text."""
    if word == "closed":
        return f"closed {said}"
    if word == "adopted":
        return f"adopted {said[0]} {said[1]}"
    content = "notice"
    if said.content:
        content = f"{','.join(map(str, said.content[0])) or '-'} {said.content[1]}"
    return f"{word} {said.end} {said.line} {said.name_text()} {content}"

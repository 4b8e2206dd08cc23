"""Records what the agents of a hub put and got, as logs of docs/FORMATS.md (`hublog 3`).

    from hublog import Recorder

    with Recorder("logs/agent-0.log", 0) as log:
        log.put(1, 0, 0, 0, [], {"count": 1})     # accepted at end 1, line 0, under the name 0:0
    with Recorder("logs/agent-1.log", 1) as log:
        log.got(1, 0, 0, 0, [], {"count": 1})     # delivered under the name that travelled with it
        log.closed(1)

`tools/report logs` says whether the hub is right. Each agent has a file of its own, which must be
new, and an entry is in it before the call returns. The log of an agent is in the order in which it
acts: `got` comes before the message is used, and `put` directly before the hand-over. Where a
hand-over can be refused, as by a full queue, it stands within `putting`, which takes the entry back
where that raises an error:

    with log.putting(1, 0, 0, number, [], body):
        waiting.put_nowait((number, body))        # queue.Full: nothing was accepted or logged

A `put` directly behind the hand-over is as good, where that doesn't itself deliver: logs are
compared by names, and not by time. The name of a message has to travel with it: a receiver that
counts can't see a drop. A hub without epochs has epoch 0 in every name; its lines count over their
whole life, and `adopted(end, count)` says how often the end has moved.

The block's end, or `finish`, writes the last line, by which record/merge sees that the log is
whole. A body past the limits of docs/FORMATS.md (fractions, numbers of more than 64 bits, more than
64 levels, too many bytes, halves of a surrogate pair) is written as `digest` of its text. Other
wrong arguments raise Refused, whose `kind` says why, and nothing is written: BadAgent, BadEnd,
BadLine, BadEpoch, BadNumber, BadPorts, NotJson, PutTwice, ClosedTwice, Finished.
"""

import contextlib
import json
import reprlib

MOST_AGENT = 15
MOST_END = 65_535
MOST_LINE = 31
MOST_EPOCH = 65_535
MOST_NUMBER = 2**62 - 1
MOST_PORTS = 16
MOST_NESTING = 64
MOST_BYTES = 262_144
LEAST_WHOLE = -(2**63)
MOST_WHOLE = 2**64 - 1


class Refused(ValueError):
    """An argument that no log can have. `kind` says why."""

    def __init__(self, kind, value):
        super().__init__(f"{kind}: {reprlib.repr(value)}")
        self.kind = kind


# Bodies


def digest(data):
    """A body in place of bytes that no log can have, by which a change is still seen."""
    state = 0xCBF29CE484222325
    for byte in data:
        state = (state ^ byte) * 0x100000001B3 % 2**64
    return {"digest": f"fnv1a64 {state:016x} of {len(data)} bytes"}


def is_text(value):
    """Whether a text has no half of a surrogate pair."""
    return not any("\ud800" <= letter <= "\udfff" for letter in value)


def is_body(value, depth=0):
    """Whether a value that JSON can write is a body, its length aside."""
    if isinstance(value, str):
        return is_text(value)
    if isinstance(value, float):
        return False
    if isinstance(value, int):
        return LEAST_WHOLE <= value <= MOST_WHOLE
    if isinstance(value, (list, tuple)):
        return depth < MOST_NESTING and all(is_body(item, depth + 1) for item in value)
    if isinstance(value, dict):
        return depth < MOST_NESTING and all(
            is_text(key) and is_body(item, depth + 1) for key, item in value.items()
        )
    return True


def text_of(value, is_ascii=False):
    return json.dumps(
        value, ensure_ascii=is_ascii, check_circular=True, separators=(",", ":"), sort_keys=True
    )


def body_text(value):
    """The compact text of a body, or of the digest in its place. Refused where it is no JSON."""
    try:
        if has_other_keys(value):
            raise Refused("NotJson", value)
        escaped = text_of(value, is_ascii=True)
        if is_body(value):
            text = text_of(value)
            if len(text.encode()) <= MOST_BYTES:
                return text
    except (TypeError, ValueError, RecursionError) as error:
        raise Refused("NotJson", value) from error
    return text_of(digest(escaped.encode()))


def has_other_keys(value):
    """Whether an object in it has a key that is no text, which JSON would change into one."""
    if isinstance(value, dict):
        return any(not isinstance(key, str) or has_other_keys(value[key]) for key in value)
    return isinstance(value, (list, tuple)) and any(map(has_other_keys, value))


# Entries


def number(kind, value, most):
    if isinstance(value, bool) or not isinstance(value, int) or not 0 <= value <= most:
        raise Refused(kind, value)
    return value


def place_text(end, line, epoch, count):
    """`E L EP:N` of an entry."""
    number("BadEnd", end, MOST_END)
    number("BadLine", line, MOST_LINE)
    number("BadEpoch", epoch, MOST_EPOCH)
    number("BadNumber", count, MOST_NUMBER)
    return f"{end} {line} {epoch}:{count}"


def ports_text(ports):
    """`LIST` of an entry."""
    ports = [number("BadPorts", port, MOST_END) for port in ports]
    if len(ports) > MOST_PORTS or len(set(ports)) < len(ports):
        raise Refused("BadPorts", ports)
    return ",".join(map(str, ports)) or "-"


class Recorder:
    """The log of one agent, in a new file. Each call writes one entry."""

    def __init__(self, path, agent):
        number("BadAgent", agent, MOST_AGENT)
        # Without a buffer, what a call writes is in the file when it returns.
        self.file, self.size = open(path, "xb", buffering=0), 0
        self.names, self.ended = set(), set()
        self.write(f"hublog 3\nagent {agent}")

    def __enter__(self):
        return self

    def __exit__(self, *_):
        self.finish()

    def put(self, end, line, epoch, count, ports, body):
        """A message was accepted on a line of an end, under the name `epoch:count`."""
        place = place_text(end, line, epoch, count)
        self.write_put(place, f"{ports_text(ports)} {body_text(body)}")

    @contextlib.contextmanager
    def putting(self, end, line, epoch, count, ports, body):
        """A put round the hand-over, which is taken back where that raises an error."""
        size = self.size
        self.put(end, line, epoch, count, ports, body)
        behind = self.size
        try:
            yield
        except BaseException:
            # An entry that was written meanwhile stays, and so does the put before it.
            if self.size == behind and not self.file.closed:
                self.file.truncate(self.file.seek(size))
                self.size = size
                self.names.discard(place_text(end, line, epoch, count))
            raise

    def got(self, end, line, epoch, count, ports, body):
        """A message was delivered, under the name that travelled with it."""
        place = place_text(end, line, epoch, count)
        self.write(f"got {place} {ports_text(ports)} {body_text(body)}")

    def put_notice(self, end, line, epoch, count):
        """The last message of a line was accepted: it says that nothing more comes there."""
        self.write_put(place_text(end, line, epoch, count), "notice")

    def got_notice(self, end, line, epoch, count):
        """The last message of a line was delivered."""
        self.write(f"got {place_text(end, line, epoch, count)} notice")

    def adopted(self, end, epoch):
        """The agent adopted an end, whose newest queue is `epoch`."""
        number("BadEnd", end, MOST_END)
        self.write(f"adopted {end} {number('BadEpoch', epoch, MOST_EPOCH)}")

    def closed(self, end):
        """The agent closed an end."""
        if number("BadEnd", end, MOST_END) in self.ended:
            raise Refused("ClosedTwice", end)
        self.write(f"closed {end}")
        self.ended.add(end)

    def finish(self):
        """Writes the last line: the log is whole. More calls of it do nothing."""
        if not self.file.closed:
            self.write("deliveries")
            self.file.close()

    def write_put(self, place, content):
        if place in self.names:
            raise Refused("PutTwice", place)
        self.write(f"put {place} {content}")
        self.names.add(place)

    def write(self, line):
        if self.file.closed:
            raise Refused("Finished", line)
        rest = memoryview(f"{line}\n".encode())
        self.size += len(rest)
        while rest:
            rest = rest[self.file.write(rest) :]

"""What came at each end in a run, as people read it, and what was expected to come there.

Both have one form, so that what `tools/play` prints can be kept and expected of the next run:

  rx: "a", {"n":1} with port, *
  queue of 1:
      "a long message may stand on a line of its own"

A name is that of a port or of a broadcast channel, as JSON where it isn't a plain word; `queue of
A` is the queue of the agent with that number or name. `with` has the ports that came in a message,
and `*` stands for whatever comes, also for nothing.
"""

import json
import re

import hublog
import scriptlines

PLAIN = re.compile(r"[^\W\d][\w.-]*")
QUEUE_OF = "queue of "
WITH, AND = " with ", " and "
SPACE = re.compile(r"\s*")
# A name, and a colon behind it.
HEAD = re.compile(r'((?:queue of )?(?:"(?:[^"\\]|\\.)*"|[^":]+)):')
# A port that came in a message: the first one behind `with`, and others behind `and`.
PORT = re.compile(r'\s+(with|and)\s+("(?:[^"\\]|\\.)*"|[^\s,]+)')
COLUMNS = 100
ANY = "*"


class BadExpectation(hublog.BadInput):
    """A line of expectations that can't be read: its number, and why."""


def name_of(text):
    return text if PLAIN.fullmatch(text) else json.dumps(text, ensure_ascii=False)


class Names:
    def __init__(self, script):
        agents = [it.name for it in script.agents]
        queues = [
            QUEUE_OF + (str(at) if name is None else name_of(name))
            for at, name in enumerate(agents)
        ]
        self.ends = queues + [name_of(name) for name in script.end_names()]
        self.numbers = {name: end for end, name in enumerate(self.ends)}
        self.numbers |= {f"{QUEUE_OF}{at}": at for at in range(len(agents))}

    def end(self, name):
        """The number of the end of that name. KeyError says that there is none."""
        if name.startswith('"'):
            name = name_of(json.loads(name))
        return self.numbers[name]

    def message(self, ports, body):
        """A message as it is printed, and as it is expected."""
        names = AND.join(self.ends[port] for port in ports)
        return body + (WITH + names if names else "")


# What came


def deliveries(logs, names):
    found = {}
    for end, arrivals in sorted(hublog.arrivals_of(logs).items()):
        entries = [entry for _, _, entry in arrivals if entry is not None]
        messages = [names.message(*it.content) for it in entries if it.content is not None]
        if messages:
            found[end] = messages
    return found


def lines_of(found, names):
    for end, messages in found.items():
        line = f"{names.ends[end]}: {', '.join(messages) or 'nothing'}"
        if len(line) <= COLUMNS:
            yield line
        else:
            yield f"{names.ends[end]}:"
            yield from (f"    {message}" for message in messages)


class Expectation:
    """What has to come at an end: messages, and ANY for whatever."""

    def __init__(self, end, messages):
        self.end, self.messages = end, messages

    def is_met(self, came):
        """Whether what came is what was expected, with whatever in the place of each ANY."""
        reached = {0}
        for wanted in self.messages:
            if wanted == ANY:
                reached = set(range(min(reached), len(came) + 1))
            else:
                reached = {at + 1 for at in reached if at < len(came) and came[at] == wanted}
            if not reached:
                return False
        return len(came) in reached


class Reader:
    """Reads what is expected: pairs of a name and messages, some on lines of their own.

    BadExpectation tells the first line that can't be read.
    """

    def __init__(self, names):
        self.names, self.found = names, []

    def read(self, data):
        for number, line in enumerate(hublog.lines_of(data), 1):
            try:
                self.read_line(line.decode().rstrip())
            except (ValueError, hublog.NotThis) as why:
                raise BadExpectation(number, why) from None
        return self.found

    def read_line(self, line):
        if not line.strip() or line.lstrip().startswith("//"):
            return
        if not line[0].isspace():
            name, line = self.split_name(line)
            end = self.end_of(name)
            if any(it.end == end for it in self.found):
                raise ValueError(f"{name} stands twice")
            self.found.append(Expectation(end, []))
        if not self.found:
            raise ValueError("a name and a colon were expected, as in `rx: \"a\", \"b\"`")
        self.found[-1].messages += self.messages_in(line.strip().removesuffix(","))

    def split_name(self, line):
        found = HEAD.match(line)
        if found is None:
            raise ValueError("a name and a colon were expected, as in `rx: \"a\", \"b\"`")
        return found[1], line[found.end():]

    def end_of(self, name):
        """The number of the end of a name that the file gives."""
        try:
            return self.names.end(name)
        except (KeyError, ValueError):
            near = scriptlines.close_to(name, self.names.numbers)
            raise ValueError(f"the script has no {scriptlines.cut(name)}{near}") from None

    def messages_in(self, text):
        at = 0
        while at < len(text):
            if text.startswith(ANY, at):
                message, at = ANY, at + 1
            else:
                message, at = self.message_at(text, at)
            yield message
            at = SPACE.match(text, at).end()
            if at < len(text) and text[at] != ",":
                raise ValueError(f"a comma was expected before {scriptlines.cut(text[at:])}")
            at = SPACE.match(text, at + 1).end() if at < len(text) else at

    def message_at(self, text, start):
        try:
            _, at = json.JSONDecoder().raw_decode(text, start)
            body = hublog.compact_body(text[start:at])
        except (ValueError, hublog.NotThis):
            said = scriptlines.cut(text[start:])
            raise ValueError(f"{said} is no message: JSON or * was expected") from None
        ports = []
        while (found := PORT.match(text, at)) and found[1] == ("and" if ports else "with"):
            ports.append(self.end_of(found[2]))
            at = found.end()
        return self.names.message(ports, body), at


def unmet(found, wanted, names):
    for expectation in wanted:
        came = found.get(expectation.end, [])
        if not expectation.is_met(came):
            name = names.ends[expectation.end]
            yield f"{name}: expected {', '.join(expectation.messages) or 'nothing'}"
            yield f"{' ' * len(name)}  and got {', '.join(came) or 'nothing'}"

"""Scripts as docs/FORMATS.md defines them: what they declare, what each agent does, all mistakes.

`read` gives a script, or raises BadScript with its mistakes, of which the first is the one that the
program tells. Beyond what the program reads, a script may have lines of comment (`//`), blank
lines, and agents with names, unless it is read strictly; `Script.text` has none of them any more.
"""

import dataclasses
import functools
import re

import hublog
import scriptlines
import weburl
from scriptlines import QUEUE, SYNTAX, TOO_LARGE, UNKNOWN_NAME, shown

MOST_LINES = 4_096
MOST_AGENTS = 16
# The actions whose field names an agent, and those whose field names a port or a member.
AGENT_WORDS = ("send", "order", "hand", "fetch")
END_WORDS = ("post", "cast", "start", "loaded", "close", "receive")
CALLED = {"port": "port", "member": "broadcast channel"}
# After so many lines an object that has not ended isn't looked for any more.
MOST_JOINED = 100
DECLARES = re.compile(rb'"(?:agent|channel|member)"')


@dataclasses.dataclass(frozen=True)
class Mistake:
    """What is wrong with a line of a script, by the line's number from 1."""

    line: int
    kind: str
    said: str

    def __str__(self):
        return f"line {self.line}: {self.said}"


class BadScript(Exception):
    """The mistakes of a script. As a text it is what the program says: the first line and kind."""

    def __init__(self, mistakes):
        super().__init__(f"line {mistakes[0].line}: {mistakes[0].kind}")
        self.mistakes = mistakes


@dataclasses.dataclass(frozen=True)
class Agent:
    kind: str
    origin: str
    name: str | None = None


class Declared:
    """A port or a member: its number as an end, who declares it where, its peer; or what it is `on`
    and its key, that with its origin."""

    def __init__(self, kind, name, agent, line, on=None):
        self.kind, self.name, self.agent, self.line = kind, name, agent, line
        self.on, self.end, self.peer, self.key = on, None, None, None


class Action:
    """One action. Ends are named by their numbers; an agent's number is that of its queue too."""

    def __init__(self, line, word, values, end_of):
        self.line, self.agent, self.word = line, values["at"], word
        value = values[word]
        self.to = value if word in AGENT_WORDS else None
        self.count = value if word == "wait" else 0
        self.end = None
        if word in END_WORDS:
            self.end = self.agent if value == QUEUE else end_of[value]
        self.body = scriptlines.compact(values["body"]) if "body" in values else None
        self.transfer = tuple(end_of[name] for name in values.get("transfer", ()))


class Script:
    """Agents, what is declared by rising number of its end, and the actions by agent."""

    def __init__(self, reader):
        self.agents, self.declared = reader.agents, reader.ports + reader.members
        for end, declared in enumerate(self.declared, len(self.agents)):
            declared.end = end
            if declared.kind == "member":
                origin = weburl.origin_of(self.agents[declared.agent].origin)
                declared.key = origin, declared.on
        end_of = {it.name: it.end for it in self.declared}
        self.actions = [[] for _ in self.agents]
        for line, word, values in reader.actions:
            self.actions[values["at"]].append(Action(line, word, values, end_of))
        # The agents that hand their queue on.
        self.handed = set(reader.handed)
        # What the program reads, and the number of each of its lines in the file.
        lines = (reader.as_program_reads(*told) for _, *told in reader.lines)
        self.text = b"".join(line + b"\n" for line in lines)
        self.places = [place for place, *_ in reader.lines]

    def end_count(self):
        return len(self.agents) + len(self.declared)

    def declared_of(self, end):
        return self.declared[end - len(self.agents)]

    def targets(self, action):
        """The ends at which an action puts its message. A post whose list holds its own target is
        doomed, and puts nothing."""
        if action.word == "send":
            return {action.to}
        if action.word not in ("post", "cast"):
            return set()
        source = self.declared_of(action.end)
        if action.word == "post":
            return {source.peer.end}.difference(action.transfer)
        return {it.end for it in self.declared if it.key == source.key and it is not source}

    def end_names(self):
        return [it.name for it in self.declared]


@functools.lru_cache(maxsize=4)
def read(data, is_strict=False):
    """The script that the bytes spell, which nobody changes. BadScript has its mistakes."""
    reader = Reader(is_strict)
    reader.read(hublog.lines_of(data))
    if reader.mistakes:
        raise BadScript(reader.mistakes)
    return Script(reader)


class Reader:
    """What the lines so far say. A line with a mistake says what it was meant to, if that shows."""

    def __init__(self, is_strict):
        self.is_strict = is_strict
        self.mistakes, self.line, self.count = [], 0, 0
        self.agents, self.ports, self.members, self.actions = [], [], [], []
        # Of ports and members, by name. By agent and name: what is held, and how it was lost.
        self.named, self.held, self.lost = {}, set(), {}
        # By the name of an agent, its number; by agent, the line at which it hands its queue on.
        self.agent_names, self.handed = {}, {}
        self.first_action = None
        self.lines = []
        # Whether each declaration could be read, so that what isn't declared is a mistake.
        self.is_whole = True

    def tell(self, kind, said):
        self.mistakes.append(Mistake(self.line, kind, said))

    def tell_all(self, faults):
        for fault in faults:
            if fault is not None:
                self.tell(fault.kind, fault.said)

    # Lines

    def read(self, lines):
        at = 0
        while at < len(lines) and self.count <= MOST_LINES:
            self.line = at + 1
            at += self.read_line(lines, at)

    def read_line(self, lines, at):
        """Reads a line, and those that its object goes on to. Gives how many that were."""
        line = lines[at]
        is_left_out = not line.strip() or line.lstrip().startswith(b"//")
        if is_left_out and not self.is_strict:
            return 1
        self.count += 1
        try:
            self.read_object(line, scriptlines.object_in(line))
        except scriptlines.NoObject as why:
            if is_left_out and line.strip():
                why = "a comment: with --strict each line is an object"
            return self.read_joined(lines, at, str(why))
        return 1

    def read_joined(self, lines, at, why):
        """Reads an object that stands on several lines, which is one mistake, or tells why not."""
        starts = lines[at].lstrip().startswith(b"{")
        for end in range(at + 2, min(at + MOST_JOINED, len(lines)) + 1) if starts else ():
            joined = b" ".join(lines[at:end])
            try:
                fields = scriptlines.object_in(joined)
            except scriptlines.NoObject:
                continue
            self.tell(SYNTAX, f"the object goes on to line {end}: one object a line was expected")
            self.read_object(joined, fields)
            return end - at
        self.is_whole = self.is_whole and not DECLARES.search(lines[at])
        self.tell(SYNTAX, why)
        return 1

    def read_object(self, line, fields):
        word = scriptlines.keyword_of(fields)
        if word is None:
            fault, fields = scriptlines.unknown_action(fields)
            self.tell_all([fault])
            if fields is None:
                return
            word = scriptlines.keyword_of(fields)
        fields, faults = scriptlines.fields_meant(word, fields, not self.is_strict)
        self.tell_all(faults)
        self.lines.append((self.line, line, word, fields))
        if word in scriptlines.DECLARATIONS:
            self.read_declaration(word, fields)
        else:
            self.first_action = self.first_action or self.line
            self.read_action(word, fields)

    def as_program_reads(self, line, word, fields):
        form = scriptlines.FORMS[word]
        numbers = {
            name: self.agent_names.get(field.value)
            for name, field in fields.items()
            if form.get(name) == scriptlines.AGENT and isinstance(field.value, str)
        }
        if not numbers and scriptlines.NAME not in fields:
            return line
        kept = {name: field.value for name, field in fields.items() if name in form}
        return scriptlines.compact(hublog.Pairs({**kept, **numbers}.items())).encode()

    def values_of(self, word, fields):
        """The values that are of their types, with agents by number, and names that none has."""
        values, strangers = {}, []
        for name, what in scriptlines.FORMS[word].items():
            field = fields.get(name)
            if field is None:
                continue
            if what == scriptlines.AGENT and self.agent_names and isinstance(field.value, str):
                values[name] = self.agent_names.get(field.value)
                if values[name] is None:
                    strangers.append((name, field.value))
                continue
            fault = scriptlines.type_fault(name, what, field)
            self.tell_all([fault])
            values[name] = None if fault else field.value
        return values, strangers

    def has_room(self):
        if self.count > MOST_LINES:
            self.tell(TOO_LARGE, f"a script has at most {MOST_LINES:,} lines")
        return self.count <= MOST_LINES

    # Declarations

    def read_declaration(self, word, fields):
        values, strangers = self.values_of(word, fields)
        if word == "agent" and scriptlines.NAME in fields and not self.is_strict:
            self.name_agent(fields[scriptlines.NAME])
        if self.first_action:
            said = f"{shown(word)} stands behind an action, that of line {self.first_action}"
            self.tell(SYNTAX, f"{said}: declarations come first")
        names = values.get("channel") or [values.get("member")]
        names = [it for it in names if it is not None]
        self.test_free(word, names)
        self.test_agents(word, values, strangers)
        if self.has_room():
            getattr(self, f"declare_{word}")(values, names)

    def name_agent(self, field):
        name = field.value
        if not isinstance(name, str):
            self.tell(SYNTAX, f"name: {shown(field.written)} is no text")
        elif name in self.agent_names:
            self.tell(SYNTAX, f"name: agent {self.agent_names[name]} has the name {shown(name)}")
        else:
            self.agent_names[name] = len(self.agents)

    def test_free(self, word, names):
        for at, name in enumerate(names):
            why = "stands twice" if name in names[:at] else ""
            if name in self.named:
                why = f"is declared at line {self.named[name].line}"
            if name == QUEUE:
                why = "is each agent's own queue"
            if why:
                self.tell(SYNTAX, f"{word}: {shown(name)} {why}: another name was expected")

    def declare_agent(self, values, _names):
        if len(self.agents) == MOST_AGENTS:
            self.tell(TOO_LARGE, f"a script has at most {MOST_AGENTS} agents")
        url = values.get("origin")
        self.tell_all([None if url is None else scriptlines.url_fault(url)])
        number = len(self.agents)
        name = next((it for it, agent in self.agent_names.items() if agent == number), None)
        self.agents.append(Agent(values.get("agent"), url, name))

    def declare_channel(self, values, names):
        pair = [self.declare("port", name, values.get("at")) for name in names]
        for port, peer in zip(pair, reversed(pair)):
            port.peer = peer
        self.ports += pair

    def declare_member(self, values, names):
        for name in names:
            self.members.append(self.declare("member", name, values.get("at"), values.get("on")))

    def declare(self, kind, name, agent, on=None):
        declared = Declared(kind, name, agent, self.line, on)
        self.named.setdefault(name, declared)
        self.held.add((agent, name))
        return declared

    # Actions

    def read_action(self, word, fields):
        """Makes the tests of an action in the order of docs/FORMATS.md, and adds what it does."""
        values, strangers = self.values_of(word, fields)
        for said in self.place_faults(word, values):
            self.tell(SYNTAX, said)
        self.test_agents(word, values, strangers)
        self.test_names(word, values)
        self.test_transfer(word, values)
        if not self.has_room():
            return
        if len(values.get("transfer") or ()) > hublog.MOST_PORTS:
            count = len(values["transfer"])
            self.tell(TOO_LARGE, f"transfer: {count} ports, and {hublog.MOST_PORTS} are the most")
        if "body" in fields:
            self.tell_all([scriptlines.body_fault(fields["body"])])
        self.act(word, values)

    def agent_at(self, number):
        agents = self.agents
        return agents[number] if number is not None and number < len(agents) else None

    def called(self, number):
        """An agent as it is told: by its name, if it has one."""
        agent = self.agent_at(number)
        return f"agent {shown(agent.name) if agent and agent.name is not None else number}"

    def place_faults(self, word, values):
        number, value = values.get("at"), values.get(word)
        agent, handed = self.agent_at(number), self.handed.get(number)
        kind, called = agent and agent.kind, self.called(number)
        if word in ("start", "loaded") and value == QUEUE and kind == "worker":
            yield f"{word}: {called} is a worker, whose queue is started by itself: a window was " \
                  "expected"
        if (word in ("start", "loaded") and value == QUEUE or word == "hand") and handed:
            yield f"{word}: {called} has handed its queue on at line {handed}"
        if word == "event" and kind == "window":
            yield f"event: {called} is a window: a worker was expected"
        if word in ("hand", "fetch") and number is not None and number == value:
            yield f"{word}: {called} itself, where another agent was expected"

    def test_agents(self, word, values, strangers):
        if not self.is_whole:
            return
        for name, said in strangers:
            near = scriptlines.close_to(said, self.agent_names)
            self.tell(UNKNOWN_NAME, f"{name}: no agent has the name {shown(said)}{near}")
        count = len(self.agents)
        there = f"agents 0 to {count - 1} are" if count > 1 else "agent 0 is"
        there = there if count else "none is"
        for name, what in scriptlines.FORMS[word].items():
            number = values.get(name) if what == scriptlines.AGENT else None
            if number is not None and number >= count:
                self.tell(UNKNOWN_NAME, f"{name}: there is no agent {number}: {there} declared")

    def test_names(self, word, values):
        name, number = values.get(word), values.get("at")
        is_queue = word == "loaded" or (word, name) == ("start", QUEUE)
        if word in END_WORDS and name is not None and not is_queue:
            kind = {"cast": "member", "close": None}.get(word, "port")
            if self.is_declared(word, name, kind) and word != "receive":
                why = self.why_not_held(number, name)
                if why:
                    self.tell(UNKNOWN_NAME, why)
        for name in values.get("transfer") or ():
            self.is_declared("transfer", name, "port")

    def is_declared(self, field, name, kind):
        """Whether a name is declared as one of that kind, any where the kind is None."""
        declared = self.named.get(name)
        if declared is None:
            if self.is_whole:
                near = scriptlines.close_to(name, self.named)
                self.tell(UNKNOWN_NAME, f"{field}: {shown(name)} isn't declared{near}")
            return False
        if kind not in (None, declared.kind):
            said = f"{shown(name)} is a {CALLED[declared.kind]}, no {CALLED[kind]}"
            self.tell(UNKNOWN_NAME, f"{field}: {said}")
            return False
        return True

    def why_not_held(self, number, name):
        """Why an agent doesn't hold a name that is declared, or None."""
        declared = self.named[name]
        if (number, name) in self.held or None in (self.agent_at(number), declared.agent):
            return None
        said = f"{self.called(number)} doesn't hold {shown(name)}: "
        if (number, name) in self.lost:
            return said + self.lost[number, name]
        said += f"{self.called(declared.agent)} made it at line {declared.line}"
        return said + (', and no "receive" comes before' if declared.kind == "port" else "")

    def test_transfer(self, word, values):
        names, source = values.get("transfer") or (), values.get("post")
        if word == "post" and source in names:
            said = f"transfer: {shown(source)} is the port that posts: others were expected"
            self.tell("DataClone(Source)", said)
        for name in dict.fromkeys(it for it in names if names.count(it) > 1):
            said = f"transfer: {shown(name)} stands twice: different ports were expected"
            self.tell("DataClone(Twice)", said)
        for name in dict.fromkeys(names):
            why = name in self.named and self.why_not_held(values.get("at"), name)
            if why:
                self.tell("DataClone(Detached)", f"transfer: {why}")

    def act(self, word, values):
        number, name = values.get("at"), values.get(word)
        self.actions.append((self.line, word, values))
        if word in ("post", "send"):
            for port in values.get("transfer") or ():
                self.lose(number, port, "sent")
        elif word == "close":
            self.lose(number, name, "closed")
        elif word == "receive":
            self.held.add((number, name))
        elif word == "hand":
            self.handed.setdefault(number, self.line)

    def lose(self, number, name, how):
        self.held.discard((number, name))
        self.lost[number, name] = f"{how} at line {self.line}"

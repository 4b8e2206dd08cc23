"""The state machine behind step lines, for tools/steps-of and tools/why: see docs/FORMATS.md.

`Machine.do` takes a step line that is well formed and gives its outcome line. Bodies are taken for
compact text, and of an event it knows only whether it is `not-now`. `happened` has what the last
step line did, in the words of logs, and `why` the test that failed where it was `not-now`.
"""

# For Python 3.9, where the module lies beside the library's wrapper.
from __future__ import annotations

import typing

import weburl

MOST_AGENTS = 16
MOST_ENDS = 65_536
MOST_MOVES = 65_535
MOST_PORTS = 16
MOST_HOPS = 4
QUEUE_LINES = 32

# Where a poster is.
OUT, INSIDE, TURNED = "out", "inside", "turned"
PHASES = {OUT: "out", INSIDE: "inside", TURNED: "being turned back"}
# Where an end is: an agent has it, it is on its way, it has arrived, its envelope was discarded. Of
# a closed one this is where it was.
WITH, FLIGHT, ARRIVED, DISCARDED = "with", "flight", "arrived", "discarded"
NOT_NOW = "not-now"


class Refused(Exception):
    """A test of a step failed, with this outcome. `why` has the test, and `parts` what it names."""

    def __init__(self, outcome, why="", *parts):
        super().__init__(outcome)
        self.why, self.parts = why, parts

    def told(self):
        return self.why.format(*self.parts)


class Envelope(typing.NamedTuple):
    """What waits in a queue. The body of a notice is None."""

    line: int
    epoch: int
    number: int
    ports: tuple
    body: str | None

    def name(self):
        return f"{self.epoch}:{self.number}"


class Happened(typing.NamedTuple):
    """What an entry of a log says: `put`, `got`, `adopted` (with its epoch) or `closed`."""

    word: str
    end: int
    envelope: Envelope | None = None
    epoch: int | None = None


class Queue:
    """One queue of an end: what waits there, and how many envelopes each line has put."""

    def __init__(self, waiting=(), counts=(), is_clear=False):
        self.waiting, self.counts, self.is_clear = list(waiting), dict(counts), is_clear

    def copy(self):
        return Queue(self.waiting, self.counts, self.is_clear)


class Line:
    """A line, its poster and, of a queue of a client or worker, who holds it."""

    __slots__ = ("stand", "phase", "holder", "is_noticed", "count")

    def __init__(self):
        self.stand, self.phase, self.holder, self.is_noticed = 0, OUT, None, False
        # How many envelopes it has put in all queues.
        self.count = 0

    def copy(self):
        other = Line()
        other.stand, other.phase, other.holder = self.stand, self.phase, self.holder
        other.is_noticed, other.count = self.is_noticed, self.count
        return other


class End:
    """An end. The taker stands at the queue `stage`."""

    def __init__(self, number, kind, agent):
        self.number, self.kind = number, kind
        self.place, self.agent = WITH, agent
        self.queues, self.stage = [Queue()], 0
        self.is_enabled = kind in ("worker", "member")
        self.is_closed = self.has_parted = False
        self.peer = self.key = None
        self.lines = [Line() for _ in range(QUEUE_LINES if self.is_queue() else 1)]

    def copy(self):
        other = End.__new__(End)
        other.__dict__.update(self.__dict__)
        other.queues = [queue.copy() for queue in self.queues]
        other.lines = [line.copy() for line in self.lines]
        return other

    def is_queue(self):
        return self.kind in ("client", "worker")

    def newest(self):
        return len(self.queues) - 1

    def is_away_at(self, epoch):
        """Whether a poster is inside or being turned back at that queue, where it isn't clear."""
        if self.queues[epoch].is_clear:
            return False
        return any(line.phase != OUT and line.stand == epoch for line in self.lines)

    def is_held(self):
        return self.place == WITH and not self.is_closed

    def where(self):
        if self.is_closed:
            return f"end {self.number} is closed"
        return {
            WITH: "agent {1} has end {0}", FLIGHT: "end {0} is on its way",
            ARRIVED: "end {0} has arrived at agent {1}",
            DISCARDED: "the envelope that named end {0} was discarded",
        }[self.place].format(self.number, self.agent)

    def what(self):
        return f"end {self.number} is a {CALLED[self.kind]}"

    def next_name(self, line):
        """The epoch and the number of what the line would put where it stands."""
        stand = self.lines[line].stand
        return stand, self.queues[stand].counts.get(line, 0)

    def head(self):
        """What a taker gets next, and how many queues it leaves for that; None where nothing."""
        for epoch in range(self.stage, len(self.queues)):
            if self.queues[epoch].waiting:
                return self.queues[epoch].waiting[0], epoch - self.stage
            if self.is_away_at(epoch):
                return None
        return None


def list_of(word):
    return () if word == "-" else tuple(map(int, word.split(",")))


def need(holds, why, *parts):
    """Refuses the step unless the test holds."""
    if not holds:
        raise Refused(NOT_NOW, why, *parts)


def expect(holds, outcome):
    """Gives the outcome unless the test holds."""
    if not holds:
        raise Refused(outcome)


# What an end is called.
CALLED = {
    "port": "port", "client": "client queue", "worker": "worker queue",
    "member": "broadcast channel",
}


class Machine:
    def __init__(self):
        self.origins, self.ends, self.happened = [], [], []
        # The members in the order in which they joined.
        self.roster = []
        # The agent whose cast goes to a broadcast channel now.
        self.caster = None
        # The agents that were asked to end, those that end, and those that have had a life.
        self.ordered = self.ending = self.living = frozenset()
        self.has_memory, self.why = True, None

    def copy(self, numbers):
        """A copy that shares all ends but those of these numbers."""
        other = Machine()
        other.origins, other.roster = list(self.origins), list(self.roster)
        other.ordered, other.ending, other.living = self.ordered, self.ending, self.living
        other.ends = list(self.ends)
        for number in numbers:
            other.ends[number] = other.ends[number].copy()
        return other

    def do(self, text):
        """The outcome of a step line."""
        self.happened, self.why = [], None
        self.has_memory = not text.startswith("!")
        text = text.removeprefix("!")
        # A name and a body are the rest of the line, behind one word or two.
        word, *rest = text.split(" ", 2 if text.startswith("member ") else 3)
        try:
            return getattr(self, "do_" + word)(*rest)
        except Refused as refused:
            if str(refused) == NOT_NOW:
                self.why = refused.told()
            return str(refused)

    # What words name

    def end(self, word):
        number = int(word)
        need(number < len(self.ends), "there is no end {}", number)
        return self.ends[number]

    def agent(self, word):
        need(int(word) < len(self.origins), "there is no agent {}", word)
        return int(word)

    def running(self, word):
        agent = self.agent(word)
        need(agent not in self.ending, "agent {} runs no more: `see` showed it `ending`", agent)
        return agent

    def poster(self, word):
        """The end and the number of the line to which a poster posts."""
        number, slash, line = word.partition("/")
        end = self.end(number)
        if not slash:
            need(end.kind == "port", "{}, with posters {}/0 and so on", end.what(), end.number)
            return self.ends[end.peer], 0
        need(end.kind != "port", "{}, with poster {}", end.what(), end.number)
        need(int(line) < len(end.lines), "end {} has no line {}", end.number, line)
        return end, int(line)

    def source(self, end):
        return self.ends[end.peer]

    def speaker(self, end, line):
        """The running agent that holds a line, or None."""
        agent = end.lines[line].holder if end.is_queue() else self.caster
        if end.kind == "port":
            agent = self.source(end).agent if self.source(end).is_held() else None
        return None if agent in self.ending else agent

    def need_speaker(self, end, at):
        if self.speaker(end, at) is None:
            raise Refused(NOT_NOW, "{}", self.why_silent(end, at))

    def why_silent(self, end, at):
        if end.kind == "member":
            return f"{end.what()}, by whose line only a `cast` posts"
        if end.kind == "port" and not self.source(end).is_held():
            return self.source(end).where()
        agent = self.source(end).agent if end.kind == "port" else end.lines[at].holder
        if agent is None:
            return f"no agent holds line {at} of end {end.number}"
        return f"agent {agent}, which holds the line, runs no more"

    def need_entry(self, end, at):
        """Tests that a poster may enter, if only to put a notice."""
        if end.kind == "port":
            source = self.source(end)
            if source.place == FLIGHT or source.is_closed:
                raise Refused(NOT_NOW, "{}", source.where())
        else:
            self.need_speaker(end, at)

    def need_phase(self, end, at, *phases):
        phase = end.lines[at].phase
        need(phase in phases, "the poster is {}, not {}", PHASES[phase],
             " or ".join(PHASES[it] for it in phases))

    def need_no_notice(self, end, at):
        need(not end.lines[at].is_noticed, "end {} has put its notice", end.peer)

    def need_owner(self, end):
        if end.place != WITH:
            raise Refused(NOT_NOW, "{}", end.where())
        self.running(end.agent)

    def own_line(self, port):
        return self.ends[port.peer].lines[0]

    # Making

    def do_agent(self, url):
        try:
            origin = None if url == "-" else weburl.origin_of(url)
        except weburl.OpaqueOrigin:
            return "opaque-origin"
        except weburl.BadUrl:
            return "bad-url"
        expect(self.has_memory, "no-memory")
        expect(len(self.origins) < MOST_AGENTS, "too-many-agents")
        self.origins.append(origin)
        return f"agent {len(self.origins) - 1}"

    def make(self, kind, agent, count=1):
        expect(len(self.ends) + count <= MOST_ENDS, "too-many-ends")
        expect(self.has_memory, "no-memory")
        made = [End(len(self.ends) + at, kind, agent) for at in range(count)]
        self.ends += made
        return made

    def do_channel(self, agent):
        one, other = self.make("port", self.running(agent), 2)
        one.peer, other.peer = other.number, one.number
        return f"ends {one.number} {other.number}"

    def make_queue(self, kind, word):
        agent = self.running(word)
        for end in self.ends:
            need(end.kind != kind or end.agent != agent or not end.is_held(),
                 "agent {} has end {}, a {}", agent, end.number, CALLED[kind])
        return self.make(kind, agent)[0].number

    def do_client(self, agent):
        return f"end {self.make_queue('client', agent)}"

    def do_worker(self, agent):
        made = self.make_queue("worker", agent)
        self.living |= {int(agent)}
        return f"end {made}"

    def do_member(self, word, name):
        agent = self.running(word)
        expect(self.origins[agent] is not None, "no-origin")
        end = self.make("member", agent)[0]
        end.key = (self.origins[agent], name)
        self.roster.append(end.number)
        return f"end {end.number}"

    # Lines

    def do_line(self, word, agent):
        agent = self.running(agent)
        is_queue = int(word) < len(self.ends) and self.ends[int(word)].is_queue()
        expect(is_queue, "no-such-end")
        lines = self.ends[int(word)].lines
        free = next((at for at, line in enumerate(lines) if line.holder is None), None)
        expect(free is not None, "no-line")
        lines[free].holder = agent
        return f"line {free}"

    def do_back(self, word):
        end, at = self.poster(word)
        need(end.is_queue(), "{}, no client or worker queue", end.what())
        need(end.lines[at].holder is not None, "no agent holds line {} of end {}", at, end.number)
        self.need_phase(end, at, OUT)
        end.lines[at].holder = None
        return "done"

    # Posting

    def enter(self, end, at):
        line = end.lines[at]
        self.need_entry(end, at)
        self.need_phase(end, at, OUT)
        self.need_no_notice(end, at)
        line.phase = TURNED
        expect(line.stand == end.newest(), "moved")
        expect(not end.is_closed, "closed")
        line.phase = INSIDE
        return "in"

    def put(self, end, at, ports, body):
        """Puts an envelope where the line's poster stands, which is inside."""
        expect(self.has_memory, "no-memory")
        line = end.lines[at]
        envelope = Envelope(at, *end.next_name(at), ports, body)
        queue = end.queues[line.stand]
        queue.waiting.append(envelope)
        queue.counts[at] = envelope.number + 1
        line.count += 1
        line.is_noticed = body is None
        for number in ports:
            self.ends[number].place = FLIGHT
        self.happened.append(Happened("put", end.number, envelope))
        return f"accepted {envelope.name()}"

    def need_sendable(self, ports, end, at):
        """Tests that the agent that posts on a line may send these ports there."""
        agent = self.speaker(end, at)
        for place, number in enumerate(ports):
            port = self.end(number)
            need(number not in ports[:place], "end {} stands twice in the list", number)
            need(port.kind == "port", "{}, no port", port.what())
            need(end.kind != "port" or number != end.peer, "end {} is the port that posts", number)
            if not self.is_sendable(port, agent):
                raise Refused(NOT_NOW, "{}", self.why_kept(port, agent))

    def is_sendable(self, port, agent):
        if port.kind != "port" or not port.is_held() or port.agent != agent:
            return False
        own = self.own_line(port)
        return own.phase == OUT and not own.is_noticed

    def why_kept(self, port, agent):
        if not port.is_held():
            return port.where()
        if port.agent != agent:
            return f"{port.where()}, not agent {agent}"
        own = self.own_line(port)
        if own.is_noticed:
            return f"end {port.number} has put its notice"
        return f"the poster of end {port.number} is {PHASES[own.phase]}, not out"

    def attempt(self, end, at, ports, body):
        """Enters, puts and leaves, with at most four hops. Gives what it comes to."""
        line, hops = end.lines[at], 0
        while True:
            try:
                self.enter(end, at)
                return self.put(end, at, ports, body)
            except Refused as refused:
                if str(refused) in ("closed", "no-memory"):
                    return str(refused)
                if line.phase != TURNED:
                    raise
            finally:
                line.phase = OUT
            if hops == MOST_HOPS:
                return "moving"
            line.stand += 1
            hops += 1

    def do_enter(self, word):
        return self.enter(*self.poster(word))

    def do_push(self, word, ports, body):
        end, at = self.poster(word)
        ports = list_of(ports)
        self.need_phase(end, at, INSIDE)
        self.need_no_notice(end, at)
        self.need_speaker(end, at)
        expect(len(ports) <= MOST_PORTS, "too-many-ports")
        self.need_sendable(ports, end, at)
        need(end.number not in ports, "end {} is the one to which the message goes", end.number)
        return self.put(end, at, ports, body)

    def do_leave(self, word):
        end, at = self.poster(word)
        self.need_phase(end, at, INSIDE, TURNED)
        end.lines[at].phase = OUT
        return "left"

    def do_hop(self, word):
        end, at = self.poster(word)
        line = end.lines[at]
        self.need_entry(end, at)
        self.need_phase(end, at, OUT)
        need(line.stand < end.newest(), "its queue, epoch {}, isn't retired", line.stand)
        line.stand += 1
        return f"hopped {line.stand}"

    def do_post(self, word, ports, body):
        end, at = self.poster(word)
        ports = list_of(ports)
        self.need_speaker(end, at)
        self.need_phase(end, at, OUT)
        self.need_no_notice(end, at)
        expect(len(ports) <= MOST_PORTS, "too-many-ports")
        self.need_sendable(ports, end, at)
        if end.number in ports:
            for number in ports:
                self.close(self.ends[number])
            return "doomed"
        return self.attempt(end, at, ports, body)

    # Taking and moving

    def do_start(self, word):
        end = self.end(word)
        expect(not end.is_closed, "closed")
        self.need_owner(end)
        end.is_enabled = True
        return "started"

    def do_loaded(self, word):
        end = self.end(word)
        need(end.kind == "client", "{}, no client queue", end.what())
        return self.do_start(word)

    def do_take(self, word):
        end = self.end(word)
        expect(not end.is_closed, "closed")
        self.need_owner(end)
        expect(end.is_enabled, "disabled")
        queue = end.queues[end.stage]
        if queue.waiting:
            return self.got(end, queue.waiting.pop(0))
        expect(end.stage < end.newest(), "empty")
        expect(not end.is_away_at(end.stage), "busy")
        end.stage += 1
        return "again"

    def got(self, end, envelope):
        for number in envelope.ports:
            self.ends[number].place, self.ends[number].agent = ARRIVED, end.agent
        self.happened.append(Happened("got", end.number, envelope))
        origin = f"{envelope.name()} from {envelope.line}"
        if envelope.body is None:
            return f"notice {origin}"
        ports = f" with {','.join(map(str, envelope.ports))}" if envelope.ports else ""
        return f"got {origin}{ports} {envelope.body}"

    def do_look(self, word):
        end = self.end(word)
        last = len(end.queues) if end.is_closed else end.newest()
        need(end.stage < last, "end {} is open, and its taker stands at the newest queue",
             end.number)
        unclear = [it for it in range(end.stage, last) if not end.queues[it].is_clear]
        if unclear:
            expect(not end.is_away_at(unclear[0]), "busy")
            end.queues[unclear[0]].is_clear = True
        return "clear"

    def do_hand(self, word, agent):
        end = self.end(word)
        expect(not end.is_closed, "closed")
        need(end.is_queue(), "{}, no client or worker queue", end.what())
        self.need_owner(end)
        agent = self.agent(agent)
        need(end.agent != agent, "agent {} has it", agent)
        end.place, end.agent = ARRIVED, agent
        return "handed"

    def do_adopt(self, word, agent):
        end = self.end(word)
        expect(not end.is_closed, "closed")
        need(end.place == ARRIVED, "{}, so that it has arrived nowhere", end.where())
        agent = self.agent(agent)
        need(end.agent == agent, "{}, not at agent {}", end.where(), agent)
        self.running(agent)
        expect(end.newest() < MOST_MOVES, "too-many-moves")
        expect(self.has_memory, "no-memory")
        end.queues.append(Queue())
        end.place, end.is_enabled = WITH, end.kind == "worker"
        self.happened.append(Happened("adopted", end.number, epoch=end.newest()))
        return f"adopted {end.newest()}"

    # Closing

    def close(self, end):
        expect(not end.is_closed, "closed")
        need(end.place != FLIGHT, "{}", end.where())
        answer = ""
        if end.kind == "port":
            own = self.own_line(end)
            need(own.phase == OUT, "the poster of end {} is {}, not out", end.number,
                 PHASES[own.phase])
            if not own.is_noticed:
                answer = self.attempt(self.ends[end.peer], 0, (), None)
        end.is_closed = True
        self.happened.append(Happened("closed", end.number))
        return f"done {answer}" if answer in ("moving", "no-memory") else "done"

    def do_close(self, word):
        return self.close(self.end(word))

    def do_sweep(self, word):
        end = self.end(word)
        need(end.is_closed, "end {} is open", end.number)
        epochs = range(end.stage, len(end.queues))
        expect(not any(map(end.is_away_at, epochs)), "busy")
        discarded = [it for epoch in epochs for it in end.queues[epoch].waiting]
        for epoch in epochs:
            end.queues[epoch].waiting = []
        named = [self.ends[number] for envelope in discarded for number in envelope.ports]
        for port in named:
            port.place = DISCARDED
        for port in named:
            try:
                self.close(port)
            except Refused:
                pass
        names = " ".join(f"{it.name()}/{it.line}" for it in discarded)
        return f"discarded {names or 'nothing'}"

    # Broadcasts

    def destinations(self, source):
        found = map(self.ends.__getitem__, self.roster)
        return [end for end in found if end is not source and end.key == source.key]

    def do_cast(self, word, ports, body):
        end = self.end(word)
        need(end.kind == "member", "{}, no broadcast channel", end.what())
        expect(not end.has_parted and not end.is_closed, "invalid-state")
        self.running(end.agent)
        expect(ports == "-", "not-transferable")
        self.caster = end.agent
        answers = [
            f"{other.number} {self.attempt(other, 0, (), body)}" for other in self.destinations(end)
        ]
        self.caster = None
        return f"cast {' '.join(answers) or 'nobody'}"

    def do_part(self, word):
        end = self.end(word)
        need(end.kind == "member", "{}, no broadcast channel", end.what())
        need(not end.has_parted, "end {} has parted", end.number)
        end.has_parted = True
        self.roster.remove(end.number)
        return "done"

    # Ending

    def do_order(self, word):
        self.ordered |= {self.agent(word)}
        return "ordered"

    def do_see(self, word):
        agent = self.agent(word)
        for end in self.ends:
            for at, line in enumerate(end.lines):
                holder = line.holder if end.is_queue() else self.owner_of_poster(end)
                need(holder != agent or line.phase == OUT,
                     "the poster of line {} of end {} is {}, not out", at, end.number,
                     PHASES[line.phase])
        expect(agent in self.ordered, "going-on")
        self.ending |= {agent}
        held = [str(it.number) for it in self.ends
                if it.place in (WITH, ARRIVED) and not it.is_closed and it.agent == agent]
        return f"ending {' '.join(held) or 'nothing'}"

    def owner_of_poster(self, end):
        """The agent that has the port which posts to a port."""
        if end.kind != "port" or not self.source(end).is_held():
            return None
        return self.source(end).agent

    def do_event(self, word, _event):
        agent = self.agent(word)
        need(agent in self.living, "agent {} has made no `worker` yet", agent)
        return "state"

"""The hub of the simulator: ends with their queues, lines, ports in flight, the roster.

What takes several steps in running code is a generator here, which yields between two of them, so
that another agent may come between. Where it has to wait for another agent it yields the count of
changes that it has seen, and is gone on with once there were more.
"""

import collections

# After so many hops a post is refused.
MOST_HOPS = 4
# The kind of the queue of each kind of agent.
QUEUES = {"window": "client", "worker": "worker"}
LINES = {"client": 32, "worker": 32, "port": 1, "member": 1}

Posted = collections.namedtuple("Posted", "end line epoch number")
# What is yielded between entering a queue and leaving it.
INSIDE = "inside"
CLOSED = "closed"
MOVING = "moving"
BUSY = "busy"


class Envelope:
    __slots__ = ("name", "body", "ports", "is_notice")

    def __init__(self, name, body, ports, is_notice):
        self.name, self.body, self.ports, self.is_notice = name, body, ports, is_notice


class Queue:
    """One queue of an end: what waits there, who is inside, and how many of each line came."""

    def __init__(self):
        self.waiting = collections.deque()
        self.inside = 0
        self.counts = collections.Counter()


class Poster:
    """The poster of a line: at which queue of its end it stands."""

    def __init__(self, end, line):
        self.end, self.line, self.stand = end, line, 0


class End:
    """An end, with a queue for each of its epochs. The taker stands at the queue `stage`."""

    def __init__(self, number, kind):
        self.number, self.kind = number, kind
        self.queues = [Queue()]
        self.stage = 0
        self.is_enabled = kind in ("worker", "member")
        self.is_closed = False
        # Of a port, the poster to its peer; of a member, its origin and name.
        self.poster = self.key = None
        self.posters = [Poster(self, line) for line in range(LINES[kind])]

    def newest(self):
        return len(self.queues) - 1

    def adopt(self):
        self.queues.append(Queue())
        self.is_enabled = False


class Hub:
    def __init__(self, script):
        self.changes = 0
        self.ends = [End(at, QUEUES[agent.kind]) for at, agent in enumerate(script.agents)]
        for declared in script.declared:
            self.ends.append(End(declared.end, declared.kind))
            self.ends[-1].key = declared.key
        for declared in script.declared:
            if declared.kind == "port":
                self.ends[declared.end].poster = self.ends[declared.peer.end].posters[0]
        self.flight = set()
        self.handed = set()
        self.lines_out = set()
        self.orders = set()
        self.roster = [end for end in self.ends if end.kind == "member"]
        self.is_roster_locked = False

    def change(self):
        self.changes += 1

    def until(self, holds):
        """Waits until that holds. Each look is a step."""
        while True:
            seen = self.changes
            yield
            if holds():
                return
            yield seen

    def post(self, poster, body, ports, is_notice=False):
        """Posts. Gives Posted, CLOSED or MOVING."""
        end, hops = poster.end, 0
        while True:
            yield
            queue = end.queues[poster.stand]
            queue.inside += 1
            if poster.stand == end.newest():
                break
            yield INSIDE
            self.leave(queue)
            if hops == MOST_HOPS:
                return MOVING
            yield
            poster.stand += 1
            hops += 1
        answer = CLOSED
        if not end.is_closed:
            yield INSIDE
            answer = self.push(poster, queue, body, ports, is_notice)
        yield INSIDE
        self.leave(queue)
        return answer

    def push(self, poster, queue, body, ports, is_notice):
        number = queue.counts[poster.line]
        queue.counts[poster.line] += 1
        posted = Posted(poster.end.number, poster.line, poster.stand, number)
        queue.waiting.append(Envelope(posted, body, ports, is_notice))
        self.change()
        return posted

    def leave(self, queue):
        queue.inside -= 1
        self.change()

    def take(self, end):
        """Takes: an envelope, BUSY, or None where nothing comes."""
        while end.is_enabled:
            yield
            queue = end.queues[end.stage]
            is_inside = queue.inside > 0
            if queue.waiting:
                return queue.waiting.popleft()
            if end.stage == end.newest():
                return None
            if is_inside:
                return BUSY
            end.stage += 1
        return None

    def close(self, end):
        answer = None
        if end.kind == "port":
            answer = yield from self.post(end.poster, "null", (), True)
        yield
        end.is_closed = True
        self.change()
        return answer if isinstance(answer, Posted) else None

    def sweep(self, end):
        """Empties a closed end, once nobody is inside. Gives what was discarded."""
        queues = end.queues[end.stage :]
        yield from self.until(lambda: not any(queue.inside for queue in queues))
        discarded = [envelope for queue in queues for envelope in queue.waiting]
        for queue in queues:
            queue.waiting.clear()
        return discarded

    def arrive(self, number):
        if number not in self.flight:
            return None
        self.flight.discard(number)
        return self.ends[number]

    def line_to(self, number):
        """The poster of the least line of a queue that nobody holds."""
        poster = next(it for it in self.ends[number].posters if it not in self.lines_out)
        self.lines_out.add(poster)
        return poster

    def lock_roster(self):
        yield from self.until(lambda: not self.is_roster_locked)
        self.is_roster_locked = True

    def unlock_roster(self):
        self.is_roster_locked = False
        self.change()

    def leave_roster(self, end):
        yield from self.lock_roster()
        self.roster.remove(end)
        self.unlock_roster()

    def cast(self, source, body):
        """Posts at each other member of the source's origin and name. Gives what was accepted."""
        yield from self.lock_roster()
        accepted = []
        for end in self.roster:
            if end is not source and end.key == source.key:
                answer = yield from self.post(end.posters[0], body, ())
                if isinstance(answer, Posted):
                    accepted.append(answer)
        self.unlock_roster()
        return accepted

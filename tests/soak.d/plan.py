"""A script that is being made, and what is known of its run whatever the schedule is.

Script lines stand in the order in which they were added. An action of an agent is sure where no
order can come before it was carried out. Of an agent that nobody orders each action is; of one that
is ordered the first `sure_count` are, and an order to it is added only where these are known to
have been carried out before (`may_order`). The other actions are unsure: nobody relies on them.

Claim: in every run each sure action is carried out. It is shown line by line, in the order of the
script, so the sure actions of earlier lines are known to be carried out at some time.

An action that doesn't wait is carried out once those before it of its agent are. Suppose now that
one that waits, of agent A, waits for ever. A holds then, and has held since it started them, the
ends that the plan says A holds; A closes none, nobody else can, and A takes turns for ever. So a
message that lies in the queue of such a started end is delivered to A, if no earlier holder of the
end has taken it. It lies there if it was posted by a sure action of an earlier line (so the post
was made), and the post was accepted:
- the end wasn't closed, since only its holder closes it, and the holders before A passed it on;
- the poster didn't give up after four hops, since the end is adopted at most four times in all: an
  end that `moves_often`, and may be adopted more often, has no sure messages;
- it was no post whose list holds its own target; such a post is known when it is added, and puts
  nothing.
An earlier holder can have taken the message only in turns, so only where it waited, for whatever it
was, while it held the end started; it hasn't where it had passed the end on before the message was
posted. What is known to have come before a post is in its clock: of each agent the number of
actions that were carried out before. Clocks grow by an agent's own actions; by `receive`, which
comes after the post that sent the port; and by `fetch`, which comes after the `hand`. By a `wait`
they don't, since which messages it gets isn't sure. That is `reaches`: the message lies at this end
for the one who holds it now.

- `receive N` of A: N is in flight in a sure message that reaches an end that A holds started. It is
  delivered, or was before, and its ports were adopted then.
- `fetch B` of A: B handed its queue to A by a sure action of an earlier line, and the queue stays
  handed until A fetches it.
- `wait K` of A: let s be a place among A's actions with no `receive` and no `fetch` between it and
  this one. Between s and now A has been delivered exactly as many messages as its waits there ask
  for, since a turn delivers at most one and a wait ends with the last that it asks for. A message
  that reaches A and can't have been delivered before s is one whose post comes after A's first s
  actions by its clock, or whose end A started behind s. If there are n of these, and the waits
  between asked for m, then n - m of them at least are still to come, so a wait for n - m is met.
  `most_to_wait` is the greatest such number over all s.

An unsure action that waits may wait for ever; its agent `needs_order` then, and gets it by a sure
action.
"""

import bisect

MOST_MOVES = 4
# How many waits of an agent are kept: more would tell more, but take longer.
MOST_WAITS = 20


class Message:
    """A message at an end: what is known to have come before its post, and whether it is sure."""

    __slots__ = ("end", "clock", "is_sure")

    def __init__(self, agent, end, is_sure):
        self.end, self.clock, self.is_sure = end, tuple(agent.clock), is_sure


class Holding:
    """The time for which an agent holds an end. Places are counts of its actions."""

    __slots__ = ("agent", "start", "passed_on", "is_served")

    def __init__(self, agent, start=None):
        self.agent, self.start = agent, start
        self.passed_on = None
        # Whether the agent may have taken something there.
        self.is_served = False


class End:
    """A queue, a port or a member. `state` is 'with', 'flight', 'handed', 'closed' or 'unknown'.

    Unknown is where an end is that was sent by a post which may be refused, or by an unsure action.
    """

    def __init__(self, kind, name, agent, start):
        self.kind, self.name = kind, name
        self.state = "with"
        self.holdings = [Holding(agent, start)]
        self.messages = []
        self.moves = 0
        self.moves_often = False
        # Of a port: its peer, and the message that it was sent in last. Of a member: its key.
        self.peer = self.carrier = self.key = None
        # Of a queue: to whom it was handed, and the clock of that action.
        self.handed_to = self.handed_at = None

    def holding(self):
        return self.holdings[-1]

    def is_open(self):
        return self.state in ("with", "flight", "handed")


class Agent:
    """An agent: what it holds, how far it is known to be behind the others, and its waits."""

    def __init__(self, number, kind, origin, agents):
        self.number, self.kind, self.origin = number, kind, origin
        self.clock = [0] * agents
        self.queue = End("queue", None, self, None if kind == "window" else 0)
        self.held = [self.queue]
        # How many of its actions are sure; None where all are.
        self.sure_count = None
        self.needs_order = self.is_ordered = self.has_handed = False
        # A place with no `receive` or `fetch` behind it, and its waits since, as (place, count).
        self.waits_since, self.waits = 0, []

    def place(self):
        return self.clock[self.number]

    def is_sure(self):
        return self.sure_count is None

    def ports(self):
        return [end for end in self.held if end.kind == "port"]

    def members(self):
        return [end for end in self.held if end.kind == "member"]


class Plan:
    """The script so far, as lines, and the state of its run."""

    def __init__(self, kinds, origins):
        self.agents = [Agent(at, *pair, len(kinds)) for at, pair in enumerate(zip(kinds, origins))]
        self.lines = [{"agent": agent.kind, "origin": agent.origin} for agent in self.agents]
        self.members = []

    # Declarations

    def channel(self, agent, first, second, moves_often=False):
        ends = [End("port", name, agent, None) for name in (first, second)]
        for end, peer in zip(ends, reversed(ends)):
            end.peer, end.moves_often = peer, moves_often
            agent.held.append(end)
        self.lines.append({"channel": [first, second], "at": agent.number})

    def member(self, agent, name, on):
        end = End("member", name, agent, 0)
        end.key = (agent.origin, on)
        agent.held.append(end)
        self.members.append(end)
        self.lines.append({"member": name, "at": agent.number, "on": on})

    # What is sure

    def reaches(self, message):
        """Whether no earlier holder of its end can have taken the message."""
        return message.is_sure and all(
            not holding.is_served or message.clock[holding.agent.number] > holding.passed_on
            for holding in message.end.holdings[:-1]
        )

    def has_started(self, agent, end):
        holding = end.holding()
        return end.state == "with" and holding.agent is agent and holding.start is not None

    def is_receivable(self, agent, port):
        carrier = port.carrier
        return (
            port.state == "flight"
            and self.has_started(agent, carrier.end)
            and self.reaches(carrier)
        )

    def is_fetchable(self, agent, other):
        return other.queue.state == "handed" and other.queue.handed_to is agent

    def most_to_wait(self, agent):
        """The greatest number of messages that a wait of the agent is sure to get now."""
        # Of each message that is to come, the last place before which it can't have been delivered.
        places = []
        for end in agent.held:
            if self.has_started(agent, end):
                start = end.holding().start
                end.messages = [it for it in end.messages if self.may_come(agent, start, it)]
                places += [max(start, it.clock[agent.number]) for it in end.messages]
        places.sort()
        most, asked = 0, 0
        for place, count in [*reversed(agent.waits), (agent.waits_since - 1, 0)]:
            most = max(most, len(places) - bisect.bisect_right(places, place) - asked)
            asked += count
        return most

    def may_come(self, agent, start, message):
        """Whether a message counts for a wait of the agent, now or later. If not, it counts for no
        later holder of the end either: this one has waited since it was there."""
        place = max(start, message.clock[agent.number])
        return place >= agent.waits_since and self.reaches(message)

    def may_order(self, agent, other):
        """Whether all sure actions of the other are known to have been carried out by now."""
        return other.sure_count is not None and agent.clock[other.number] >= other.sure_count

    def may_send(self, port):
        return port.moves_often or port.moves < MOST_MOVES

    # Actions. Each adds one line.

    def add(self, agent, line):
        self.lines.append({"at": agent.number, **line})
        agent.clock[agent.number] += 1

    def post(self, agent, port, ports, body):
        self.put(agent, port.peer, ports, {"post": port.name, "body": body})

    def send(self, agent, other, ports, body):
        self.put(agent, other.queue, ports, {"send": other.number, "body": body})

    def put(self, agent, target, ports, line):
        if ports:
            line["transfer"] = [port.name for port in ports]
        self.add(agent, line)
        if target in ports:
            for port in ports:
                self.release(agent, port, "closed")
            return
        is_sure = agent.is_sure() and target.is_open() and not target.moves_often
        message = Message(agent, target, is_sure)
        if is_sure:
            target.messages.append(message)
        for port in ports:
            self.release(agent, port, "flight" if is_sure else "unknown")
            port.carrier = message
            port.moves += 1

    def release(self, agent, end, state):
        agent.held.remove(end)
        if end.state == "with":
            end.state = state if agent.is_sure() else "unknown"
            end.holding().passed_on = agent.place() - 1

    def cast(self, agent, member, body):
        self.add(agent, {"cast": member.name, "body": body})
        for end in self.members:
            if end is not member and end.key == member.key and end.is_open() and agent.is_sure():
                end.messages.append(Message(agent, end, True))

    def start(self, agent, end, word="start"):
        self.add(agent, {word: end.name or "queue"})
        if end.state == "with" and end.holding().start is None:
            end.holding().start = agent.place()

    def close(self, agent, end):
        self.add(agent, {"close": end.name})
        self.release(agent, end, "closed")

    def wait(self, agent, count):
        self.take_turns(agent)
        agent.waits.append((agent.place(), count))
        self.add(agent, {"wait": count})
        if len(agent.waits) > MOST_WAITS:
            agent.waits_since = agent.waits.pop(0)[0] + 1

    def receive(self, agent, port):
        """An unsure agent may wait for any port."""
        is_receivable = self.is_receivable(agent, port)
        self.take_turns(agent)
        self.add(agent, {"receive": port.name})
        self.forget_waits(agent)
        if not is_receivable:
            return
        agent.held.append(port)
        if agent.is_sure():
            self.come_after(agent, port.carrier.clock)
            port.state = "with"
            port.holdings.append(Holding(agent))
        else:
            port.state = "unknown"

    def hand(self, agent, other):
        self.add(agent, {"hand": other.number})
        self.release(agent, agent.queue, "handed")
        agent.has_handed = True
        agent.queue.handed_to, agent.queue.handed_at = other, tuple(agent.clock)

    def fetch(self, agent, other):
        queue = other.queue
        self.take_turns(agent)
        self.add(agent, {"fetch": other.number})
        self.forget_waits(agent)
        if agent.is_sure():
            self.come_after(agent, queue.handed_at)
            queue.state = "with"
            queue.holdings.append(Holding(agent, agent.place()))
            agent.held.append(queue)
        else:
            queue.state = "unknown"

    def order(self, agent, other):
        """An order of an agent to itself is its last action that is carried out."""
        self.add(agent, {"order": other.number})
        if agent.is_sure():
            other.needs_order = False
            other.is_ordered = True
        if other is agent and agent.is_sure():
            agent.sure_count = agent.place()

    def event(self, agent, word):
        self.add(agent, {"event": word})

    def take_turns(self, agent):
        """The agent may take what lies at its started ends."""
        for end in agent.held:
            if self.has_started(agent, end):
                end.holding().is_served = True
        if not agent.is_sure() and not agent.is_ordered:
            agent.needs_order = True

    def forget_waits(self, agent):
        agent.waits_since = agent.place()
        agent.waits = []

    def come_after(self, agent, clock):
        agent.clock = [max(pair) for pair in zip(agent.clock, clock)]

"""Searches a schedule in which the state machine does what logs say. tools/steps-of is its command.

The entries of an agent keep their order, and the search looks for an order between agents, with the
step lines that logs don't show: a start, a hop, a poster that enters early, a sweep. It goes depth
first, and remembers the states in which it had a choice.

Most entries leave no choice. A put, a got, and an adoption or closing behind which nothing more is
put in the queue that it leaves, are done as soon as the machine does them: each takes nothing from
any other entry, so where some schedule is left, one is left after it too. A choice is left where a
poster has to be inside while its queue is retired or closed, where what waits at a closed end is
swept, where a port is closed that no log says was closed, and where a member has parted.
"""

import bisect
import collections
import copy
import dataclasses

import hublog
from machine import ARRIVED, INSIDE, MOST_HOPS, OUT, WITH, Machine


class Undecided(Exception):
    """The search came to as many states as it may."""


@dataclasses.dataclass(eq=False, slots=True)
class Item(hublog.Item):
    """One entry of an agent's log. `place` counts the agent's entries."""

    place: int


class Goal:
    """What the logs say: the items of each agent, and what is put on each line."""

    def __init__(self, logs):
        self.agents = 1 + max((log.agent for log in logs), default=-1)
        self.items = [[] for _ in range(self.agents)]
        for log in logs:
            mine = self.items[log.agent]
            for (word, said), at in zip(log.entries, log.places):
                mine.append(Item(log.agent, word, said, at, len(mine)))
        # By end and line: what is put there, by name.
        self.puts = collections.defaultdict(list)
        for item in self.all("put"):
            self.puts[item.end, item.said.line].append(item)
        for items in self.puts.values():
            items.sort(key=lambda item: item.said.name())
        self.lines = {}
        for end, line in sorted(self.puts):
            self.lines.setdefault(end, []).append(line)
        self.closed = {item.end for item in self.all("closed")}
        self.mentioned = {item.end for items in self.items for item in items}
        self.mentioned.update(port for item in self.all("put", "got") for port in item.ports)
        # By what was got, who got it, and where.
        self.getters = {it.said.key(): (it.agent, it.place) for it in self.all("got")}
        # By queue of an end with several lines, what was got there, in order.
        self.arrivals = collections.defaultdict(list)
        for end, arrivals in hublog.arrivals_of(logs).items():
            for _, _, said in arrivals if self.has_several_lines(end) else ():
                if said is not None:
                    self.arrivals[end, said.epoch].append(said)
        self.uses = self.places_of_uses()

    def all(self, *words):
        return (item for items in self.items for item in items if item.word in words)

    def has_several_lines(self, end):
        return len(self.lines.get(end, ())) > 1

    def places_of_uses(self):
        """By agent and end, the places where the agent takes there, adopts it or closes it."""
        uses = collections.defaultdict(list)
        for item in self.all("got", "adopted", "closed"):
            uses[item.agent, item.end].append(item.place)
        return uses

    def item(self, agent, place):
        return self.items[agent][place] if place < len(self.items[agent]) else None

    def next_use(self, agent, end, place):
        """The next item, from a place on, by which the agent takes at the end or closes it."""
        places = self.uses.get((agent, end), [])
        found = bisect.bisect_left(places, place)
        return self.items[agent][places[found]] if found < len(places) else None


class Ranks:
    """In which order the queues of ends with several lines had what was put there.

    A queue had what was got of it in that order, and before all that nobody got. That lay there in
    the order in which its ports put their notices when it was swept, and before the port at the
    other side of one that put its notice.
    """

    def __init__(self, goal, peers):
        # By put, its rank in its queue; or how many ranks have to be there before it.
        self.ranks, self.floors = {}, {}
        self.goal, self.peers = goal, peers
        for gots in goal.arrivals.values():
            names = dict.fromkeys(said.key() for said in gots)
            self.ranks.update((name, rank) for rank, name in enumerate(names))
        queues = collections.defaultdict(list)
        for item in goal.all("put"):
            if goal.has_several_lines(item.end):
                queues[item.end, item.said.epoch].append(item)
        for items in queues.values():
            left = [item for item in items if item.said.key() not in self.ranks]
            self.rank_swept(left, len(items) - len(left))

    def rank_swept(self, left, floor):
        """Ranks what nobody got of a queue, behind what somebody did."""
        firsts = {}
        for item in left:
            places = [self.notice_of(port) for port in item.ports]
            firsts[item.at] = min(filter(None, places), default=None)
        noticed = [item for item in left if firsts[item.at]]
        noticed.sort(key=lambda item: firsts[item.at])
        ranks = {}
        for rank, item in enumerate(noticed, floor):
            self.ranks[item.said.key()] = rank
            ranks.update((self.peers.get(port), rank + 1) for port in item.ports)
        for item in left:
            if not firsts[item.at]:
                others = [ranks.get(port, floor) for port in item.ports]
                self.floors[item.said.key()] = max(others, default=floor)

    def notice_of(self, port):
        """Where logs have the notice of a port that was closed by a sweep, or None."""
        puts = self.goal.puts.get((self.peers.get(port), 0))
        if not puts or not puts[-1].is_notice or port in self.goal.closed:
            return None
        return puts[-1].agent, puts[-1].place

    def is_next(self, said, count):
        """Whether a put may come where its queue has had so many that have a rank."""
        key = said.key()
        return count >= self.floors.get(key, 0) and self.ranks.get(key, count) == count


@dataclasses.dataclass(slots=True)
class Move:
    """Step lines that do the next `count` entries of an agent's log, but for what is left out.

    `hidden` tells the move from others that do as many entries.
    """

    agent: int
    lines: list
    count: int
    hidden: tuple = ()
    left_out: tuple = ()


class State:
    """A machine, how far each log is, and the moves so far: those before, step lines, and items."""

    def __init__(self, machine, places):
        self.machine, self.places = machine, places
        # By line, how many of its puts and gots are done; by queue, how many puts with a rank.
        self.done, self.taken = collections.Counter(), collections.Counter()
        self.ranked = collections.Counter()
        self.hidden, self.trace = frozenset(), None
        # The notices that no step line puts; whether there are others, and other names.
        self.left_out = ()
        self.is_noticed = self.is_renamed = False

    def copy(self, numbers):
        """A copy, in which the ends of these numbers may change."""
        other = copy.copy(self)
        other.machine, other.places = self.machine.copy(numbers), list(self.places)
        other.done, other.taken = self.done.copy(), self.taken.copy()
        other.ranked = self.ranked.copy()
        return other

    def key(self):
        return tuple(self.places), self.hidden

    def lines(self):
        return [line for lines, _ in self.moves() for line in lines]

    def items(self):
        return [item for _, items in self.moves() for item in items]

    def moves(self):
        parts, trace = [], self.trace
        while trace:
            trace, *part = trace
            parts.append(part)
        return reversed(parts)


class Search:
    """One search, with what is taken for granted: the ends, and what names and closings say.

    Where logs have no epochs each name counts what its line put in all queues. Where they have no
    notices, none that the machine puts stands in them. Where notices may cross, each of the two
    ports of a channel may have put one, of which no step lines can do the second. Where the search
    is relaxed, an entry may be given up: it shows how far each log can be explained. Where it is
    close, each got comes as soon behind its put as it can.
    """

    def __init__(self, goal, ends, budget, has_epochs=True, has_notices=True, may_cross=False,
                 is_relaxed=False, is_close=False):
        self.goal, self.ends, self.budget, self.is_close = goal, ends, budget, is_close
        self.has_epochs, self.has_notices = has_epochs, has_notices
        self.may_cross, self.is_relaxed = may_cross, is_relaxed
        peers = ends.peers()
        self.ranks, self.members = Ranks(goal, peers), ends.members()
        # The ends to which anything happens.
        changing = {it for it in goal.mentioned if it < ends.count}
        self.changing = sorted(changing | {peers[end] for end in changing if end in peers})
        self.farthest = [0] * goal.agents

    def run(self):
        """The state to which a schedule leads, or None. May raise Undecided."""
        stack, seen = [self.start()], set()
        while stack:
            state = stack.pop()
            self.advance(state)
            self.farthest = list(map(max, self.farthest, state.places))
            if state.places == [len(items) for items in self.goal.items]:
                return state
            if state.key() not in seen:
                seen.add(state.key())
                stack += reversed(list(self.successors(state)))
        return None

    def start(self):
        machine, lines = Machine(), self.ends.step_lines()
        for line in lines:
            machine.do(line)
        state = State(machine, [0] * self.goal.agents)
        state.trace = (None, lines, ())
        return state

    def advance(self, state):
        """Does what leaves no choice, until nothing of that is left."""
        is_going = True
        while is_going:
            is_going = False
            for agent in self.turns(state):
                while move := self.move(state, agent):
                    self.apply(state, move)
                    is_going = True
                    if self.is_close:
                        break
                if is_going and self.is_close:
                    break
            if not is_going and (move := self.free_sweep(state)):
                self.apply(state, move)
                is_going = True

    def turns(self, state):
        """The agents, in the order in which they may go on. All that they do comes to the same;
        where it is to be looked at, what is got stands close behind its put."""
        agents = range(min(self.goal.agents, self.ends.agents))
        return sorted(agents, key=lambda it: self.turn(state, it)) if self.is_close else agents

    def turn(self, state, agent):
        item = self.goal.item(agent, state.places[agent])
        if item is None or item.word != "put":
            return {None: 5, "adopted": 0, "got": 1, "closed": 4}[item and item.word]
        getter, place = self.goal.getters.get(item.said.key(), (None, None))
        return 2 if getter is None or state.places[getter] == place else 3

    def head(self, state, agent):
        """The next item of an agent's log, if it is of an end that there is."""
        item = self.goal.item(agent, state.places[agent])
        return item if item is not None and item.end < self.ends.count else None

    # Doing

    def apply(self, state, move):
        """Does the step lines of a move. What they do has to be what the entries say."""
        self.budget.take()
        happened = []
        for line in move.lines:
            state.machine.do(line)
            happened += state.machine.happened
        place = state.places[move.agent]
        items = self.goal.items[move.agent][place : place + move.count]
        if not self.fits(happened, [item for item in items if item not in move.left_out]):
            raise AssertionError(f"{move.lines} is not {[item.at for item in items]}")
        for item in items:
            self.count(state, item)
        self.see_names(state, happened, items)
        state.places[move.agent] += move.count
        state.hidden |= frozenset(move.hidden)
        state.left_out += move.left_out
        state.trace = (state.trace, move.lines, items)

    def count(self, state, item):
        if item.word == "got":
            state.taken[item.end, item.said.line] += 1
        elif item.word == "put":
            state.done[item.end, item.said.line] += 1
            state.ranked[item.end, item.said.epoch] += item.said.key() in self.ranks.ranks

    def see_names(self, state, happened, items):
        """Whether the machine does more than logs without notices or epochs say."""
        if not self.has_notices:
            puts = [it for it in happened if it.word == "put"]
            state.is_noticed |= any(it.envelope.body is None for it in puts)
        if not self.has_epochs:
            names = {it.said.name() for it in items if it.is_message}
            state.is_renamed |= not names <= {
                (it.envelope.epoch, it.envelope.number) for it in happened if it.envelope
            }

    def fits(self, happened, items):
        """Whether what happened is what the items say, but for closings that no log tells of."""
        left = collections.deque(items)
        for it in happened:
            is_told = it.word != "closed" or it.end in self.goal.closed
            if it.word == "put" and it.envelope.body is None and not self.has_notices:
                is_told = False
            if is_told and (not left or not self.is_same(it, left.popleft())):
                return False
        return not left

    def is_same(self, happened, item):
        if (happened.word, happened.end) != (item.word, item.end):
            return False
        if item.word == "adopted":
            return happened.epoch == item.said[1]
        return item.word == "closed" or self.is_envelope(happened.envelope, item.said)

    def is_envelope(self, envelope, said):
        content = None if envelope.body is None else (envelope.ports, envelope.body)
        if self.has_epochs and (envelope.epoch, envelope.number) != said.name():
            return False
        return envelope.line == self.line_of(said) and content == said.content

    def line_of(self, said):
        return 0 if said.end in self.members else said.line

    # Entries that leave no choice

    def move(self, state, agent):
        """What the agent can do next and nothing speaks against, or None."""
        item = self.head(state, agent)
        if item is None:
            return None
        found = getattr(self, "move_" + item.word)(state, item)
        return found if found and not found.hidden else None

    def is_due(self, state, item):
        """Whether a put is the next one of its line, and of its queue."""
        said, end = item.said, state.machine.ends[item.end]
        key = item.end, said.line
        puts, at = self.goal.puts[key], self.line_of(said)
        if puts[state.done[key]] is not item or at >= len(end.lines):
            return False
        line, epoch = end.lines[at], said.epoch if self.has_epochs else None
        if not self.can_stand(end, line, epoch):
            return False
        if self.has_epochs:
            number = end.queues[epoch].counts.get(at, 0)
        else:
            number = puts[0].said.number + state.done[key]
        return said.number == number and (self.is_relaxed or self.is_in_rank(state, item))

    @staticmethod
    def can_stand(end, line, epoch):
        """Whether the poster of the line can put in that queue, or in any one."""
        if line.phase == INSIDE:
            return epoch in (line.stand, None)
        return epoch in (end.newest(), None) and not end.is_closed

    def is_in_rank(self, state, item):
        return self.ranks.is_next(item.said, state.ranked[item.end, item.said.epoch])

    def move_put(self, state, item):
        if self.crosses(state, item):
            return self.move_notice(state, item, (item,))
        if not self.is_due(state, item):
            return None
        if item.is_notice:
            return self.move_notice(state, item)
        end = state.machine.ends[item.end]
        if end.kind == "member":
            return self.move_cast(state, item)
        if not self.may_send(state.machine, item, end):
            return None
        words, lines = self.hold(state, item)
        if lines is None:
            return None
        line, ports = end.lines[item.said.line], ",".join(map(str, item.ports)) or "-"
        text = f"{words} {ports} {item.said.content[1]}"
        if line.phase == INSIDE:
            lines = lines + [f"push {text}"] + self.leave(state, item, words)
        else:
            hops = max(0, end.newest() - line.stand - MOST_HOPS)
            lines = lines + [f"hop {words}"] * hops + [f"post {text}"]
        hidden = () if self.is_in_rank(state, item) else (("given up", item.at),)
        return Move(item.agent, lines, 1, hidden)

    def leave(self, state, item, words):
        """A poster that is inside leaves behind the last that it puts there."""
        key = item.end, item.said.line
        puts, behind = self.goal.puts[key], state.done[key] + 1
        if behind < len(puts):
            if puts[behind].said.epoch == item.said.epoch or not self.has_epochs:
                return []
        return [f"leave {words}"]

    @staticmethod
    def may_send(machine, item, end):
        kept = (end.number, end.peer)
        return all(
            port < len(machine.ends) and port not in kept
            and machine.is_sendable(machine.ends[port], item.agent) for port in item.ports
        )

    def hold(self, state, item, places=(WITH,)):
        """The poster of a put, and the step lines by which the agent comes to hold its line; None
        where it can't, as a port that is at none of these places."""
        machine, end = state.machine, state.machine.ends[item.end]
        if end.kind == "port":
            port = machine.ends[end.peer]
            is_mine = port.agent == item.agent and port.place in places and not port.is_closed
            return str(end.peer), [] if is_mine and not end.lines[0].is_noticed else None
        return f"{item.end}/{item.said.line}", self.acquire(state, item, end)

    def acquire(self, state, item, end):
        """The lines below that nobody holds have to be held first, by those who need them next."""
        line = end.lines[item.said.line]
        if line.holder == item.agent:
            return []
        if line.holder is not None and line.phase != OUT:
            return None
        lines = [] if line.holder is None else [f"back {item.end}/{item.said.line}"]
        for at in range(item.said.line):
            if end.lines[at].holder is None:
                puts = self.goal.puts.get((item.end, at), [])[state.done[item.end, at] :][:1]
                lines.append(f"line {item.end} {puts[0].agent if puts else item.agent}")
        return lines + [f"line {item.end} {item.agent}"]

    def move_got(self, state, item):
        end = state.machine.ends[item.end]
        if end.place != WITH or end.agent != item.agent or end.is_closed:
            return None
        head = end.head()
        if head is None or not self.is_envelope(head[0], item.said):
            return None
        key = item.end, item.said.line
        if not self.has_epochs:
            # The names of logs and machine differ: both have to name what comes next on the line.
            puts, place = self.goal.puts.get(key, []), state.taken[key]
            if place >= len(puts) or puts[place].said.name() != item.said.name():
                return None
        start = [] if end.is_enabled else [f"start {item.end}"]
        return Move(item.agent, start + [f"take {item.end}"] * (head[1] + 1), 1)

    def move_adopted(self, state, item):
        end = state.machine.ends[item.end]
        if end.is_closed or end.newest() + 1 != item.said[1] or end.kind == "member":
            return None
        handing = self.hand(state, item, end)
        entering = self.enters(state, end, False)
        if handing is None or entering is None:
            return None
        lines, hidden = entering
        adopting = [*handing, f"adopt {item.end} {item.agent}"]
        return Move(item.agent, lines + adopting, 1, hidden)

    def hand(self, state, item, end):
        if end.place == ARRIVED and end.agent == item.agent:
            return []
        if end.kind == "port" or end.place != WITH or end.agent == item.agent:
            return None
        # An agent that was guessed has no log.
        if end.agent < self.goal.agents:
            use = self.goal.next_use(end.agent, item.end, state.places[end.agent])
            if use is not None and use.word != "adopted":
                return None
        return [f"hand {item.end} {item.agent}"]

    def move_closed(self, state, item):
        end = state.machine.ends[item.end]
        if self.has_notices and end.kind == "port":
            peer = state.machine.ends[end.peer]
            is_moving = peer.newest() - peer.lines[0].stand > MOST_HOPS
            if not peer.is_closed and not is_moving:
                return None
        return self.close(state, item, end, 1)

    def crosses(self, state, item):
        is_notice = item.is_notice and item.said.key() not in self.goal.getters
        return self.may_cross and is_notice and state.machine.ends[item.end].is_closed

    def move_notice(self, state, item, left_out=()):
        """A notice with the closing behind it: both are one step line."""
        end = state.machine.ends[item.end]
        behind = self.goal.item(item.agent, item.place + 1)
        if end.kind != "port" or behind is None:
            return None
        if (behind.word, behind.end) != ("closed", end.peer):
            return None
        move = self.close(state, item, state.machine.ends[end.peer], 2)
        return dataclasses.replace(move, left_out=left_out) if move else None

    def close(self, state, item, end, count):
        if end.agent != item.agent or end.place not in (WITH, ARRIVED) or end.is_closed:
            return None
        entering = self.enters(state, end, True)
        if entering is None:
            return None
        lines, hidden = entering
        if end.kind == "port":
            own, peer = state.machine.own_line(end), state.machine.ends[end.peer]
            if own.phase != OUT:
                return None
            if count == 2:
                hops = max(0, peer.newest() - own.stand - MOST_HOPS)
                lines = lines + [f"hop {end.number}"] * hops
        elif end.kind == "member" and not end.has_parted:
            lines = lines + [f"part {end.number}"]
        return Move(item.agent, lines + [f"close {end.number}"], count, hidden)

    # Posters that are inside

    def enters(self, state, end, is_closing, is_swept=False):
        """The step lines by which those go in who put in the newest queue of an end once it is
        retired or closed, and what tells them from others; None where one of them can't.

        A sweep may put a notice at a port and close it thereafter.
        """
        lines, hidden = [], []
        for at in self.goal.lines.get(end.number, ()):
            late = self.late_puts(state, end, at, is_closing)
            if late and late[-1].is_notice:
                may_cross = self.may_cross and late[-1].said.key() not in self.goal.getters
                if is_closing and may_cross and not is_swept:
                    hidden.append(("crossed", end.number))
                if is_swept or (is_closing and may_cross):
                    late.pop()
            found = self.enter_for(state, end, late) if late else []
            if found is not None:
                lines += found
                hidden += [("enter", end.number, at)] if found else []
            elif self.is_relaxed:
                hidden.append(("given up", end.number, at))
            else:
                return None
        return lines, tuple(hidden)

    def late_puts(self, state, end, at, is_closing):
        """What the line is still to put in the newest queue, which is retired or closed now."""
        left = self.goal.puts[end.number, at][state.done[end.number, at] :]
        if not self.has_epochs:
            return left if is_closing else []
        newest = end.newest()
        return [
            it for it in left if it.said.epoch == newest or (is_closing and it.said.epoch > newest)
        ]

    def enter_for(self, state, end, late):
        """The step lines by which a poster goes in for all these puts, or None."""
        item = late[0]
        key = item.end, item.said.line
        is_next = self.goal.puts[key][state.done[key]] is item
        is_here = not self.has_epochs or late[-1].said.epoch == end.newest()
        if not is_next or not is_here or late[-1].is_notice or item.said.line >= len(end.lines):
            return None
        return self.enter(state, item, end)

    def enter(self, state, item, end):
        line = end.lines[item.said.line]
        if line.phase == INSIDE:
            return [] if line.stand == end.newest() else None
        if end.kind == "member" or end.is_closed:
            return None
        words, lines = self.hold(state, item, (WITH, ARRIVED))
        if lines is None:
            return None
        return lines + [f"hop {words}"] * (end.newest() - line.stand) + [f"enter {words}"]

    # Broadcasts

    def move_cast(self, state, item):
        """A cast does the puts of as many entries as it has destinations."""
        machine, key = state.machine, state.machine.ends[item.end].key
        sources = [
            end for end in map(machine.ends.__getitem__, machine.roster)
            if end.key == key and end.agent == item.agent and end.number != item.end
            and not end.is_closed
        ]
        if not sources and self.ends.is_free:
            making = f"member {item.agent} {key[1]}"
            return self.cast_from(state, item, len(machine.ends), [making])
        moves = [self.cast_from(state, item, source.number, []) for source in sources]
        return min(filter(None, moves), key=lambda move: len(move.hidden), default=None)

    def cast_from(self, state, item, source, lines):
        """The cast from that channel, where the items put at each other one that hasn't parted."""
        ends, key = state.machine.ends, state.machine.ends[item.end].key
        others = [it for it in state.machine.roster if ends[it].key == key and it != source]
        # A channel that was made to cast from alone is a destination for nobody.
        extra = [it for it in others if it >= self.ends.count]
        open_ones = [ends[it] for it in others if it not in extra and not ends[it].is_closed]
        items = self.goal.items[item.agent][item.place :][: len(open_ones)]
        gone = self.parted(state, items, open_ones)
        if gone is None:
            return None
        lines = lines + [f"part {it}" for it in extra + gone]
        lines.append(f"cast {source} - {item.said.content[1]}")
        hidden = tuple(("part", it) for it in gone)
        return Move(item.agent, lines, len(open_ones) - len(gone), hidden)

    def parted(self, state, items, open_ones):
        """Which of the destinations must have parted, as the items don't put there; or None."""
        gone, left = [], collections.deque(items)
        body = items[0].said.content
        for end in open_ones:
            item = left[0] if left else None
            if item is None or item.word != "put" or item.end != end.number:
                gone.append(end.number)
            elif item.said.content != body or body[0] or not self.is_due(state, item):
                return None
            else:
                left.popleft()
        return gone if len(gone) < len(open_ones) else None

    # Entries that leave a choice

    def successors(self, state):
        """The states after each thing that may be done where nothing is left without a choice."""
        for move in self.choices(state):
            made = range(self.ends.count, len(state.machine.ends))
            other = state.copy([*self.changing, *made])
            self.apply(other, move)
            yield other

    def choices(self, state):
        for agent in range(min(self.goal.agents, self.ends.agents)):
            item = self.head(state, agent)
            if item is not None:
                move = getattr(self, "move_" + item.word)(state, item)
                yield from [move] if move else []
                yield from self.silent_close(state, item)
        yield from (move for move in self.sweeps(state) if move.hidden)

    def silent_close(self, state, item):
        end = state.machine.ends[item.end]
        if item.word != "put" or not item.is_notice or end.kind != "port":
            return
        port = state.machine.ends[end.peer]
        if port.number in self.goal.closed or not self.is_due(state, item):
            return
        move = self.close(state, item, port, 2)
        if move:
            yield Move(item.agent, move.lines, 1, (*move.hidden, ("closed", port.number)))

    # Sweeps

    def free_sweep(self, state):
        return next((move for move in self.sweeps(state) if not move.hidden), None)

    def sweeps(self, state):
        """The sweeps of closed ends with ports in what waits there. They put the notices that are
        the next entries of an agent, or none."""
        for end in map(state.machine.ends.__getitem__, self.changing):
            if end.is_closed:
                named = self.named(state.machine, end)
                move = self.sweep(state, end, named) if named else None
                yield from [move] if move else []

    @staticmethod
    def named(machine, end):
        queues = end.queues[end.stage :]
        return [machine.ends[it] for queue in queues for one in queue.waiting for it in one.ports]

    def sweep(self, state, end, named):
        if any(port.number in self.goal.closed and not port.is_closed for port in named):
            return None
        lines, hidden = [], ()
        for port in named:
            entering = self.enters(state, port, True, True)
            if entering is None:
                return None
            lines, hidden = lines + entering[0], hidden + entering[1]
        if any(map(end.is_away_at, range(end.stage, len(end.queues)))):
            return None
        notices = self.notices(state.machine, named) if self.has_notices else []
        found = self.putter(state, notices)
        if found is None:
            return None
        agent, count, left_out = found
        return Move(agent, [*lines, f"sweep {end.number}"], count, hidden, left_out)

    @staticmethod
    def notices(machine, named):
        """The ends at which the ports put their notices, as they are closed one after another, and
        whether these are open still."""
        closed, found = set(), []
        for port in named:
            peer = machine.ends[port.peer]
            own = peer.lines[0]
            if port.is_closed or port.number in closed or own.phase != OUT or own.is_noticed:
                continue
            is_open = not peer.is_closed and peer.number not in closed
            if not is_open or peer.newest() - own.stand <= MOST_HOPS:
                found.append((peer, is_open))
            closed.add(port.number)
        return found

    def putter(self, state, notices):
        """The agent whose next entries are these notices, how many entries these are, and which of
        them no step line puts. It is the first agent where there are none."""
        for agent in range(min(self.goal.agents, self.ends.agents)):
            found = self.count_notices(state, agent, notices)
            if found is not None:
                return agent, *found
        return None

    def count_notices(self, state, agent, notices):
        place, left_out = state.places[agent], ()
        for end, is_open in notices:
            item = self.goal.item(agent, place)
            is_here = item is not None and (item.word, item.end) == ("put", end.number)
            is_here = is_here and item.is_notice
            if is_open and not (is_here and self.is_due(state, item)):
                return None
            if is_here and not is_open:
                is_here = self.may_cross and item.said.key() not in self.goal.getters
                left_out += (item,) if is_here else ()
            place += is_here
        return place - state.places[agent], left_out


@dataclasses.dataclass
class Budget:
    left: int

    def take(self):
        if self.left == 0:
            raise Undecided
        self.left -= 1

"""The ends of a run, as the step lines that make them: read off a script, or guessed from logs.

A script says which agents and ends there are. Logs leave it open, and `guesses` goes through what
they allow: who made an end is who uses it without having adopted it, two ports have neighbouring
numbers and one maker, and who puts at a port has the other one. What was sent in a message, or had
a notice, is a port. Any other end that has no port beside it is a queue of its maker, or from its
maker's third one on a broadcast channel whose name nobody else has.
"""

import bisect
import collections
import dataclasses
import functools
import json

import hubscript
import weburl
from machine import MOST_ENDS

# Origins show only where a broadcast channel is made.
ORIGIN = "https://hub.example"
# By the kind of an agent, the step line that makes its queue.
STEPS = {"window": "client", "worker": "worker"}


@dataclasses.dataclass
class Ends:
    origins: list
    makings: list
    count: int
    # Whether more broadcast channels may be made, to cast from.
    is_free: bool

    @property
    def agents(self):
        return len(self.origins)

    def numbered(self):
        """The first end that each step line makes, and the step line."""
        end = 0
        for making in self.makings:
            yield end, making
            end += 2 if making.startswith("channel") else 1

    def peers(self):
        firsts = [end for end, making in self.numbered() if making.startswith("channel")]
        return {end: end + 1 for end in firsts} | {end + 1: end for end in firsts}

    def members(self):
        return {end for end, making in self.numbered() if making.startswith("member")}

    def step_lines(self):
        return [f"agent {origin}" for origin in self.origins] + self.makings


def of_script(data):
    """The ends that a script declares. hubscript.BadScript tells the first bad line."""
    found = hubscript.read(data)
    makings = [f"{STEPS[it.kind]} {agent}" for agent, it in enumerate(found.agents)]
    ports = [it for it in found.declared if it.kind == "port"]
    makings += [f"channel {it.agent}" for it in ports[::2]]
    members = found.declared[len(ports):]
    makings += [f"member {it.agent} {json.dumps(it.on)}" for it in members]
    origins = [weburl.origin_of(it.origin) for it in found.agents]
    return Ends(origins, makings, found.end_count(), False)


class Evidence:
    """What logs say of their ends. Where a broadcast channel has one line, it is line 0."""

    def __init__(self, goal, has_one_line):
        self.agents, self.goal, self.has_one_line = max(1, goal.agents), goal, has_one_line
        self.ports, self.adopted, self.linked, self.mentioned = set(), set(), set(), set()
        # By end: who uses it before any adoption, where who puts there, and who adopted it first.
        self.users = collections.defaultdict(set)
        self.putters = collections.defaultdict(list)
        self.adopters = {}
        # By agent and end, the places after which the agent has it, or has it no longer.
        self.changes = collections.defaultdict(list)
        # The ends with notices, and whether notices are to be had at all.
        self.noticed = {item.end for item in goal.all("put", "got") if item.is_notice}
        for items in goal.items:
            for item, behind in zip(items, [*items[1:], None]):
                self.see(item, behind)
        self.count = 1 + max(self.mentioned, default=-1)

    def see(self, item, behind):
        self.mentioned.update((item.end, *item.ports))
        self.ports.update(item.ports)
        if item.is_notice:
            self.ports.add(item.end)
            if item.word == "put" and behind is not None and behind.word == "closed":
                self.linked.add(frozenset([item.end, behind.end]))
        elif item.word == "put":
            self.putters[item.end].append(item)
            for port in item.ports:
                self.use(item.agent, port)
                self.changes[item.agent, port].append((item.place, False))
        if item.word == "adopted":
            self.adopted.add(item.end)
            if item.said[1] == 1:
                self.adopters[item.end] = item.agent
        elif item.word in ("got", "closed"):
            self.use(item.agent, item.end)
        if item.word in ("adopted", "closed"):
            self.changes[item.agent, item.end].append((item.place, item.word == "adopted"))

    def use(self, agent, end):
        if not self.changes.get((agent, end)):
            self.users[end].add(agent)

    def makers(self, end):
        """Who made the end and its neighbour, if these are two ports; None where they can't be."""
        found = self.users[end] | self.users[end + 1]
        for one, other in ((end, end + 1), (end + 1, end)):
            for item in self.putters[other]:
                changes = self.changes.get((item.agent, one), [])
                last = bisect.bisect(changes, (item.place, False))
                if last == 0:
                    found.add(item.agent)
                elif not changes[last - 1][1]:
                    return None
        return found if len(found) <= 1 else None

    def is_plain(self, end):
        has_line_0 = self.goal.lines.get(end, [0]) == [0]
        return has_line_0 and (end not in self.adopted or end in self.ports)

    @functools.cache
    def may_pair(self, end):
        pair = {end, end + 1}
        if end + 1 == MOST_ENDS or not pair & self.mentioned:
            return False
        if not self.is_plain(end) or not self.is_plain(end + 1):
            return False
        # The first one that is closed puts a notice, where that doesn't lag behind a moving port.
        is_silent = bool(self.noticed and pair & self.goal.closed and not pair & self.noticed)
        return self.makers(end) is not None and (not is_silent or bool(pair & self.adopted))

    def may_stand_alone(self, end):
        return end not in self.ports and len(self.users[end]) <= 1

    def may_be_member(self, end):
        """Whether casts can do all that was put at the end."""
        if self.has_one_line and self.goal.lines.get(end, [0]) != [0]:
            return False
        return end not in self.adopted and not any(item.ports for item in self.putters[end])


def guesses(goal, has_one_line=True):
    """The ends that logs allow, one after another; what they say most of comes first. None stands
    for a guess that can't be made."""
    evidence = Evidence(goal, has_one_line)
    is_found = False
    for pairs in pairings(evidence):
        ends = Maker(evidence, pairs).ends()
        is_found = is_found or ends is not None
        yield ends
    if not is_found:
        yield Maker(evidence, forced_pairs(evidence)).ends(is_forced=True)


def pairings(evidence):
    """The sets of the first ones of two ports, depth first."""
    count = evidence.count
    # Whether the ends from each one on can be paired at all; the last may have one more behind it.
    fits = [True] * (count + 2)
    for end in reversed(range(count)):
        is_pair = evidence.may_pair(end) and fits[end + 2]
        fits[end] = is_pair or (evidence.may_stand_alone(end) and fits[end + 1])
    stack = [(0, ())] if fits[0] else []
    while stack:
        end, pairs = stack.pop()
        while end < count:
            ways = ways_of(evidence, end, fits)
            if len(ways) > 1:
                stack.append((end + (2 if ways[1] else 1), joined(pairs, end, ways[1])))
            pairs = joined(pairs, end, ways[0])
            end += 2 if ways[0] else 1
        yield set(unwound(pairs))


def joined(pairs, end, is_pair):
    return (pairs, end) if is_pair else pairs


def unwound(pairs):
    while pairs:
        pairs, end = pairs
        yield end


def ways_of(evidence, end, fits):
    """Whether the end is the first one of two ports: what may be, and first what is likely."""
    ways = []
    if evidence.may_pair(end) and fits[end + 2]:
        ways.append(True)
    if evidence.may_stand_alone(end) and fits[end + 1]:
        ways.append(False)
    if is_next_likelier(evidence, end):
        ways.reverse()
    return ways


def is_next_likelier(evidence, end):
    """Whether the next end is rather the first one of two ports than this one is."""
    if frozenset([end, end + 1]) in evidence.linked or end in evidence.ports:
        return False
    # A port whose other neighbour shows nowhere most likely belongs to this end.
    if end in evidence.mentioned and end + 2 not in evidence.mentioned:
        return False
    return end + 1 in evidence.ports and evidence.may_pair(end + 1)


def likely_peers(goal):
    """By port, the other port of its channel, as logs make it likely, end by end."""
    evidence, peers = Evidence(goal, True), {}
    for end in sorted(evidence.mentioned):
        is_port = end in evidence.ports or end + 1 in evidence.ports
        is_pair = end not in peers and is_port and evidence.may_pair(end)
        if is_pair and not is_next_likelier(evidence, end):
            peers.update({end: end + 1, end + 1: end})
    return peers


def forced_pairs(evidence):
    """Pairs for logs that no ends fit."""
    pairs, end = set(), 0
    while end < evidence.count:
        is_pair = end in evidence.ports and end + 1 < MOST_ENDS
        pairs |= {end} if is_pair else set()
        end += 2 if is_pair else 1
    return pairs


class Maker:
    """Who makes which ends, where the first ones of two ports are known."""

    def __init__(self, evidence, pairs):
        self.evidence, self.pairs = evidence, pairs
        paired = pairs | {end + 1 for end in pairs}
        self.alone = [end for end in range(evidence.count) if end not in paired]
        self.needed = {end for end in self.alone if not evidence.may_be_member(end)}
        # A queue that was handed on may be all that logs show of its maker.
        is_handed = any(end in evidence.adopters for end in self.needed)
        self.agents = max(evidence.agents, 2 if is_handed else 1)
        self.queues, self.makers = collections.Counter(), {}
        for end in sorted(self.alone, key=lambda end: (end not in self.needed, end)):
            self.makers[end] = self.maker(end)
            self.queues[self.makers[end]] += end in self.needed

    def maker(self, end):
        users = self.evidence.users[end]
        if users:
            return min(users)
        others = [it for it in range(self.agents) if it != self.evidence.adopters.get(end)]
        return min(others, key=lambda agent: (self.queues[agent], agent != end))

    def ends(self, is_forced=False):
        """The ends. None where an agent needs more than a queue of each kind."""
        if not is_forced and any(count > 2 for count in self.queues.values()):
            return None
        makings, end, kinds = [], 0, collections.Counter()
        room = {agent: 2 - self.queues[agent] for agent in range(self.agents)}
        while end < self.evidence.count:
            if end in self.pairs:
                makings.append(f"channel {min(self.evidence.makers(end) or [0])}")
                end += 2
                continue
            agent = self.makers[end]
            is_queue = end in self.needed or (room[agent] > 0 and end in self.evidence.mentioned)
            if is_queue and kinds[agent] < 2:
                room[agent] -= end not in self.needed
                makings.append(f"{('client', 'worker')[kinds[agent]]} {agent}")
                kinds[agent] += 1
            else:
                makings.append(f'member {agent} "end {end}"')
            end += 1
        return Ends([ORIGIN] * self.agents, makings, end, True)

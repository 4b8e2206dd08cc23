"""Judges all that the logs of a run can show. tools/report is its command.

`verdict` gives the findings of entries, and `of_recording` those of what tools/recordings.py reads,
each of one of these kinds:

- AfterClose, AfterNotice, Changed, Twice, Gap, Foreign: the faults of docs/FORMATS.md, all of them;
  hublog.LineJudge says how a line goes on behind one. Faults of one kind at places that follow one
  another are one finding, but each Gap is one of its own.
- NotOwner: an agent uses an end that it doesn't have. Of each end an agent knows nothing at first;
  it has what it adopted; what it lists in a put is away, what a got lists has arrived, and what it
  closed is gone. Who takes at an end, closes it or sends it while that is away or has arrived isn't
  its owner. Who does so knowing nothing has made it, and two makers are one finding. So is an agent
  that gets from a queue that is newer than its last adoption. Who puts at an end isn't judged, but
  where a script tells who made it, and which ports are peers.
- BeforePut: each agent does its entries in order, and a got waits for its put. Where the agents can
  go no farther, some of them wait for one another in a circle.
- PutTwice: one name was accepted twice on a line.
- Lost: a message was accepted and is got nowhere, nor is a later one of its line, which would be a
  Gap. Notices are never lost. `allow_left` lets pass what waits at an end that was closed, or at a
  port named by a message that is left, and with a script at a queue that its agent hands on;
  `allow_waiting` what waits at any end.

All of it takes linear time.
"""

import bisect
import collections
import dataclasses
import functools
import itertools

import ends
import hublog
import hubscript

# What an agent knows of an end.
HAS, AWAY, ARRIVED, GONE, OTHERS = "has", "away", "arrived", "gone", "others"


@dataclasses.dataclass(slots=True)
class Passed:
    """Messages that were passed over, and came equally many places later, or that came nowhere."""

    puts: list
    later: int | None


@dataclasses.dataclass(slots=True)
class Finding:
    """One finding. `what` tells apart those of a kind that are told in different words.

    `about` has the entries that show it, each under its role; of `count` alike the first is there,
    and the last. Of a fault, `place` is where it stands on its line, and `due` what was next there.
    """

    kind: str
    end: int | None = None
    line: int | None = None
    what: str = ""
    about: list = dataclasses.field(default_factory=list)
    count: int = 1
    place: int | None = None
    due: int | None = None
    passed: list = dataclasses.field(default_factory=list)

    def tell(self, role, told):
        """Adds the entry of a role. There is one last entry."""
        if role == "last" and self.about[-1][0] == "last":
            self.about.pop()
        self.about.append((role, told))

    def told(self, role):
        """The entry of a role, or None."""
        return next((told for its, told in self.about if its == role), None)


@dataclasses.dataclass
class Known:
    """What a script tells: its ends, who makes each, which ports are peers, and which queues its
    agent hands on."""

    ends: ends.Ends
    makers: dict
    peers: dict
    handed: frozenset


def known_of(script):
    """What the bytes of a script tell. hubscript.BadScript tells the first bad line."""
    found = ends.of_script(script)
    makers = {}
    for end, making in found.numbered():
        word, agent = making.split(" ")[:2]
        makers.update((it, int(agent)) for it in range(end, end + 1 + (word == "channel")))
    return Known(found, makers, found.peers(), frozenset(hubscript.read(script).handed))


class Entries:
    def __init__(self, logs):
        self.logs = [log for log in logs if log.places]
        self.starts = [log.places[0] for log in self.logs]
        self.accepted, self.got = hublog.accepted_lists(logs), hublog.got_lists(logs)

    def told(self, at):
        """The entry at a line of the input."""
        log = self.logs[bisect.bisect_right(self.starts, at) - 1]
        word, said = log.entries[bisect.bisect_left(log.places, at)]
        return hublog.Item(log.agent, word, said, at)

    @functools.cached_property
    def closings(self):
        """By end, the entry that closes it."""
        return {
            said: hublog.Item(log.agent, word, said, at)
            for log in self.logs
            for (word, said), at in zip(log.entries, log.places)
            if word == "closed"
        }

    @functools.cached_property
    def alike(self):
        """By content, the first put that has it."""
        found = {}
        for puts in self.accepted.values():
            for put in puts:
                found.setdefault(put.content, put)
        return found

    def of_ends(self, wanted):
        """What moves one of these ends, or closes it, in the order of the input."""
        for log in self.logs:
            for (word, said), at in zip(log.entries, log.places):
                if word == "closed":
                    is_wanted = said in wanted
                elif word == "adopted":
                    is_wanted = said[0] in wanted
                else:
                    ports = said.content[0] if said.content else ()
                    is_wanted = any(port in wanted for port in ports)
                if is_wanted:
                    yield hublog.Item(log.agent, word, said, at)

    def agents(self):
        """The entries of each agent, that may have several logs, as triples with the line."""
        found = {}
        for log in self.logs:
            mine = found.setdefault(log.agent, [])
            mine += ((word, said, at) for (word, said), at in zip(log.entries, log.places))
        return found


def verdict(entries, known=None, allow_left=False, allow_waiting=False, judged=None):
    """The findings, in the order in which they are told.

    Where logs were cut, `judged` has the entries without what can't be judged: what was accepted
    may have been got in what is missing, so nothing is called lost.
    """
    findings = list(faults(judged or entries))
    findings += Owners(entries, known).findings()
    findings += circles(entries)
    findings += put_twice(entries)
    if judged is None:
        findings += lost(entries, known, allow_left, allow_waiting)
    return findings


def of_recording(recording, known=None, allow_left=False, allow_waiting=False):
    """The entries of a recording, those that can be judged where a log was cut, else None, and the
    findings. recordings.read gives a recording."""
    entries, logs = Entries(recording.logs), recording.judged_logs()
    judged = Entries(logs) if logs else None
    return entries, judged, verdict(entries, known, allow_left, allow_waiting, judged)


def add_options(parser):
    """The options of commands that judge what was lost."""
    add = parser.add_argument
    add("--script", metavar="FILE", help="the script of the run: it tells makers, peers and names")
    add("--allow-left", action="store_true",
        help="let pass what waits at a closed end, or at a port named by what is left")
    add("--allow-waiting", action="store_true", help="let pass what waits at any end")


# The faults of the formats


def faults(entries):
    """The faults of all lines, as findings."""
    for (end, line), got in sorted(entries.got.items()):
        yield from LineFaults(entries, end, line, got).findings()


class LineFaults:
    def __init__(self, entries, end, line, got):
        self.entries, self.end, self.line, self.got = entries, end, line, got
        self.accepted = entries.accepted.get((end, line), [])

    def findings(self):
        before = None
        for place, kind, due in hublog.faults_of_line(self.got, self.accepted):
            if before and kind == before.kind != "Gap" and place == before.place + before.count:
                before.count += 1
                continue
            if before:
                yield self.finished(before)
            before = Finding(kind, self.end, self.line, place=place, due=due)
        if before:
            yield self.finished(before)

    @functools.cached_property
    def names(self):
        return [entry.name() for entry in self.accepted]

    @functools.cached_property
    def first_places(self):
        """By name, where it was got first."""
        found = {}
        for place, (entry, _) in enumerate(self.got):
            found.setdefault(entry.name(), place)
        return found

    @functools.cached_property
    def notice_at(self):
        """Where the first notice was got."""
        return next(entry.at for entry, _ in self.got if entry.content is None)

    def finished(self, finding):
        """The finding with the entries that show it."""
        came = self.got[finding.place][0]
        finding.tell("came", self.entries.told(came.at))
        if finding.count > 1:
            last = self.got[finding.place + finding.count - 1][0]
            finding.tell("last", self.entries.told(last.at))
        if finding.kind == "Changed":
            finding.due = self.place_put(came, finding.due)
        elif finding.kind == "Gap":
            self.pass_over(finding, came)
        elif finding.kind == "Twice":
            first = self.got[self.first_places[came.name()]][0]
            finding.tell("before", self.entries.told(first.at))
        elif finding.kind == "AfterNotice":
            finding.tell("notice", self.entries.told(self.notice_at))
        elif finding.kind == "AfterClose":
            finding.tell("closed", self.entries.closings[self.end])
        if finding.due < len(self.accepted):
            finding.tell("due", self.entries.told(self.accepted[finding.due].at))
        return finding

    def place_put(self, came, due):
        """Where what came was put, which may have been passed over before."""
        if due < len(self.names) and self.names[due] == came.name():
            return due
        return bisect.bisect_left(self.names, came.name())

    def pass_over(self, finding, came):
        """Says of what a Gap passed over how many places later it came."""
        behind = bisect.bisect_left(self.names, came.name(), finding.due)
        # What is got nowhere takes no place from what is behind it.
        place, passed = finding.place, []
        for put in self.accepted[finding.due : behind]:
            came_at = self.first_places.get(put.name())
            passed.append((None if came_at is None else came_at - place, put))
            place += came_at is not None
        for later, pairs in itertools.groupby(passed, key=lambda pair: pair[0]):
            if later is None or later > 0:
                finding.passed.append(Passed([put for _, put in pairs], later))


# Whose an end is


@dataclasses.dataclass(slots=True)
class Holding:
    """What an agent knows of an end, since which line of the input, and its last adoption."""

    state: str
    since: int | None = None
    epoch: int = 0


class Owners:
    """What each agent knows of each end, as its own log says, and who isn't the owner of one."""

    def __init__(self, entries, known):
        self.entries, self.known = entries, known
        # By end, who made it by what its logs say, and where that shows first.
        self.makers = collections.defaultdict(dict)
        self.found = {}
        for agent, items in entries.agents().items():
            self.agent, self.held = agent, {}
            for word, said, at in items:
                getattr(self, word)(said, at)

    def findings(self):
        """The findings, by where they show first; of an end with two makers, for each end."""
        for end, makers in self.makers.items():
            if len(makers) > 1:
                finding = Finding("NotOwner", end, what="makers", count=len(makers))
                for at in makers.values():
                    finding.tell("maker", self.entries.told(at))
                self.found["makers", end] = finding
        return sorted(self.found.values(), key=lambda it: it.about[0][1].at)

    # The entries of an agent

    def got(self, said, at):
        holding = self.held.get(said.end)
        if holding is None or holding.state != HAS or said.epoch > holding.epoch:
            self.use(said.end, at, holding, said.epoch)
        for port in said.content[0] if said.content else ():
            self.held[port] = Holding(ARRIVED, at, self.epoch_of(port))

    def put(self, said, at):
        if said.content is None:
            return
        if self.known and said.end in self.known.peers:
            port = self.known.peers[said.end]
            self.use(port, at, self.held.get(port))
        for port in said.content[0]:
            self.use(port, at, self.held.get(port))
            self.held[port] = Holding(AWAY, at, self.epoch_of(port))

    def adopted(self, said, at):
        self.held[said[0]] = Holding(HAS, at, said[1])

    def closed(self, end, at):
        self.use(end, at, self.held.get(end))
        self.held[end] = Holding(GONE, at, self.epoch_of(end))

    def epoch_of(self, end):
        return self.held[end].epoch if end in self.held else 0

    # What is wrong with them

    def use(self, end, at, holding, epoch=0):
        """The agent takes at an end, closes it, sends it, or posts at its peer."""
        if holding is None:
            holding = self.held[end] = self.first_use(end, at, epoch)
        if holding.state in (AWAY, ARRIVED, OTHERS):
            self.report(holding.state, end, at, holding.since)
        elif holding.state == HAS and epoch > holding.epoch:
            self.report("newer", end, at, holding.since)

    def first_use(self, end, at, epoch):
        """What an agent knows of an end of which it knew nothing: it has made it, if anybody."""
        if self.known is not None:
            return Holding(HAS if self.known.makers.get(end) == self.agent else OTHERS)
        if not epoch:
            self.makers[end].setdefault(self.agent, at)
        return Holding(HAS)

    def report(self, what, end, at, since):
        """One finding for all that an agent does at an end since it can't."""
        key = what, end, self.agent, since
        if key not in self.found:
            finding = self.found[key] = Finding("NotOwner", end, what=what)
            finding.tell("use", self.entries.told(at))
            if since is not None:
                finding.tell("since", self.entries.told(since))
            return
        self.found[key].count += 1
        self.found[key].tell("last", self.entries.told(at))


class Waiting:
    """Runs the agents, each in its order, where a got waits for its put."""

    def __init__(self, entries):
        self.items = list(entries.agents().values())
        self.places = [0] * len(self.items)
        self.puts = {}
        for agent, items in enumerate(self.items):
            for place, (word, said, _) in enumerate(items):
                if word == "put":
                    self.puts.setdefault(said.key(), (agent, place))
        # By put, the agents that wait for it.
        self.waiting = collections.defaultdict(list)
        ready = collections.deque(range(len(self.items)))
        while ready:
            self.run(ready.popleft(), ready)

    def run(self, agent, ready):
        """Runs one agent as far as it goes, and makes those ready that wait for what it puts."""
        items = self.items[agent]
        for place in range(self.places[agent], len(items)):
            self.places[agent] = place
            word, said, _ = items[place]
            if word == "got":
                put = self.put_of(said)
                if put and self.places[put[0]] <= put[1]:
                    self.waiting[put].append(agent)
                    return
            elif word == "put" and (agent, place) in self.waiting:
                ready += self.waiting.pop((agent, place))
        self.places[agent] = len(items)

    def put_of(self, got):
        """The agent and the place of the put of a got, or None."""
        return self.puts.get(got.key())

    def circle(self):
        """Agents that wait for one another, each at its place and for a put; none where all ran."""
        stuck = (it for it, items in enumerate(self.items) if self.places[it] < len(items))
        agent, met = next(stuck, None), []
        while agent is not None and agent not in met:
            met.append(agent)
            agent = self.put_here(agent)[0]
        circle = met[met.index(agent) :] if met else []
        # It is told from its least agent on.
        first = circle.index(min(circle)) if circle else 0
        return circle[first:] + circle[:first]

    def put_here(self, agent):
        return self.put_of(self.items[agent][self.places[agent]][1])


def circles(entries):
    """One finding where the agents can't go on."""
    waiting = Waiting(entries)
    circle = waiting.circle()
    if not circle:
        return
    finding = Finding("BeforePut", count=len(circle))
    for agent in circle:
        _, said, at = waiting.items[agent][waiting.places[agent]]
        putter, place = waiting.put_here(agent)
        finding.tell("got", entries.told(at))
        finding.tell("put", entries.told(waiting.items[putter][place][2]))
    finding.end, finding.line = finding.about[0][1].said.end, finding.about[0][1].said.line
    yield finding


# What was accepted


def put_twice(entries):
    """The names that were accepted more than once on a line."""
    for (end, line), puts in sorted(entries.accepted.items()):
        before = None
        for one, other in itertools.pairwise(puts):
            if one.name() != other.name():
                before = None
            elif before:
                before.count += 1
            else:
                before = Finding("PutTwice", end, line, count=2)
                before.tell("first", entries.told(one.at))
                before.tell("again", entries.told(other.at))
                yield before


def left_of(entries):
    """By end and line, what was accepted and got nowhere: what waits, behind the last that was got
    of its line, and before it what was passed over. Notices aren't among it."""
    for key, puts in sorted(entries.accepted.items()):
        names = {entry.name() for entry, _ in entries.got.get(key, ())}
        last = max((at for at, put in enumerate(puts) if put.name() in names), default=-1)
        left = [(at > last, put) for at, put in enumerate(puts)
                if put.content is not None and put.name() not in names]
        if left:
            waiting = [put for waits, put in left if waits]
            yield key, waiting, [put for waits, put in left if not waits]


def allowed_ends(entries, known):
    """Where messages may be left by `allow_left`."""
    named = {
        port for _, waiting, passed in left_of(entries)
        for put in waiting + passed for port in put.content[0]
    }
    return {*entries.closings, *named, *(known.handed if known else ())}


def lost(entries, known, allow_left, allow_waiting):
    """What waits somewhere, and isn't allowed to."""
    if allow_waiting:
        return
    allowed = allowed_ends(entries, known) if allow_left else ()
    for (end, line), waiting, _ in left_of(entries):
        if not waiting or end in allowed:
            continue
        finding = Finding("Lost", end, line, count=len(waiting), passed=[Passed(waiting, None)])
        finding.tell("first", entries.told(waiting[0].at))
        if len(waiting) > 1:
            finding.tell("last", entries.told(waiting[-1].at))
        if end in entries.closings:
            finding.tell("closed", entries.closings[end])
        yield finding

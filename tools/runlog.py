"""A run as tools/draw and tools/view show it: its entries in one order, and what is wrong.

Logs don't say how they stand to one another. Of up to 20,000 entries the order is one in which the
state machine does what the logs say, where tools/explanation.py finds it: an order that could be.
Else it is a guess, which keeps the order of each log, has each `put` above its `got` where that can
be, and each adoption below what was put in the older queues. What was lost, or came late, is put as
early as it can be, since it is often a move that lost it.
"""

import collections
import dataclasses

import command
import ends
import explanation
import hublog
import hubscript
import naming
import recordings
import schedule
import telling
import verdict

# How many entries are ordered by a search, and how many states it may spend.
MOST_ORDERED = 20_000
MOST_STATES = 60_000
# How many findings are shown.
MOST_FINDINGS = 200
COLOURS = 8
# The roles of entries that are wrong.
WRONG = frozenset(["came", "last", "use", "maker", "got", "again", "first"])


@dataclasses.dataclass(eq=False, slots=True)
class Moment(hublog.Item):
    """One entry, with its lane and its place there.

    A `got` has its `put`, None where no log has one, and a `put` has its `gots`. `row` counts the
    moments in the order of the run.
    """

    lane: int
    place: int
    put: "Moment | None" = None
    gots: "list[Moment]" = dataclasses.field(default_factory=list)
    row: int | None = None

    @property
    def message(self):
        """The moment that stands for the message: its put, or a got without one. Else None."""
        if self.word == "put":
            return self
        return (self.put or self) if self.word == "got" else None

    def kind(self):
        if self.is_notice:
            return "notice"
        return "ports" if self.ports else "message"


@dataclasses.dataclass(frozen=True)
class Shown:
    """A finding as it is shown: its moment, the others that are wrong, and its texts.

    `about` has its entries, each with what it is called.
    """

    moment: Moment
    others: list
    title: str
    brief: str
    about: list
    around: list
    way: list


class Run:
    """The agents in order of the input, all moments in one order, and what is wrong with them.

    `upward` has the gots that stand above their put, for want of another order. `is_found` tells an
    order that could be from a guess.
    """

    def __init__(self, recording, words, known, names):
        self.names, self.recording = names, recording
        self.title = " ".join(map(naming.visible, recording.titles))
        entries, judged, self.found = verdict.of_recording(
            recording, known, words.allow_left, words.allow_waiting
        )
        self.missing = recording.missing
        self.agents, lanes = lanes_of(recording.logs)
        join_messages(lanes)
        self.moments, self.upward, found_ends = self.ordered(recording.logs, lanes, known)
        self.is_found = found_ends is not None
        peers = (found_ends or known.ends).peers() if found_ends or known else (
            ends.likely_peers(schedule.Goal(recording.logs)))
        self.channels = channels_of(self.moments, peers)
        self.findings = self.shown(entries, judged, recording)
        self.wrong = {it for shown in self.findings for it in (shown.moment, *shown.others)}

    def ordered(self, logs, lanes, known):
        """The moments in order, those that stand above their put, and the ends if it is found."""
        moments = {moment.at: moment for lane in lanes for moment in lane}
        is_odd = any(it.kind != "Lost" for it in self.found)
        if len(moments) <= MOST_ORDERED and not is_odd:
            found = explanation.order_of(logs, known and known.ends, MOST_STATES)
            if found:
                order = [moments[at] for at in found[0]]
                for row, moment in enumerate(order):
                    moment.row = row
                return order, [], found[1]
        late = {put.at for it in self.found for passed in it.passed for put in passed.puts}
        return *Guess(lanes, late).run(), None

    def shown(self, entries, judged, recording):
        moments = {moment.at: moment for moment in self.moments}
        findings = self.found[:MOST_FINDINGS]
        teller = telling.Teller(entries, self.names, recording.place, findings, judged)
        shown = []
        for finding in findings:
            wrong = [moments[told.at] for role, told in finding.about if role in WRONG]
            lost = [put for passed in finding.passed if passed.later is None for put in passed.puts]
            shown.append(Shown(
                wrong[0], wrong[1:] + [moments[put.at] for put in lost], teller.title(finding),
                teller.brief(finding),
                [(word, moments[told.at]) for word, told in teller.about(finding)],
                [*teller.around(finding), *teller.alike(finding)], list(teller.way(finding)),
            ))
        return shown

    def gots(self):
        return [it for it in self.moments if it.word == "got"]

    def place(self, moment):
        return self.recording.short_place(moment.at)

    def verdict(self):
        if not self.moments:
            return "Nothing is recorded."
        if self.found:
            more = len(self.found) - 1
            first = self.findings[0].title
            return first + (f", and {naming.plural(more, 'more finding')}" if more else "")
        return "; ".join([*self.missing, "nothing else is wrong"]) if self.missing else (
            "Right: nothing was found.")

    def order(self):
        order = "one that could be" if self.is_found else "a guess"
        return f"Order between agents: {order}; logs have no times."


def channels_of(moments, peers):
    """By end, the colour of its channel; two ports of one share it."""
    colours = {}
    for moment in moments:
        for end in (moment.end, *moment.ports):
            channel = min(end, peers.get(end, end))
            colours.setdefault(channel, len(colours) % COLOURS)
    return {
        end: colour for channel, colour in colours.items()
        for end in (channel, peers.get(channel, channel))
    }


def lanes_of(logs):
    lanes = {}
    for log in logs:
        lane = lanes.setdefault(log.agent, [])
        place = list(lanes).index(log.agent)
        for (word, said), at in zip(log.entries, log.places):
            lane.append(Moment(log.agent, word, said, at, place, len(lane)))
    return list(lanes), list(lanes.values())


def join_messages(lanes):
    """Gives each `got` its `put`. Of equal names the first got is of the first put.

    What is got more often than it was put is of the last put.
    """
    waiting = collections.defaultdict(collections.deque)
    moments = [moment for lane in lanes for moment in lane]
    for moment in moments:
        if moment.word == "put":
            waiting[moment.said.key()].append(moment)
    for moment in moments:
        puts = waiting.get(moment.said.key()) if moment.word == "got" else None
        if puts:
            moment.put = puts.popleft() if len(puts) > 1 else puts[0]
            moment.put.gots.append(moment)


def side_of(lane, lane_count):
    """To which side of a lane there is room beside it."""
    return -1 if lane == lane_count - 1 and lane > 0 else 1


class Guess:
    """Chooses an order of all moments. `late` has the lines of puts that were passed over."""

    def __init__(self, lanes, late):
        self.lanes, self.late = lanes, late
        self.nexts, self.last, self.order, self.upward = [0] * len(lanes), 0, [], []
        # By end and epoch, what is still to be put there; and the adoptions still to come.
        moments = [it for lane in lanes for it in lane]
        self.puts = collections.Counter(
            (it.end, it.said.epoch) for it in moments if it.word == "put"
        )
        self.adoptions = {it.said for it in moments if it.word == "adopted"}
        # By end, the epochs of its puts from the last one down, without those that are done.
        self.epochs = collections.defaultdict(list)
        for end, epoch in sorted(self.puts, reverse=True):
            self.epochs[end].append(epoch)
        # A hub that has no epochs puts all in queue 0.
        self.has_epochs = {end for end, epochs in self.epochs.items() if len(epochs) > 1}

    def run(self):
        while True:
            heads = [lane[at] for lane, at in zip(self.lanes, self.nexts) if at < len(lane)]
            if not heads:
                return self.order, self.upward
            ready = [moment for moment in heads if moment.put is None or moment.put.row is not None]
            timely = [moment for moment in ready if not self.is_early(moment)]
            if ready:
                moment = min(timely or ready, key=self.rank)
            else:
                # Each waits for what another one puts later: the logs go round in a circle.
                moment = heads[0]
                self.upward.append(moment)
            self.place(moment)

    def place(self, moment):
        moment.row = len(self.order)
        self.order.append(moment)
        self.nexts[moment.lane] += 1
        self.last = moment.lane
        if moment.word == "put":
            self.puts[moment.end, moment.said.epoch] -= 1
        elif moment.word == "adopted":
            self.adoptions.discard(moment.said)

    def is_early(self, moment):
        """Whether an adoption comes before what is put in the older queues of the end, or a put
        before the adoption that makes its queue."""
        if moment.word == "put":
            return (moment.end, moment.said.epoch) in self.adoptions
        if moment.word != "adopted":
            return False
        end, epoch = moment.said
        epochs = self.epochs.get(end, [])
        while epochs and not self.puts[end, epochs[-1]]:
            epochs.pop()
        return end in self.has_epochs and bool(epochs) and epochs[-1] < epoch

    def rank(self, moment):
        """What comes first of the moments that can come next: short arrows, closings at the end."""
        place = {"adopted": 0, "got": 1, "put": 2, "closed": 4}[moment.word]
        if moment.word == "put" and (not moment.gots or moment.at in self.late):
            place = 0
        elif moment.word == "put" and all(it.place != self.nexts[it.lane] for it in moment.gots):
            place = 3
        return place, moment.lane != self.last, moment.lane


class Parser(command.Parser):
    def __init__(self, prog, about):
        super().__init__(prog, about)
        verdict.add_options(self)
        recordings.add_paths(self)

    def read(self):
        """The arguments, and the run. Ends the program where it can't be read."""
        words, known = self.parse_args(), None
        script = self.bytes_of(words.script) if words.script is not None else None
        recording = recordings.read_for(self, words.paths)
        names = naming.Names(recording.names)
        try:
            if script is not None:
                names = naming.names_of(script, recording.names)
                known = verdict.known_of(script)
        except hubscript.BadScript as bad:
            self.error(f"{words.script}: {bad}")
        return words, Run(recording, words, known, names)

"""Says in words what tools/verdict.py finds: for each finding a title, its entries, and the way of
its end from agent to agent."""

import bisect
import collections
import dataclasses

import hublog
import naming
from naming import plural, short

MOST_LETTERS = 90
# How many names of a line are shown on each side of a fault, and how many stops of an end's way at
# its begin, at its end, and on each side of what a finding is about.
AROUND = 3
# By kind: how the entry of each role is called, in order.
ROLES = {
    "AfterClose": {"closed": "closed", "came": "came", "last": "and last"},
    "AfterNotice": {"notice": "notice", "came": "came", "last": "and last"},
    "Changed": {"due": "put", "came": "came", "last": "and last"},
    "Twice": {"before": "before", "came": "came", "last": "and last", "due": "next"},
    "Gap": {"due": "expected", "came": "came"},
    "Foreign": {"came": "came", "last": "and last", "due": "next"},
    "NotOwner": {"since": "before", "maker": "used", "use": "used", "last": "and last"},
    "BeforePut": {"got": "got", "put": "put"},
    "PutTwice": {"first": "put", "again": "again"},
    "Lost": {"first": "put", "last": "and last", "closed": "closed"},
}


@dataclasses.dataclass(slots=True)
class Stop:
    """A stop of an end's way: who sent it away, and who adopted it, or closed it."""

    sent: object = None
    got: object = None
    adopted: object = None
    closed: object = None

    def order(self):
        """A port is adopted before it is closed, and what nobody adopted comes between."""
        if self.adopted:
            return 0, self.adopted.said[1], self.adopted.at
        return (1, 0, self.sent.at) if self.sent else (2, 0, self.closed.at)


class Way:
    """The stops of an end, in order, and where an agent left it or adopted it."""

    def __init__(self, stops):
        self.stops = sorted(stops, key=Stop.order)
        self.sent = {it.sent.at: at for at, it in enumerate(self.stops) if it.sent}
        # By agent, the lines of its adoptions in rising order, each with its stop.
        self.adopted = collections.defaultdict(list)
        for at, stop in enumerate(self.stops):
            if stop.adopted:
                self.adopted[stop.adopted.agent].append((stop.adopted.at, at))
        for found in self.adopted.values():
            found.sort()

    def adopted_before(self, told):
        """The line and the stop of the last adoption before an entry of its agent, or None."""
        found = self.adopted[told.agent]
        place = bisect.bisect_left(found, (told.at, 0))
        return found[place - 1] if place else None


def ways_of(entries, wanted):
    """By end, of those that are wanted, its way."""
    sent, stops = {}, collections.defaultdict(list)
    last = {}
    for told in entries.of_ends(wanted):
        if told.word == "closed":
            stops[told.said].append(Stop(closed=told))
        elif told.word == "adopted":
            key = told.agent, told.said[0]
            stops[told.said[0]].append(Stop(got=last.pop(key, None), adopted=told))
        else:
            for port in wanted.intersection(told.said.content[0]):
                if told.word == "put":
                    sent.setdefault((port, told.said.key()), told)
                else:
                    last[told.agent, port] = told
    for port, its in stops.items():
        for stop in its:
            stop.sent = sent.pop((port, stop.got.said.key()), None) if stop.got else None
    for (port, _), told in sent.items():
        stops[port].append(Stop(sent=told))
    return {end: Way(its) for end, its in stops.items()}


class Teller:
    """Tells findings about entries, with the names and the places that people know.

    Where logs were cut, `judged` has the lines by which faults are counted.
    """

    def __init__(self, entries, names, place, findings, judged=None):
        self.entries, self.names, self.place = entries, names, place
        self.judged = judged or entries
        wanted = {it.end for it in findings if it.end is not None}
        self.ways = ways_of(entries, wanted)

    # Names

    def agent(self, told):
        return self.names.agent_told(told.agent)

    def at(self, told):
        name = self.names.agents.get(told.agent)
        where = ", ".join(filter(None, [name, self.place(told.at)]))
        return f"agent {told.agent} ({where})"

    def end(self, finding):
        return self.names.end_in_full(finding.end)

    # Titles

    def title(self, finding):
        where = f"at {self.names.end_in_full(finding.end)}"
        where += f", line {finding.line}" if finding.line is not None else ""
        return f"{finding.kind} {where}: {TITLES[finding.kind](self, finding)}"

    def brief(self, finding):
        return f"{finding.kind}: {TITLES[finding.kind](self, finding)}"

    def fault(self, finding, one, many):
        """The title of a fault of one message or of several."""
        came = finding.told("came").name()
        if finding.count == 1:
            return f"{came} was {one}"
        return f"{plural(finding.count, 'message')}, {came} first, were {many}"

    def changed(self, finding):
        said = f"got {difference(finding.told('due').said, finding.told('came').said)}"
        return self.fault(finding, said, said)

    def gap(self, finding):
        parts = []
        for passed in finding.passed:
            names, are = names_of(passed.puts), "is" if len(passed.puts) == 1 else "are"
            if passed.later is None:
                parts.append(f"{names} {are} got nowhere")
            else:
                parts.append(f"{names} came {plural(passed.later, 'place')} later")
        if not parts:
            # What was due is a name that was put once more than it was got until then.
            return f"{finding.told('came').name()} came where {finding.told('due').name()} was next"
        is_late = any(passed.later is not None for passed in finding.passed)
        return f"{'out of order' if is_late else 'passed over'}, {some(parts, 'and more')}"

    def not_owner(self, finding):
        if finding.what == "makers":
            makers = [self.names.agent_told(told.agent) for role, told in finding.about]
            return (f"{' and '.join(makers)} use it without having adopted it, and one alone can"
                    " have made it")
        use = finding.told("use")
        more = f", {finding.count} times in all," if finding.count > 1 else ""
        return f"{self.agent(use)} {self.deed(use, finding)}{more} {self.why(finding)}"

    def deed(self, use, finding):
        if use.word == "got":
            return f"got {use.name()} there"
        if use.word == "closed":
            return "closed it"
        is_sent = use.said.content and finding.end in use.said.content[0]
        return "sent it away" if is_sent else f"posted by it, {use.name()} at end {use.said.end},"

    def why(self, finding):
        since = finding.told("since")
        if finding.what == "away":
            return f"after it had sent it away ({self.place(since.at)})"
        if finding.what == "arrived":
            return f"where it had arrived ({self.place(since.at)}), and was not adopted"
        if finding.what == "newer":
            return "from a queue that is newer than its last adoption of the end"
        return "though it neither made nor adopted it, as the script says"

    def before_put(self, finding):
        got = finding.told("got")
        circle = plural(finding.count, "agent")
        return (f"{got.name()} was got before it was put; {circle}"
                f" {'wait' if finding.count > 1 else 'waits'} in a circle")

    def put_twice(self, finding):
        times = "twice" if finding.count == 2 else f"{finding.count} times"
        return f"{finding.told('first').name()} was accepted {times}"

    def lost(self, finding):
        first, last = finding.told("first"), finding.told("last")
        if last is None:
            return f"{first.name()} was accepted, and is got nowhere"
        return (f"{plural(finding.count, 'message')}, {first.name()} to {last.name()}, were"
                " accepted, and are got nowhere")

    # The whole finding

    def details(self, finding):
        rows = [(word, self.place(told.at), self.agent(told), text_of(told))
                for word, told in self.about(finding)]
        yield from naming.aligned(rows)
        yield from self.around(finding)
        yield from self.alike(finding)
        yield from self.way(finding)

    @staticmethod
    def about(finding):
        """The entries of a finding, each with what it is called, in the order of its roles."""
        roles = ROLES[finding.kind]
        about = [it for it in finding.about if it[0] in roles]
        if finding.kind != "BeforePut":
            about.sort(key=lambda it: list(roles).index(it[0]))
        return [(roles[role], told) for role, told in about]

    def around(self, finding):
        if finding.place is None:
            return
        key = finding.end, finding.line
        accepted, got = self.judged.accepted.get(key, []), self.judged.got.get(key, [])
        yield f"{'accepted':10}{names_about(accepted, finding.due, lambda it: it)}"
        yield f"{'got':10}{names_about(got, finding.place, lambda it: it[0])}"

    def alike(self, finding):
        """Of a message that nobody put: where the same content was put, if it was."""
        content = finding.told("came").said.content if finding.kind == "Foreign" else None
        put = self.entries.alike.get(content) if content else None
        if put is None:
            return
        told = self.entries.told(put.at)
        yield (f"The same was put as {told.name()} at {self.names.end_in_full(put.end)}, line"
                f" {put.line}, by {self.at(told)}.")

    # The way of an end

    def way(self, finding):
        way = self.ways.get(finding.end)
        if way is None or not (way.sent or way.adopted):
            return
        marked = self.marked(finding, way)
        is_between = marked is not None and finding.told("came")
        between = ", which moved between them" if is_between else ""
        yield f"The way of {self.end(finding)}{between}:"
        for at, stop in shown(way.stops, marked):
            yield f"{'>' if at == marked else ' '} {self.stop(stop) if stop else '..'}"

    def stop(self, stop):
        parts = []
        if stop.sent:
            parts.append(f"sent away by {self.at(stop.sent)}")
        if stop.adopted:
            parts.append(f"adopted by {self.at(stop.adopted)}")
        elif stop.sent:
            parts.append("adopted by nobody")
        if stop.closed:
            parts.append(f"closed by {self.at(stop.closed)}")
        return ", ".join(parts)

    def marked(self, finding, way):
        """The stop that lies between what a finding names."""
        since, came = finding.told("since"), finding.told("came")
        if since:
            return way.sent.get(since.at)
        adopted = way.adopted_before(came) if came else None
        if adopted is None:
            return None
        got = self.judged.got[finding.end, finding.line]
        before = got[finding.place - 1][0] if finding.place else None
        is_between = before is None or not adopted[0] < before.at < came.at
        return adopted[1] if is_between else None


def of_fault(one, many=None):
    """The title of a fault, by what is said of one message and of several."""
    return lambda teller, finding: teller.fault(finding, one, many or one)


TITLES = {
    "AfterClose": of_fault("got after the end was closed"),
    "AfterNotice": of_fault("got after the notice of its line, which is the last"),
    "Twice": of_fault("got twice", "got again"),
    "Foreign": of_fault("got, and nobody put it there", "got that nobody put there"),
    "Changed": Teller.changed, "Gap": Teller.gap, "NotOwner": Teller.not_owner,
    "BeforePut": Teller.before_put, "PutTwice": Teller.put_twice, "Lost": Teller.lost,
}


def text_of(told):
    return short(hublog.text_of(told.word, told.said), MOST_LETTERS)


def difference(put, got):
    if put.content is None:
        return "as a message, and was put as a notice"
    if got.content is None:
        return "as a notice, and was put as a message"
    if put.content[0] == got.content[0]:
        return "with another body than it was put"
    is_body_same = put.content[1] == got.content[1]
    return f"with other ports{'' if is_body_same else ' and body'} than it was put"


def names_of(puts):
    first, last = puts[0].name_text(), puts[-1].name_text()
    return first if len(puts) == 1 else f"{first} {'and' if len(puts) == 2 else 'to'} {last}"


def names_about(its, place, entry_of):
    """The names of what stands about a place of a line, which has a mark."""
    first, behind = max(0, place - AROUND), place + AROUND + 1
    names = [entry_of(it).name_text() for it in its[first:behind]]
    if place - first < len(names):
        names[place - first] = f"[{names[place - first]}]"
    names = [".."] * (first > 0) + names + [".."] * (behind < len(its))
    return " ".join(names) or "nothing"


def some(parts, more, most=3):
    return ", ".join(parts[:most] + ([more] if len(parts) > most else []))


def shown(stops, marked):
    """The stops that are shown, each with its place; None where some are passed over."""
    kept = {*range(AROUND), *range(len(stops) - AROUND, len(stops))}
    kept.update(range(marked - AROUND, marked + AROUND + 1) if marked is not None else ())
    before = -1
    for at in sorted(kept):
        if 0 <= at < len(stops):
            if at > before + 1:
                yield None, None
            yield at, stops[at]
            before = at

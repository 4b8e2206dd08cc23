"""Step files played on the parts that threads share, and answered by the state machine alike.

`hub_player` plays step lines by the public calls of hub_loop, hub_ports, hub_clients, hub_queue
and hub_broadcast. What it prints has to be what `messagehub steps` prints, byte by byte. Where a
step line has no call it ends with status 5 and the reason, and what it has printed until then is
compared. With turns of event loops it prints the step lines that do what the turns did.
"""

import collections
import json
import random
import re

import support
from support import PLAYER, PROGRAM, outcome_of

import machine

NOT_PLAYED = 5
NOTE = re.compile(rb"line (\d+): (.+)\n")
# Why a row is not played to its end: all reasons that there are.
REASONS = {"no call refuses memory", "no call makes a part of a post or of a sweep"}
SEED = 2_027
FILES = 500
EVENTS = ("install", "activate", "extend", "settle", "fail", "returned", "discard", "terminate")
NAMES = ("news", 'a "name"', "")
URLS = ("https://a.test", "HTTPS://A.test:443/x", "https://b.test", "-")


def played(text):
    return outcome_of([PLAYER], text)


def played_with_loops(text):
    return outcome_of([PLAYER, "loops"], text)


class Rows(support.TestCase):
    def test_rows(self):
        whole, lines, reasons = collections.Counter(), 0, collections.Counter()
        for row in support.rows("steps"):
            with self.subTest(row=row.name):
                found = played(row.text)
                if found.status != NOT_PLAYED:
                    self.assert_outcome(found, row.wanted())
                    whole[row.status] += 1
                    continue
                at, reason = NOTE.fullmatch(found.errors).groups()
                reasons[reason.decode()] += 1
                wanted = row.output.splitlines(keepends=True)[: int(at) - 1]
                self.assertIsNone(support.first_difference(found.output, b"".join(wanted)))
                lines += len(wanted)
        self.assertLessEqual(set(reasons), REASONS)
        self.says(whole[0], "whole rows", 50)
        self.says(whole[2], "rows of bad input", 30)
        self.says(lines, "lines of others", 160_000)
        for reason, count in sorted(reasons.items()):
            self.says(count, f"rows where {reason}")


class Drawn(support.TestCase):
    time_limit = 300

    def test_files(self):
        lines, words = 0, collections.Counter()
        for number in range(FILES):
            steps = Steps(SEED * FILES + number).drawn()
            text = "".join(f"{line}\n" for line in steps).encode()
            with self.subTest(file=number):
                wanted = outcome_of([PROGRAM, "steps"], text)
                self.assert_outcome(played(text), wanted)
            lines += len(steps)
            words.update(line.split(b" ")[0].decode() for line in wanted.output.splitlines())
        # Each outcome of a line that is played comes often.
        for word in ("accepted", "again", "cast", "closed", "discarded", "doomed", "ending", "got",
                     "handed", "notice", "moving", "not-now", "too-many-ports"):
            self.assertGreaterEqual(words[word], 10, word)
        self.says(FILES, "files", 500)
        self.says(lines, "lines", 40_000)


class Steps:
    """Draws step lines for which there are calls, beside a machine that does them.

    The machine isn't told which agents end, nor what such an agent is refused."""

    # How often it takes at most for a port that was sent.
    MOST_TAKES = 12
    LEAST_LINES, MOST_LINES = 40, 160

    def __init__(self, seed):
        self.draw = random.Random(seed)
        self.hub, self.lines = machine.Machine(), []
        # The agents that are ending, and the ends that a doomed post has closed.
        self.ending, self.doomed = set(), set()

    def drawn(self):
        for _ in range(self.draw.randint(2, 4)):
            self.do(f"agent {self.draw.choice(URLS)}")
        for _ in range(self.draw.choice((1, 2, 3, 4, 10))):
            self.do("channel 0")
        ways, weights = zip(*self.WAYS)
        length = self.draw.randint(self.LEAST_LINES, self.MOST_LINES)
        while len(self.lines) < length:
            self.draw.choices(ways, weights)[0](self)
        return self.lines

    def do(self, line):
        self.lines.append(line)
        return self.hub.do(line)

    def is_rare(self, below=12):
        return self.draw.randrange(below) == 0

    def pick(self, found):
        found = list(found)
        return self.draw.choice(found) if found else None

    def body(self, depth=0):
        values = [None, True, self.draw.randint(-9, 99), "tëxt"[: self.draw.randint(0, 4)]]
        if depth < 2:
            values += [[self.body(depth + 1)], {"k": self.body(depth + 1), "a": 1}]
        return self.draw.choice(values)

    def text(self):
        return json.dumps(self.body(), separators=(",", ":"), ensure_ascii=False, sort_keys=True)

    def runner(self):
        return self.pick(it for it in range(len(self.hub.origins)) if it not in self.ending)

    def ends(self, *kinds):
        """The ends of these kinds with an agent that runs."""
        return [
            end for end in self.hub.ends
            if end.kind in kinds and end.place == machine.WITH and not end.is_closed
            and end.agent not in self.ending
        ]

    def make(self):
        agent, word = self.runner(), self.draw.choice(("channel", "client", "worker", "member"))
        if agent is None:
            self.do("agent -")
        elif word == "member":
            self.do(f"member {agent} {json.dumps(self.draw.choice(NAMES))}")
        else:
            self.do(f"{word} {agent}")

    def line(self):
        queue = self.pick(end for end in self.hub.ends if end.is_queue() or self.is_rare(30))
        if queue and (agent := self.runner()) is not None:
            self.do(f"line {queue.number} {agent}")

    def held_lines(self):
        return [
            (end, at) for end in self.hub.ends if end.is_queue()
            for at, line in enumerate(end.lines) if line.holder is not None
        ]

    def back(self):
        if found := self.pick(self.held_lines()):
            self.do(f"back {found[0].number}/{found[1]}")

    def ports_for(self, agent, source, target):
        """A list of ports of the agent. Rarely it has the target, or what can't be sent."""
        own = [
            end.number for end in self.ends("port")
            if end.agent == agent and end.number not in (source, target)
        ]
        ports = self.draw.sample(own, min(len(own), self.draw.choice((0, 0, 0, 1, 1, 2, 3, 17))))
        if self.is_rare(25) and target is not None:
            ports.append(target)
        elif self.is_rare(25) and len(ports) < 16:
            ports.append(self.draw.randrange(len(self.hub.ends) + 2))
        self.draw.shuffle(ports)
        # So many ports are refused by a call only where all of them are at hand.
        return ports if len(ports) <= 16 or set(ports) <= set(own) else ports[:16]

    def post_as(self, poster, agent, source=None, target=None):
        ports = self.ports_for(agent, source, target)
        answer = self.do(f"post {poster} {','.join(map(str, ports)) or '-'} {self.text()}")
        if answer == "doomed":
            self.doomed.update(ports)

    def post(self):
        if port := self.pick(self.ends("port")):
            self.post_as(port.number, port.agent, port.number, port.peer)

    def post_on_line(self):
        posters = [it for it in self.held_lines() if it[0].lines[it[1]].holder not in self.ending]
        if found := self.pick(posters):
            end, at = found
            self.post_as(f"{end.number}/{at}", end.lines[at].holder)

    def start(self):
        if end := self.pick(self.ends("port", "client")):
            words = ("start", "loaded") if end.kind == "client" or self.is_rare() else ("start",)
            self.do(f"{self.draw.choice(words)} {end.number}")

    def take(self):
        found = self.ends("port", "client", "worker", "member")
        full = [end for end in found if end.is_enabled and end.head()]
        if end := self.pick(full if full and not self.is_rare(6) else found):
            self.do(f"take {end.number}")

    def adopt(self):
        end = self.pick(end for end in self.hub.ends if end.place == machine.ARRIVED)
        if end and end.agent not in self.ending:
            self.do(f"adopt {end.number} {end.agent}")

    def travel(self, port=None):
        """A port is sent, taken and adopted. Whether it was."""
        port = port or self.pick(self.ends("port"))
        sender = port and self.pick(
            end for end in self.ends("port")
            if end.agent == port.agent and end is not port and end.peer != port.number
        )
        if not sender:
            return False
        taker = self.hub.ends[sender.peer]
        self.do_at_hand("start", taker)
        self.do(f"post {sender.number} {port.number} {self.text()}")
        return port.place == machine.FLIGHT and self.is_brought(port, taker)

    def is_brought(self, port, taker):
        """Whether a port that was sent is taken and adopted."""
        for _ in range(self.MOST_TAKES):
            if port.place == machine.FLIGHT:
                self.do_at_hand("take", taker)
        if port.place != machine.ARRIVED or port.agent in self.ending:
            return False
        self.do(f"adopt {port.number} {port.agent}")
        return True

    def do_at_hand(self, word, end):
        if end in self.ends("port"):
            self.do(f"{word} {end.number}")

    def wander(self):
        """A port is sent and adopted so often that the line of its peer is left behind."""
        if port := self.pick(self.ends("port")):
            for _ in range(self.draw.randint(4, 7)):
                if not self.travel(port):
                    return
            peer = self.hub.ends[port.peer]
            if peer in self.ends("port"):
                self.do(self.draw.choice((f"post {peer.number} - 1", f"close {peer.number}")))

    def hand(self):
        queue = self.pick(self.ends("client", "worker"))
        if queue:
            self.do(f"hand {queue.number} {self.draw.randrange(len(self.hub.origins))}")

    def close(self):
        if end := self.pick(end for end in self.hub.ends if not end.is_closed or self.is_rare()):
            self.do(f"close {end.number}")

    def sweep(self):
        found = (end for end in self.hub.ends if end.is_closed or self.is_rare(20))
        if end := self.pick(end for end in found if end.number not in self.doomed):
            self.do(f"sweep {end.number}")

    def cast(self):
        found = [end for end in self.hub.ends if end.kind == "member"]
        if end := self.pick(end for end in found if end.agent not in self.ending):
            ports = self.draw.randrange(9) if self.is_rare() else "-"
            self.do(f"cast {end.number} {ports} {self.text()}")

    def part(self):
        if end := self.pick(end for end in self.hub.ends if end.kind == "member"):
            self.do(f"part {end.number}")

    def order(self):
        agent = self.draw.randrange(len(self.hub.origins) + 1)
        self.lines.append(f"{self.draw.choice(('event', 'see'))} {agent}")
        if self.lines[-1].startswith("event"):
            self.lines[-1] += f" {self.draw.choice(EVENTS)}"
        elif agent < len(self.hub.origins) and self.is_rare(6):
            self.lines += [f"order {agent}", f"see {agent}"]
            self.ending.add(agent)

    def refused(self):
        """A line about what there isn't, or for an agent that is ending."""
        number, agent = self.draw.choice((len(self.hub.ends), 70_000)), len(self.hub.origins)
        lines = [
            f"take {number}", f"start {number}", f"close {number}", f"sweep {number}",
            f"part {number}", f"adopt {number} 0", f"hand {number} 0", f"back {number}/0",
            f"post {number} - 1", f"post {number}/31 - 1", f"cast {number} - 1",
            f"channel {agent}", f"worker {agent}", f"line {number} {agent}", f"line {number} 0",
        ]
        for end in self.hub.ends:
            if end.agent in self.ending and not end.is_closed:
                lines += [f"take {end.number}", f"adopt {end.number} {end.agent}"]
                lines += [f"post {end.number} - 1", f"client {end.agent}"]
        self.lines.append(self.draw.choice(lines))

    WAYS = (
        (make, 4), (line, 3), (back, 1), (post, 18), (post_on_line, 8), (start, 8), (take, 22),
        (adopt, 8), (travel, 5), (wander, 2), (hand, 2), (close, 3), (sweep, 3), (cast, 5),
        (part, 1), (order, 3), (refused, 2),
    )


class Turns(Steps):
    """Draws step lines, and turns of event loops, which choose where they take from.

    After some turns the player says what they did, and the machine does that, too. A loop goes on
    by itself from a retired queue where the state machine answers a take with `again`, so there the
    take is repeated."""

    LEAST_LINES, MOST_LINES = 80, 320
    # How many turns of each agent are made at a time until all are idle.
    LAST_TURNS = 4
    MOST_ROUNDS = 100

    def __init__(self, seed):
        super().__init__(seed)
        # All step lines that were played, and the places of those that were answered `again`.
        self.steps, self.again = [], set()
        # How many of them turns have made, and how many of those there are of each word.
        self.made, self.words = 0, collections.Counter()
        # The line to a queue that the loop of an agent holds.
        self.held = {}
        # The agents that were ordered to end, and may not have found it.
        self.ordered = set()
        # What the player printed: the outcomes, and what it said of the other turns.
        self.outcomes, self.rests = [], []

    def drawn(self):
        super().drawn()
        for _ in range(self.MOST_ROUNDS):
            made = self.made
            agents = range(len(self.hub.origins))
            self.turn([agent for agent in agents for _ in range(self.LAST_TURNS)])
            if self.made == made:
                return self.lines
        raise AssertionError("the loops are never all idle")

    def turn(self, agents):
        """Makes a turn of each of these agents, and has the machine do what they did."""
        self.lines += [f"turn {agent}" for agent in agents]
        text = "".join(f"{line}\n" for line in self.lines).encode()
        found = played_with_loops(text)
        if found.errors or found.status:
            raise AssertionError(f"{found.errors}, {found.status} after {len(self.lines)} lines")
        played, self.outcomes, self.rests = parts_of(found.output)
        known = len(self.steps) - len(self.again)
        own = sum(not line.startswith("turn ") for line in self.lines)
        self.steps += played[known : own + self.made]
        for line in played[own + self.made :]:
            self.follow(line)
        self.made = len(played) - own

    def follow(self, line):
        """Has the machine do what a turn did."""
        word, number = line.split(" ")[:2]
        self.words[word] += 1
        if word == "see":
            agent = int(number)
            self.ending.add(agent)
            self.held = {at: line for at, line in self.held.items() if at[0] != agent}
            self.steps.append(line)
        else:
            self.take_on(line)

    def take_on(self, line):
        """A line that the machine does, a take past the queues from which everything was taken."""
        while self.hub.do(line) == "again":
            self.again.add(len(self.steps))
            self.steps.append(line)
        self.steps.append(line)

    def open_ends(self):
        return [end for end in self.ends("port", "client", "worker", "member") if end.is_enabled]

    def turns(self):
        agent = self.pick(end.agent for end in self.open_ends() if end.head())
        if self.is_rare():
            agent = self.draw.randrange(len(self.hub.origins) + 1)
        if agent is not None:
            self.turn([agent] * self.draw.choice((1, 1, 2, 3, 5, 9)))

    def do(self, line):
        word, outcome = line.split(" "), super().do(line)
        if word[0] == "line" and outcome.startswith("line "):
            self.held.setdefault((int(word[2]), int(word[1])), int(outcome[5:]))
        return outcome

    def back(self):
        """The first line of an agent to a queue is held by its loop, which gives none back."""
        if found := self.pick(
            (end, at) for end, at in self.held_lines()
            if self.held.get((end.lines[at].holder, end.number)) != at
        ):
            self.do(f"back {found[0].number}/{found[1]}")

    def is_brought(self, port, taker):
        queues = (it for end in self.open_ends() if end.agent == taker.agent for it in end.queues)
        self.turn([taker.agent] * sum(len(queue.waiting) for queue in queues))
        return port.place == machine.WITH

    def end(self):
        if (agent := self.runner()) is not None and self.is_rare(4):
            self.lines.append(f"order {agent}")
            self.ordered.add(agent)

    def order(self):
        """A look may find the order before a turn does."""
        super().order()
        word, agent = self.lines[-1].split(" ")[:2]
        if word == "see" and int(agent) in self.ordered:
            self.ending.add(int(agent))

    WAYS = (
        *(
            way for way in Steps.WAYS
            if way[0] not in (Steps.take, Steps.adopt, Steps.back, Steps.order)
        ),
        (Steps.adopt, 2), (back, 1), (order, 3), (end, 1), (turns, 24),
    )


def parts_of(output):
    """The step lines that were played, their outcomes, and what the turns said besides."""
    lines, outcomes, rests = [], [], []
    texts = iter(output.split(b"\n")[:-1])
    for text in texts:
        if text.startswith(b"> "):
            lines.append(text[2:].decode())
            outcomes.append(next(texts))
        else:
            rests.append(text)
    return lines, outcomes, rests


class Loops(support.TestCase):
    """Step files with turns of event loops, that are drawn from a seed.

    What the player says that a turn has done is a choice that the state machine has, too."""

    time_limit = 300

    def test_files(self):
        counts, words = collections.Counter(), collections.Counter()
        for number in range(FILES):
            with self.subTest(file=number):
                drawn = Turns(SEED * FILES + number)
                drawn.drawn()
                self.compare(drawn)
            words.update(drawn.words)
            words.update(line.split(b" ")[0].decode() for line in drawn.outcomes)
            counts.update(
                lines=len(drawn.lines), rests=len(drawn.rests), again=len(drawn.again),
                ends=len(drawn.open_ends()),
            )
        for word in ("cast", "closed", "discarded", "doomed", "ending", "got", "handed", "moving",
                     "not-now", "notice"):
            self.assertGreaterEqual(words[word], 10, word)
        self.says(FILES, "files", 500)
        self.says(counts["lines"], "lines", 108_000)
        self.says(words["take"], "deliveries", 9_900)
        self.says(words["adopt"], "adoptions", 5_000)
        self.says(counts["rests"], "idle turns", 27_000)
        self.says(counts["again"], "takes repeated", 1_400)
        self.says(words["see"], "loops that ended", 500)
        self.says(counts["ends"], "ends found empty", 1_500)

    def compare(self, drawn):
        """Asks the state machine for the outcomes of all lines that were played, and then whether
        all is taken where an agent can take."""
        self.assertEqual(set(drawn.rests), {b"idle"})
        wanted = list(drawn.outcomes)
        for end in drawn.open_ends():
            drawn.take_on(f"take {end.number}")
            wanted.append(b"empty")
        text = "".join(f"{line}\n" for line in drawn.steps).encode()
        answer = outcome_of([PROGRAM, "steps"], text)
        self.assertEqual((answer.errors, answer.status), (b"", 0))
        outcomes = answer.output.split(b"\n")[:-1]
        self.assertEqual({outcomes[place] for place in drawn.again} - {b"again"}, set())
        found = [it for place, it in enumerate(outcomes) if place not in drawn.again]
        difference = support.first_difference(b"\n".join(found), b"\n".join(wanted))
        self.assertIsNone(difference)


class TurnRows(support.TestCase):
    """The rows of `turns`, where event loops do what no step line says, and two that are too long
    to be written down."""

    def test_rows(self):
        rows = support.rows("turns")
        lines = 0
        for row in rows:
            with self.subTest(row=row.name):
                self.assert_outcome(played_with_loops(row.text), row.wanted())
            lines += row.text.count(b"\n")
        self.says(len(rows), "rows", 26)
        self.says(lines, "lines", 263_000)

    def play(self, steps):
        text = "".join(f"{line}\n" for line, _ in steps).encode()
        wanted = "".join(f"{line}\n" for _, lines in steps for line in lines).encode()
        self.assert_outcome(played_with_loops(text), support.Outcome(wanted, b"", 0))
        self.says(len(steps), "lines")

    def test_ten_thousand_ends_are_swept_in_order(self):
        """The end that the loop holds first has the greatest number."""
        numbers = range(10_000)
        steps = [step("agent -", f"agent {agent}") for agent in range(3)]
        for number in numbers:
            steps += [step("worker 1", f"end {number}"), (f"give {number} 2", ["given"])]
        steps += [(f"give {number} 0", ["given"]) for number in reversed(numbers)]
        ended = ["> see 0", f"ending {' '.join(map(str, numbers))}"]
        ended += [line for number in numbers for line in (f"> close {number}", "done")]
        ended += [line for it in numbers for line in (f"> sweep {it}", "discarded nothing")]
        self.play([*steps, step("order 0", "ordered"), ("turn 0", ended)])

    def test_shuffled_posts_are_served_in_order(self):
        """A turn asks from behind the end served last. First there are more posts than turns."""
        course = Course(200)
        for _ in range(40):
            for _ in range(50):
                course.post()
            for _ in range(30):
                course.turn()
        while course.turn():
            pass
        self.play(course.steps)


def step(line, outcome):
    return line, [f"> {line}", outcome]


class Course:
    """The order in which a loop serves its ends, where an agent posts at them by chance."""

    def __init__(self, count):
        self.draw, self.count = random.Random(SEED), count
        # What was posted at each end and taken there, and where the next turn begins to ask.
        self.posted, self.taken, self.next = [0] * count, [0] * count, 0
        self.steps = [step("agent -", "agent 0"), step("agent -", "agent 1")]
        for at in range(0, 2 * count, 2):
            self.steps += [step("channel 0", f"ends {at} {at + 1}"), (f"give {at} 1", ["given"])]
            self.steps.append(step(f"start {at + 1}", "started"))

    def post(self):
        at = self.draw.randrange(self.count)
        self.steps.append(step(f"post {2 * at} - 1", f"accepted 0:{self.posted[at]}"))
        self.posted[at] += 1

    def turn(self):
        order = [*range(self.next, self.count), *range(self.next)]
        at = next((it for it in order if self.taken[it] < self.posted[it]), None)
        if at is None:
            self.steps.append(("turn 0", ["idle"]))
            return False
        got = f"got 0:{self.taken[at]} from 0 1"
        self.steps.append(("turn 0", [f"> take {2 * at + 1}", got]))
        self.taken[at] += 1
        self.next = at + 1
        return True

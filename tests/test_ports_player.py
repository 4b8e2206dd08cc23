"""Plays step files on the ports of the library that C links, beside the state machine.

embed/c/tests/ports_player.c does the lines of which a program with ports has a call: it hands a
port over where the state machine makes a queue, so a take that goes on to the next queue is no line
of its own there, and answers name no queue. All else is compared line by line.
"""

import collections

import support
import test_player
from support import PROGRAM, ROOT, outcome_of
from test_embed import OUT, SANITIZERS, Embedded
import machine

SEED, FILES = 83_000_000, 500
ARCHIVE = OUT / "lib" / "libvarukoni_ports.a"
PLAYER = ROOT / "embed" / "c" / "tests" / "ports_player.c"
WORDS = {"agent", "channel", "start", "post", "take", "adopt", "close", "sweep"}
# What is left out: what changes nothing, and what queues and their epochs are told by.
LEFT_OUT = {"not-now", "again", "busy", "moving"}
# The rows of `steps` that have no other lines, and whose bodies are compact.
ROWS = {
    "arrived-port-closed", "body-deepest", "body-longest-262142", "body-longest-65534",
    "discarded-two", "doomed", "doomed-then-taken", "five-adoptions", "last-lf-missing",
    "long-body-taken", "notice-moving", "notice-of-doomed", "notice-taken",
    "port-in-what-is-swept", "ports-in-discarded", "post-to-closed", "refused-transfer",
    "sixteen-ports", "start-then-take", "started-then-moved", "swept-after-moves",
    "three-adoptions", "three-ports-sent", "transfer-with-backlog", "two-hundred",
}
NOT_COMPACT = ("bodies-read", "body-greatest-and-sorted")


class PortSteps(test_player.Steps):
    LEAST_LINES, MOST_LINES = 80, 200

    def make(self):
        if (agent := self.runner()) is not None:
            self.do(f"channel {agent}")

    WAYS = (
        (make, 3), (test_player.Steps.post, 20), (test_player.Steps.start, 8),
        (test_player.Steps.take, 24), (test_player.Steps.adopt, 8), (test_player.Steps.travel, 13),
        (test_player.Steps.wander, 1), (test_player.Steps.close, 6), (test_player.Steps.sweep, 6),
    )


def words_of(outcome):
    """What the player says where the state machine says this of a line that isn't a sweep."""
    words = outcome.split(" ")
    if words[0] == "got":
        # got EP:N from L with LIST BODY, or without a list
        return " ".join(["got", *words[4:]])
    if words[0] in ("accepted", "adopted", "done"):
        return words[0]
    return "ended" if words[0] == "notice" else outcome


class Judged:
    """The lines of a step file that ports have calls for, and what is to come of each."""

    def __init__(self, lines):
        self.hub, self.lines, self.wanted = machine.Machine(), [], []
        # All outcomes of the state machine, which the program has to give too.
        self.outcomes = []
        for line in lines:
            self.judge(line)

    def judge(self, line):
        word, *rest = line.split(" ")
        waiting = self.messages_at(int(rest[0])) if word == "sweep" else 0
        outcome = self.hub.do(line)
        self.outcomes.append(outcome)
        if outcome in LEFT_OUT:
            return
        self.lines.append(line)
        if word == "sweep":
            self.wanted.append({f"discarded {waiting}"})
        elif outcome == "empty":
            self.wanted.append({"empty", "ended"} if self.is_ended(int(rest[0])) else {"empty"})
        else:
            self.wanted.append({words_of(outcome)})

    def messages_at(self, number):
        """How many messages wait at an end, its notice not counted."""
        if number >= len(self.hub.ends):
            return 0
        queues = self.hub.ends[number].queues
        return sum(it.body is not None for queue in queues for it in queue.waiting)

    def is_ended(self, number):
        return self.hub.ends[self.hub.ends[number].peer].is_closed


class Played(Embedded):
    """What comes of each line is what the state machine says of it."""

    def setUp(self):
        super().setUp()
        self.player = self.compiled(PLAYER, ARCHIVE, *SANITIZERS, standard="-std=gnu11")

    def compare(self, lines):
        judged = Judged(lines)
        text = "".join(f"{line}\n" for line in lines).encode()
        wanted = "".join(f"{line}\n" for line in judged.outcomes).encode()
        self.assert_outcome(outcome_of([PROGRAM, "steps"], text), support.Outcome(wanted, b"", 0))
        text = "".join(f"{line}\n" for line in judged.lines).encode()
        found = outcome_of([self.player], text)
        self.assertEqual((found.errors, found.status), (b"", 0))
        told = found.output.decode().splitlines()
        self.assertEqual(len(told), len(judged.lines))
        for at, (line, said, wanted) in enumerate(zip(judged.lines, told, judged.wanted)):
            self.assertIn(said, wanted, f"line {at + 1}: {line}")
        return collections.Counter(line.split(" ")[0] for line in judged.lines)

    def test_drawn(self):
        counts = collections.Counter()
        for number in range(FILES):
            with self.subTest(file=number):
                counts += self.compare(PortSteps(SEED + number).drawn())
        self.says(FILES, "files", 500)
        self.says(counts["adopt"], "transfers", 3_000)
        self.says(counts["close"], "closes", 1_000)
        self.says(counts["take"], "takes", 10_000)

    def test_rows(self):
        fit = set()
        for row in support.rows("steps"):
            lines = row.text.decode(errors="replace").splitlines()
            if row.status or not lines or row.name.startswith(NOT_COMPACT):
                continue
            if {line.split(" ")[0] for line in lines} <= WORDS:
                with self.subTest(row=row.name):
                    self.compare(lines)
                    fit.add(row.name)
        self.assertEqual(fit, ROWS)
        self.says(len(fit), "rows", 25)

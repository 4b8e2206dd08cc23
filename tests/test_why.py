"""What tools/why says of step lines that are `not-now`, by the tests of docs/FORMATS.md."""

import random

import support
from support import PROGRAM, ROOT, outcome_of
from test_tools import tool

import machine
import steplines

FILES, LINES = 40, 300
WHY = ROOT / "tools" / "why"
# Agents 0 and 1; ports 0 and 1 of agent 0; client queue 2 of agent 1, whose line 0 agent 0 has;
# broadcast channel 3 of agent 0.
FRONT = ["agent https://a.test", "agent -", "channel 0", "client 1", "line 2 0", 'member 0 "m"']
# Step lines behind FRONT, of which the last one alone is `not-now`, and the test that fails.
SENT = ["post 2/0 1 null"]
ARRIVED = [*SENT, "start 2", "take 2"]
ENDED = ["order 1", "see 1"]
REASONS = [
    (["channel 2"], "there is no agent 2"),
    (["take 9"], "there is no end 9"),
    ([*ENDED, "client 1"], "agent 1 runs no more: `see` showed it `ending`"),
    (["client 1"], "agent 1 has end 2, a client queue"),
    (["back 0"], "end 1 is a port, no client or worker queue"),
    (["back 2/1"], "no agent holds line 1 of end 2"),
    (["enter 2/0", "back 2/0"], "the poster is inside, not out"),
    (["enter 2"], "end 2 is a client queue, with posters 2/0 and so on"),
    (["enter 0/0"], "end 0 is a port, with poster 0"),
    (["enter 2/40"], "end 2 has no line 40"),
    (["enter 2/7"], "no agent holds line 7 of end 2"),
    (["enter 3/0"], "end 3 is a broadcast channel, by whose line only a `cast` posts"),
    ([*SENT, "enter 1"], "end 1 is on its way"),
    (["close 1", "enter 1"], "end 1 is closed"),
    (["close 1", "close 0", "enter 0"], "end 0 is closed"),
    (["push 0 - 1"], "the poster is out, not inside"),
    ([*ARRIVED, "enter 1", "push 1 - 1"], "end 1 has arrived at agent 1"),
    (["enter 0", "push 0 1 1"], "end 1 is the one to which the message goes"),
    (["leave 0"], "the poster is out, not inside or being turned back"),
    (["hop 0"], "its queue, epoch 0, isn't retired"),
    (["post 0 2 1"], "end 2 is a client queue, no port"),
    (["post 0 0 1"], "end 0 is the port that posts"),
    (["post 2/0 1,1 1"], "end 1 stands twice in the list"),
    (["enter 1", "post 2/0 1 1"], "the poster of end 1 is inside, not out"),
    ([*SENT, "post 2/0 1 1"], "end 1 is on its way"),
    (["channel 1", "post 2/0 4 1"], "agent 1 has end 4, not agent 0"),
    (["loaded 1"], "end 1 is a port, no client queue"),
    ([*SENT, "start 1"], "end 1 is on its way"),
    ([*ARRIVED, "take 1"], "end 1 has arrived at agent 1"),
    ([*ENDED, "take 2"], "agent 1 runs no more: `see` showed it `ending`"),
    (["look 1"], "end 1 is open, and its taker stands at the newest queue"),
    (["hand 1 1"], "end 1 is a port, no client or worker queue"),
    (["hand 2 1"], "agent 1 has it"),
    (["adopt 1 1"], "agent 0 has end 1, so that it has arrived nowhere"),
    ([*ARRIVED, "adopt 1 0"], "end 1 has arrived at agent 1, not at agent 0"),
    ([*SENT, "close 1"], "end 1 is on its way"),
    (["enter 1", "close 1"], "the poster of end 1 is inside, not out"),
    (["sweep 1"], "end 1 is open"),
    (["cast 1 - 1"], "end 1 is a port, no broadcast channel"),
    (["part 3", "part 3"], "end 3 has parted"),
    (["order 1", "enter 1", "see 0"], "the poster of line 0 of end 0 is inside, not out"),
    (["event 1 install"], "agent 1 has made no `worker` yet"),
]


# The rows with bodies that aren't compact.
SPACED = ("body-greatest-and-sorted", "bodies-read")
# What an event comes to is told by the program alone.
LIFE = ("state", "wrong-state", "too-many-extensions", "no-extension")


def drawn(draw):
    """Step lines over few agents and ends, of which many do something."""
    lines = list(FRONT)
    for _ in range(LINES - len(FRONT)):
        word = draw.choice([*steplines.SHAPES, *["post", "take", "adopt", "start"] * 4])
        if word in ("order", "see", "close", "part") and draw.random() < 0.7:
            word = "post"
        said = " ".join(word_of(kind, draw) for kind in steplines.SHAPES[word])
        lines.append("!" * (draw.random() < 0.05) + f"{word} {said}")
    return lines


def word_of(kind, draw):
    number = str(min(draw.randrange(12), draw.randrange(12)))
    return {
        steplines.URL: draw.choice(["-", "https://a.test", "https://a.test:443", "a", "data:,x"]),
        steplines.NUMBER: number,
        steplines.POSTER: number + draw.choice(["", "", "/0", "/1"]),
        steplines.LIST: draw.choice(["-", "-", "-", number, f"{number},{draw.randrange(12)}"]),
        steplines.NAME: draw.choice(['"m"', '"n"']),
        steplines.BODY: str(draw.randrange(100)),
        steplines.EVENT: draw.choice(["install", "returned", "settle"]),
    }[kind]


def outcome_told(outcome):
    return "state" if outcome.startswith(LIFE) else outcome


class Why(support.TestCase):
    def why(self, text):
        """The numbers of the step lines that are `not-now`, with the reasons."""
        lines = steplines.read(text)
        return [(number, why) for number, _, why in tool("why").reasons(lines)]

    def test_reasons(self):
        for lines, why in REASONS:
            with self.subTest(lines=lines):
                text = "\n".join([*FRONT, *lines]).encode()
                self.assertEqual(self.why(text), [(len(FRONT) + len(lines), why)])
        self.says(len(REASONS), "reasons", 42)

    def test_rows(self):
        """The machine gives the outcomes of the rows, but for bodies that aren't compact. Each
        `not-now` has a reason, and no other step line has one."""
        rows, count = [row for row in support.rows("steps") if row.status == 0], 0
        for row in rows:
            with self.subTest(row=row.name):
                hub, lines = machine.Machine(), steplines.read(row.text)
                for line, wanted in zip(lines, row.output.decode().splitlines(), strict=True):
                    found = hub.do(line)
                    if not row.name.startswith(SPACED):
                        self.assertEqual(outcome_told(found), outcome_told(wanted))
                    self.assertEqual(hub.why is None, wanted != "not-now")
                    count += hub.why is not None
        self.says(len(rows), "rows", 72)
        self.says(count, "of the step lines not-now", 50)

    def test_bad_lines(self):
        rows = [row for row in support.rows("steps") if row.status == 2]
        for row in rows:
            with self.subTest(row=row.name):
                with self.assertRaises(steplines.BadLine) as bad:
                    steplines.read(row.text)
                self.assertEqual(f"{bad.exception}\n", row.output.decode())
        self.says(len(rows), "inputs", 110)

    def test_command(self):
        long = "post 0 0 " + '"' + "x" * 80 + '"'
        told = f"line 7: {long[:60]}…: end 0 is the port that posts\n".encode()
        rows = [
            (FRONT, (b"", b"", 0)), ([*FRONT, long], (told, b"", 1)),
            (["fly"], (b"", b"tools/why: line 1: UnknownStep\n", 2)),
        ]
        for lines, wanted in rows:
            self.assertEqual(outcome_of([WHY], "\n".join(lines).encode()), wanted)
        self.says(len(rows), "calls")

    def test_drawn(self):
        """Of step lines that are drawn at random the machine gives each outcome of the program."""
        count = refused = 0
        for seed in range(FILES):
            lines = drawn(random.Random(seed))
            found = outcome_of([PROGRAM, "steps"], "\n".join(lines).encode())
            self.assertEqual(found.status, 0, found.output)
            hub = machine.Machine()
            for line, wanted in zip(lines, found.output.decode().splitlines(), strict=True):
                with self.subTest(seed=seed, line=line):
                    self.assertEqual(outcome_told(hub.do(line)), outcome_told(wanted))
                    self.assertEqual(hub.why is None, wanted != "not-now")
                count, refused = count + 1, refused + (wanted == "not-now")
        self.says(count, "step lines drawn", FILES * LINES)
        self.says(refused, "of them not-now", FILES * LINES // 10)

"""Refuses each allocation in turn, until one is reached that isn't made.

It runs the built program on rows, and each test of a crate whose name ends in
`whichever_allocation_is_refused`, out of the test programs that CI has built. A library, made
with cc from refuse.c, refuses the Nth call of malloc and realloc.
"""

import re

import support
from support import PLAYER, PROGRAM, ROOT, outcome_of

SETTING = "REFUSED_ALLOCATION"
ENDING = "whichever_allocation_is_refused"
LAST_LINE = b"out of memory\n"
CLOSED = re.compile(rb"(?<=\n)(> close \d+\ndone)$", re.MULTILINE)
# More than any of the runs asks for.
MOST = 100_000

# The rows of which each allocation is refused.
ROWS = {
    "steps": [
        "bad-after-a-step", "casts-of-two-origins", "doomed-then-taken", "every", "long-body-taken",
        "port-in-what-is-swept", "port-moved-by-hand", "queues-and-an-order",
    ],
    "check": ["log-twice-long-body"],
    "run": [
        "cast-to-two", "handed-queue", "ordered-while-waiting", "own-destination-in-list",
        "ring-of-sixteen",
    ],
}

# How many calls are refused at least.
FLOORS = {"steps": 100, "check": 10, "run": 100}

# The rows that are played on the running parts with each allocation refused.
PLAYED = [
    "arrived-port-closed", "client-queue-goes-on", "long-body-taken", "sixteen-ports",
    "swept-after-moves", "three-ports-sent", "transfer-with-backlog", "worker-queue-goes-on",
]

# Bodies that are compact already, each of which is posted too in a list beside the string, and one
# that isn't.
COMPACT_BODIES = [
    "[true,false]", "[0,-12,123456789012345678]", '"é 😀"', '"\\"\\\\\\b\\f\\n\\r\\t/"',
    '[[],{},[1,{"a":[2]}]]',
    '{"":"x","a":{"b":null},"aa":1}',
]
LONG_STRING = '"more than 24 bytes of text"'
SPACED_BODY = "[true, false]"
# The text of a body of at most so many bytes lies in the body itself.
INLINE_BYTES = 24


class Refusing(support.RefusingCase):
    time_limit = 300

    def outcomes(self, words, text=b""):
        """The outcome with the first call refused, with the second, and so on.

        The last one is that of a run in which no call was refused. It is the whole outcome.
        """
        for number in range(1, MOST):
            outcome, was_refused = self.refuser.outcome(words, text, SETTING, number)
            yield number, outcome, was_refused
            if not was_refused:
                return
        self.fail("there is no end of calls")


def is_cut_short(mode, output, whole):
    """Whether it is a beginning of the lines of the whole output, for `run` none, and the last."""
    front = output.removesuffix(LAST_LINE)
    if mode == "run" or front == output:
        return output == LAST_LINE
    return whole.startswith(front) and (not front or front.endswith(b"\n"))


class Player(Refusing):
    """The program that plays step files on the parts that threads share.

    It plays a line once more where there was no memory. So whichever call was refused, what is left
    of the line is as if it had not been played, and its outcome is the right one; but the notice of
    a close may have found no memory. Where the input found none, `out of memory` is alone.
    """

    def refuse(self, words, row, right):
        """How many calls were refused in a row."""
        # Without memory for the words behind its name the player takes them for none.
        unread = [support.Outcome(LAST_LINE, b"", 3)]
        unread += [outcome_of(words[:1], row.text)] if words[1:] else []
        calls = 0
        for number, found, was_refused in self.outcomes(words, row.text):
            if was_refused and found in unread:
                self.unread += 1
            else:
                self.assertIn(found, right, f"call {number} refused")
            calls += was_refused
        return calls

    def refuse_all(self, words, rows, right_of):
        self.unread = calls = 0
        for row in rows:
            with self.subTest(row=row.name):
                right = right_of(row)
                self.assertEqual(right[0], row.wanted())
                calls += self.refuse(words, row, right)
        most = 4 * len(words) * len(rows)
        self.assertLessEqual(self.unread, most, "most calls come after the input was read")
        self.says(len(rows), "rows", 5)
        self.says(calls, "calls", 200)

    def test_rows(self):
        self.refuse_all([PLAYER], [support.row("steps", it) for it in PLAYED], right_outcomes)

    def test_turns(self):
        """Rows with turns of loops."""
        rows = [row for row in support.rows("turns") if row.name.endswith(ENDING)]
        self.refuse_all([PLAYER, "loops"], rows, right_turns)


def right_outcomes(row):
    """The outcome, and those in which the notice of one close finds no memory."""
    lines = row.text.splitlines(keepends=True)
    marked = [
        b"".join([*lines[:at], b"!" + line, *lines[at + 1:]])
        for at, line in enumerate(lines) if line.startswith(b"close ")
    ]
    return [outcome_of([PROGRAM, "steps"], it) for it in [row.text, *marked]]


def right_turns(row):
    """The same where a loop closes the ports. The last turn gets a notice, and then none."""
    lines, found = row.output.splitlines(keepends=True), [row.output]
    for at, line in enumerate(lines):
        if line.startswith(b"notice "):
            text = b"".join([*lines[: at - 1], *lines[at + 1:], b"idle\n"])
            # The loop tells it of a port that it held.
            found += [text, CLOSED.sub(rb"\1 no-memory", text, count=1)]
    return [row.wanted()._replace(output=it) for it in found]


class Program(Refusing):
    """The program in its modes.

    Where a call was refused the program says so with status 3, or it gives the whole outcome: the
    library does without that memory, as with a reserve that is tried first.
    """

    shows = frozenset({"status 3", "out of memory"})

    def refuse(self, row):
        """How many calls were refused."""
        refused = 0
        for number, found, was_refused in self.outcomes([PROGRAM, row.mode], row.text):
            if was_refused and found != row.wanted():
                self.assertEqual((found.errors, found.status), (b"", 3), f"call {number} refused")
                is_short = is_cut_short(row.mode, found.output, row.output)
                self.assertTrue(is_short, f"call {number} refused: {found.output}")
            elif not was_refused:
                self.assert_outcome(found, row.wanted())
            refused += was_refused
        return refused

    def refuse_rows(self, mode):
        calls = 0
        for name in ROWS[mode]:
            with self.subTest(row=name):
                count = self.refuse(support.row(mode, name))
                self.assertGreater(count, 0, "no call was refused")
                calls += count
        self.says(len(ROWS[mode]), "rows")
        self.says(calls, "calls", FLOORS[mode])

    def calls_for(self, body):
        """How many calls a post of the body makes in all."""
        text = f"agent -\nchannel 0\npost 0 - {body}\n".encode()
        return self.refuse(
            support.Row("steps", body, text, b"agent 0\nends 0 1\naccepted 0:0\n", 0)
        )

    def test_compact_bodies(self):
        """A body whose text is compact is copied, and not taken apart.

        It takes as few calls as the body `null`, or as a string of such a length.
        """
        fewest, more = self.calls_for("null"), self.calls_for(LONG_STRING)
        self.assertGreater(more, fewest, LONG_STRING)
        bodies = COMPACT_BODIES + [f"[{body},{LONG_STRING}]" for body in COMPACT_BODIES]
        for body in bodies:
            with self.subTest(body=body):
                is_inline = len(body.encode()) <= INLINE_BYTES
                self.assertEqual(self.calls_for(body), fewest if is_inline else more)
        self.assertGreater(self.calls_for(SPACED_BODY), fewest, SPACED_BODY)
        self.says(len(bodies), "bodies")


support.add_tests(Program, Program.refuse_rows, {mode: mode for mode in ROWS})


def functions_of(crate):
    """The names of the tests of that kind in the sources of a crate."""
    head = re.compile(rf"^\s*fn (\w*{ENDING})\b", re.MULTILINE)
    sources = sorted((crate / "src").rglob("*.rt"))
    return sorted(name for path in sources for name in head.findall(path.read_text("utf-8")))


CRATES = {
    crate: names for crate in sorted((ROOT / "crates").iterdir()) if (names := functions_of(crate))
}


class Crates(Refusing):
    """The tests of the crates: each has to pass at each call. A method for each crate is below."""

    def refuse_in(self, crate):
        programs = sorted((crate / "out").glob("*_tests"))
        self.assertEqual(len(programs), 1, f"test programs of {crate.name}: run rt ci first")
        names = self.listed(programs[0])
        self.assertEqual(sorted(name.rpartition("::")[2] for name in names), CRATES[crate])
        calls = 0
        for name in names:
            with self.subTest(test=name):
                calls += self.refuse(programs[0], name)
        self.says(len(names), "tests")
        self.says(calls, "calls", len(names))

    def listed(self, program):
        """The tests of that kind in a test program, by the names that it lists."""
        found = self.ran([program, "--list"]).decode()
        names = re.findall(r"^(.*): test$", found, re.MULTILINE)
        return [name for name in names if name.endswith(ENDING)]

    def refuse(self, program, name):
        """How many calls were refused."""
        refused = 0
        for number, found, was_refused in self.outcomes([program, name]):
            tail = (found.output + found.errors)[-300:]
            self.assertEqual(found.status, 0, f"call {number} refused: {tail}")
            refused += was_refused
        self.assertGreater(refused, 0, "no call was refused")
        return refused

    def test_sources(self):
        """No test of that kind is lost from the sources. Posts of ports, queues that are handed on
        and turns of loops are played as files (`Player`)."""
        self.says(sum(map(len, CRATES.values())), "tests in the sources", 17)


support.add_tests(Crates, Crates.refuse_in, {crate.name: crate for crate in CRATES})

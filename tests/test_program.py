"""Runs the built program on the examples, with bad arguments, and with streams that fail."""

import os

import support
from support import MODES, PROGRAM, ROOT, TESTS, Outcome, outcome_of, settled

USAGE = b"usage: messagehub steps|run|check\n"
FAILED = b"input or output failed\n"


class Examples(support.TestCase):
    """The stored run of the program, and those examples that no page runs."""

    def test_stored_run(self):
        text = (ROOT / "examples" / "first.steps").read_bytes()
        output = (ROOT / "crates" / "messagehub" / "stdout").read_bytes()
        self.assert_outcome(outcome_of([PROGRAM, "steps"], text), Outcome(output, b"", 0))
        self.says(output.count(b"\n"), "lines", 5)

    def test_scripts(self):
        """The runs in tests/runs are compared up to the order that no rule fixes."""
        paths = sorted((TESTS / "runs").glob("*.out"))
        for path in paths:
            with self.subTest(script=path.stem):
                text = (ROOT / "examples" / f"{path.stem}.script").read_bytes()
                found = outcome_of([PROGRAM, "run"], text)
                wanted = Outcome(path.read_bytes(), b"", 0)
                self.assert_outcome(found.settled(), wanted.settled())
                check = outcome_of([PROGRAM, "check"], found.output)
                self.assert_outcome(check, Outcome(b"clean\n", b"", 0))
        scripts = {path.stem for path in (ROOT / "examples").glob("*.script")}
        self.assertEqual({path.stem for path in paths}, scripts)
        self.says(len(paths), "scripts", 2)


class Arguments(support.TestCase):
    shows = frozenset({"usage: messagehub steps|run|check"})

    def test_arguments(self):
        others = [[], ["run", "run"], ["fly"], [""], ["steps", "steps"], ["--help"], [b"steps\xff"]]
        for words in others:
            with self.subTest(words=words):
                found = outcome_of([PROGRAM, *words], b"agent -\n")
                self.assert_outcome(found, Outcome(b"", USAGE, 2))
        self.says(len(others), "calls")


class Streams(support.TestCase):
    """Each mode says that a stream failed, with status 4, and has written nothing."""

    shows = frozenset({"status 4", "input or output failed"})
    WANTED = Outcome(b"", FAILED, 4)
    TEXTS = {"steps": b"agent -\n", "run": b"", "check": b""}

    def redirected(self, mode, redirection):
        words = ["sh", "-c", f'"$0" "$1" {redirection}', PROGRAM, mode]
        return outcome_of(words, self.TEXTS[mode])

    def test_streams(self):
        count = 0
        for mode in MODES:
            for redirection in ["<&-", ">&-", ">/dev/full"]:
                with self.subTest(mode=mode, redirection=redirection):
                    self.assert_outcome(self.redirected(mode, redirection), self.WANTED)
                    count += 1
        self.says(count, "streams", 9)

    def test_directory_as_input(self):
        directory = os.open(self.folder, os.O_RDONLY)
        self.addCleanup(os.close, directory)
        for mode in MODES:
            with self.subTest(mode=mode):
                found = outcome_of([PROGRAM, mode], text=None, stdin=directory)
                self.assert_outcome(found, self.WANTED)
        self.says(len(MODES), "modes")


class Settled(support.TestCase):
    """Of a run only that order is left out of account which no rule fixes."""

    LOGS = (
        b"hublog 3\nagent 0\nput 1 0 0:0 - 1\nput 1 0 0:1 - 2\ngot 0 0 0:0 4 3\nadopted 4 1\n"
        b"got 0 0 0:1 - 4\ngot 0 1 0:0 - 5\nclosed 0\ndeliveries\nend 0 line 0 0:0\nclean\n"
    )

    def exchanged(self, one, other):
        self.assertIn(one + other, self.LOGS)
        return self.LOGS.replace(one + other, other + one)

    def test_orders(self):
        own, got = b"put 1 0 0:1 - 2\n", b"got 0 0 0:0 4 3\nadopted 4 1\n"
        line_0, line_1 = b"got 0 0 0:1 - 4\n", b"got 0 1 0:0 - 5\n"
        free = [self.exchanged(own, got), self.exchanged(line_0, line_1)]
        fixed = [
            self.exchanged(b"put 1 0 0:0 - 1\n", own),
            self.exchanged(got, line_0),
            self.exchanged(b"adopted 4 1\n", line_0),
            self.exchanged(b"got 0 0 0:0 4 3\n", b"adopted 4 1\n"),
            self.exchanged(b"end 0 line 0 0:0\n", b"clean\n"),
        ]
        wanted = settled(self.LOGS)
        self.each(free, "free orders", lambda it: self.assertEqual(settled(it), wanted))
        self.each(fixed, "fixed orders", lambda it: self.assertNotEqual(settled(it), wanted))

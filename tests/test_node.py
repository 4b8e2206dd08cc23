"""Compares the program with Node's own MessageChannel and BroadcastChannel, where Node is there."""

import os
import re
import sys

import support
from support import PROGRAM, TESTS, outcome_of

FILES = 125
SEEDS = (1, 2, 3, 4)
needs_node = support.needs("node")
TOLD = re.compile(rb"tests/node: (\d+) files, (\d+) lines, (\d+) takes, (\d+) bodies, (\d+) casts")


@needs_node
class Node(support.TestCase):
    """Random step files. Each seed is a test, so that they run side by side."""

    time_limit = 240

    def compare(self, seed):
        words = [TESTS / "node", f"--files={FILES}", f"--seed={seed}", PROGRAM]
        told = TOLD.match(self.ran(words, seconds=self.time_limit))
        self.assertTrue(told)
        files, lines, takes, bodies, casts = map(int, told.groups())
        self.assertEqual(files, FILES)
        self.says(lines, "lines", 300 * FILES)
        self.says(takes, "takes", 50 * FILES)
        self.says(bodies, "bodies", 10 * FILES)
        self.says(casts, "casts", 5 * FILES)


support.add_tests(Node, Node.compare, {f"seed_{seed}": seed for seed in SEEDS})


class Refusals(support.TestCase):
    @needs_node
    def test_counts(self):
        others = [["--files=0"], ["--files=abc"], ["--lines=0"], ["--seed=0"], ["1"]]
        call = [TESTS / "node", PROGRAM]
        self.each(others, "calls", lambda words: self.assert_refused([*call, *words]))

    @needs_node
    def test_no_takes(self):
        """One short file has nothing to take, and so it fails."""
        found = outcome_of([TESTS / "node", "--files=1", "--lines=1", PROGRAM])
        self.assertEqual(found.status, 1, found)
        self.assertIn(b"too little was compared", found.output)
        self.says(1, "call")

    def test_no_node(self):
        """Without Node it fails, unless it is told that there is none."""
        words = [sys.executable, "-B", TESTS / "node", PROGRAM]
        settings = {**os.environ, "PATH": "/nowhere"}
        self.assert_refused(words, "there is no node on the PATH", env=settings)
        said = self.ran([*words, "--without-node"], env=settings)
        self.assertTrue(said.startswith(b"left out: node"), said)
        self.says(2, "calls")

    @needs_node
    def test_differences(self):
        """A program that says something else, or something more, is told from the right one."""
        changes = [
            "s/^started/stopped/", "s/^empty/busy/", "s/^accepted 0:1$/accepted 0:2/",
            "s/^notice 0:/notice 1:/", "s/^adopted 1/adopted 2/", "s/^done/closed/",
            "$a more", "$d",
        ]
        for change in changes:
            with self.subTest(change=change):
                pipe = f"\"{PROGRAM}\" \"$@\" | sed '{change}'"
                wrong = self.write("wrong", f"#!/bin/sh\n{pipe}\n", 0o755)
                found = outcome_of([TESTS / "node", "--files=20", wrong])
                self.assertEqual(found.status, 1, found.output[-300:])
                self.assertIn(b"the program says", found.output)
        self.says(len(changes), "wrong programs")

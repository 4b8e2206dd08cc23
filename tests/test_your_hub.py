"""Runs each command of docs/YOUR_HUB.md, one after another, and compares what the page shows.

A session is a block that begins with ```console. Each text line `$ COMMAND` in it is a command, and
what follows up to the next one is the whole output.
"""

import re
import shutil

import support
import test_pages
from support import PROGRAM, ROOT, outcome_of

PAGE = ROOT / "docs" / "YOUR_HUB.md"
BLOCK = re.compile(r"^```(\w+)\n(.*?)^```$", re.MULTILINE | re.DOTALL)
# The example has no notices, which steps-of says.
NO_NOTICES = b"tools/steps-of: the logs have no notices, and the step lines put some\n"
# What ends with another status than 0: something was found.
STATUSES = {"tools/report lost": 1, "tools/report owner": 1, "tools/report order": 1}


def blocks(kind):
    return [text for found, text in BLOCK.findall(PAGE.read_text("utf-8")) if found == kind]


def told(output):
    """An output without who judged, which depends on what is built in this checkout."""
    return re.sub(rb"^Judged by tools/report.*$", b"Judged.", output, flags=re.MULTILINE)


class Page(support.TestCase):
    def setUp(self):
        """In the folder the commands of the page work."""
        for name in ("examples", "record", "tools"):
            (self.folder / name).symlink_to(ROOT / name)
        self.write("messagehub", f'#!/bin/sh\nexec "{PROGRAM}" "$@"\n', 0o755)

    def test_commands(self):
        count = 0
        for command, output in test_pages.commands_of(PAGE):
            with self.subTest(command=command):
                found = outcome_of(["bash", "-c", command], cwd=self.folder)
                self.assertIsNone(support.first_difference(told(found.output), told(output)))
                self.assertEqual(found.status, STATUSES.get(command, 0), found.errors)
                self.assertIn(found.errors, (b"", NO_NOTICES))
                count += 1
        self.assertGreater((self.folder / "order.html").stat().st_size, 1_000)
        self.says(count, "commands", 12)

    def test_ci(self):
        """The lines for CI end with 0 where the hub is right, and else where one fails."""
        script, = blocks("sh")
        for bug, wanted in [("", 0), ("--bug lost ", 1), ("--bug order ", 1)]:
            lines = script.replace("examples/relay.py ", f"examples/relay.py {bug}")
            found = outcome_of(["bash", "-c", lines], cwd=self.folder)
            self.assertEqual(found.status, wanted, found)
            shutil.rmtree(self.folder / "ci")
        # A step that fails ends the job, also where the pipe behind it is content.
        no_logs = script.replace("report ci", "report --help").replace("merge ci", "merge x")
        for lines in (script.replace("relay.py ci", "relay.py none/ci"), no_logs):
            found = outcome_of(["bash", "-c", lines], cwd=self.folder)
            self.assertEqual(found.status, 2, found)
        self.says(5, "jobs")

    def test_code(self):
        """The code of the page stands in the example."""
        example = (ROOT / "examples" / "relay.py").read_text("utf-8")
        codes = blocks("python")
        for code in codes:
            self.assertIn(code, example)
        self.says(len(codes), "blocks of code")

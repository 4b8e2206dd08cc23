"""Runs tests/all over small folders of tests, and looks at what it makes of them."""

import os
import signal
import time

import support
from support import TESTS, outcome_of

HEAD = """import os, pathlib, subprocess, time, unittest

class Sample(unittest.TestCase):
    summary = "1 thing"

"""
RIGHT = "    def test_right(self):\n        pass\n"
WRONG = "    def test_wrong(self):\n        self.fail('it is wrong')\n"
SKIPPED = "    def test_skipped(self):\n        self.skipTest('chromium, which is not here')\n"
DYING = "    def test_dying(self):\n        os._exit(3)\n"
SILENT = "    summary = ''\n    def test_silent(self):\n        pass\n"
# It begins a process that would outlive it, and says which one.
ENDLESS = """    time_limit = 5
    def test_endless(self):
        child = subprocess.Popen(['sleep', '300'])
        pathlib.Path({path!r}).write_text(str(child.pid), 'utf-8')
        time.sleep(300)
"""


# The tests of a folder, the status, the last line, and what is told of one.
ENDINGS = [
    ([RIGHT], 0, "1 passed, 0 failed", r"(?m)^ok +test_sample\.Sample\.test_right \(1 thing\) "),
    # The others go on.
    ([WRONG, RIGHT], 1, "1 passed, 1 failed", "it is wrong"),
    ([DYING, RIGHT], 1, "1 passed, 1 failed", "it ended with status 3, and no report"),
    ([SILENT], 1, "0 passed, 1 failed", "it doesn't say how much it compared"),
    ([SKIPPED, RIGHT], 0, "1 passed, 0 failed, 1 skipped", "left out: chromium, which is not here"),
]


class Runner(support.TestCase):
    """Each test here makes a folder of tests of its own, whose program is any that there is."""

    def add(self, *tests, name="test_sample.py"):
        self.write(f"tests/{name}", HEAD + "".join(tests))

    def words(self, *words):
        return [TESTS / "all", "--folder", self.folder / "tests", "--program", "/bin/true", *words]

    def run_all(self, *words, **settings):
        settings = {**os.environ, "VARUKONI_CI_REPORT": "", **settings}
        return outcome_of(self.words(*words), env=settings)

    def assert_ends(self, found, status, *last_lines):
        lines = found.output.decode().splitlines()
        self.assertEqual((found.status, lines[-len(last_lines):]), (status, [*last_lines]), found)

    def test_endings(self):
        for tests, status, last_line, said in ENDINGS:
            with self.subTest(tests=tests):
                self.add(*tests)
                found = self.run_all("--jobs=1")
                self.assert_ends(found, status, last_line)
                self.assertRegex(found.output.decode(), said)
        self.says(len(ENDINGS), "folders", 5)

    def test_one_file_is_broken(self):
        self.write("tests/test_broken.py", "def\n")
        self.add(RIGHT)
        found = self.run_all()
        self.assert_ends(found, 1, "1 passed, 1 failed")
        self.assertIn(b"SyntaxError", found.output)
        self.says(1, "call")

    def test_report_of_ci(self):
        """It comes before the line that says what was left out."""
        self.add(SKIPPED)
        report = self.write("report", "CI took 3 minutes\n")
        found = self.run_all(VARUKONI_CI_REPORT=str(report))
        self.assert_ends(
            found, 0, "CI took 3 minutes", "left out: chromium, which is not here",
            "0 passed, 0 failed, 1 skipped",
        )
        self.says(1, "call")

    def test_one_never_ends(self):
        """It is stopped with all that it has begun."""
        path = self.folder / "child"
        self.add(ENDLESS.format(path=str(path)), RIGHT)
        begin = time.monotonic()
        found = self.run_all("--jobs=2")
        self.assertLess(time.monotonic() - begin, 60)
        self.assert_ends(found, 1, "1 passed, 1 failed")
        self.assertIn(b"it didn't end within 5 s", found.output)
        self.assertIn(b"time.sleep(300)", found.output, "it isn't told where it was")
        self.assertFalse(support.is_running(int(path.read_text("utf-8"))), "its child still runs")
        self.says(1, "call")

    def test_interrupt(self):
        """What was found until then is told."""
        path = self.folder / "child"
        endless = ENDLESS.format(path=str(path)).replace("time_limit = 5", "time_limit = 200")
        self.add(endless)
        with support.begun(self.words(), lambda: support.has_text(path)) as process:
            process.send_signal(signal.SIGINT)
            output, errors = process.communicate(timeout=30)
        self.assertEqual((errors, process.returncode), (b"", 1))
        self.assertTrue(output.endswith(b" failed\n"), output)
        self.assertFalse(support.is_running(int(path.read_text("utf-8"))), "its child still runs")
        self.says(1, "interrupt")

    def test_none_is_found(self):
        self.write("tests/notes", "")
        self.assert_refused(self.words(), "there is no test to run")
        self.assert_refused(self.words("--folder", "/nowhere"), "there is no folder")
        self.assert_refused(self.words("--program", "/nowhere"), "there is no program")
        self.says(3, "calls")

    def test_names(self):
        self.add(RIGHT, WRONG)
        self.add(RIGHT, name="test_other_one.py")
        choices = [
            ["other-one"], ["tests/test_other_one.py"], ["sample.Sample.test_right"],
            ["-k", "right", "sample"], ["-k", "*other*right"],
        ]
        last = "1 passed, 0 failed"
        self.each(choices, "choices", lambda it: self.assert_ends(self.run_all(*it), 0, last))
        self.assert_refused(self.words("other", "sample"))

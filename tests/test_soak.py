"""A short soak: some scripts through the program, and the faults that the soak has to find."""

import os
import pathlib
import re
import shutil
import signal
import subprocess
import tempfile

import support
from support import PROGRAM, ROOT, TESTS, outcome_of

RUNS = 100
LAST_LINE = re.compile(rb"(\d+) passed, (\d+) failed")
PROCESSORS = len(os.sched_getaffinity(0))


def counts_of(output):
    """How many passed and failed, by the last line of an output."""
    found = LAST_LINE.fullmatch(output.rstrip(b"\n").rpartition(b"\n")[2])
    return tuple(map(int, found.groups())) if found else None


class Soak(support.TestCase):
    time_limit = 300

    def test_program(self):
        folder = tempfile.mkdtemp(prefix="soak-")
        # Printed at once, so that it is known where the test is stopped too.
        print(f"what fails is kept in {folder}", flush=True)
        words = [
            TESTS / "soak", f"--runs={RUNS}", f"--processors={PROCESSORS}", f"--keep={folder}",
            PROGRAM,
        ]
        with open(pathlib.Path(folder) / "report", "wb") as report:
            status = subprocess.run(words, stdout=report, check=False).returncode
        output = (pathlib.Path(folder) / "report").read_bytes()
        self.assertEqual((status, counts_of(output)), (0, (RUNS, 0)), output.decode())
        found = re.search(rb"^([\d,]+) changed logs were compared$", output, re.MULTILINE)
        self.says(RUNS, "scripts")
        self.says(int(found[1]), "changed logs", 5)
        shutil.rmtree(folder)


class Faults(support.TestCase):
    time_limit = 300

    def test_faults(self):
        words = [
            TESTS / "soak.d" / "faults", f"--runs={RUNS}", "--seeds=200", "--first",
            f"--jobs={PROCESSORS}",
        ]
        found = outcome_of(words, seconds=self.time_limit)
        passed, failed = counts_of(found.output)
        self.assertEqual((found.status, failed), (0, 0), found.output.decode())
        self.says(RUNS, "right runs")
        self.says(passed - RUNS, "faults", 30)


class Failing(support.TestCase):
    def setUp(self):
        self.kept_in = self.folder / "kept"
        self.kept_in.mkdir()

    def soak(self, *words, tests=TESTS):
        return [tests / "soak", "--processors=1", f"--keep={self.kept_in}", *words]

    def kept(self):
        return sorted(path.name for path in self.kept_in.iterdir())

    def broken_copy(self):
        copy = self.folder / "tests"
        shutil.copytree(TESTS, copy, ignore=shutil.ignore_patterns("rows"))
        shutil.copytree(ROOT / "tools", self.folder / "tools")
        fates = copy / "soak.d" / "fates.py"
        broken = fates.read_text("utf-8").replace("def complaints(", "def was_complaints(")
        fates.write_text(broken, "utf-8")
        return copy

    def test_files_are_kept(self):
        """A fault is planted that each of these runs shows."""
        wrong = [TESTS / "simulate", "--wrong=skip_waits"]
        found = outcome_of(self.soak("--runs=2", "--seed=0", *wrong))
        passed, failed = counts_of(found.output)
        self.assertEqual((found.status, passed + failed), (1, 2), found)
        self.assertGreater(failed, 0)
        self.assertEqual(len(self.kept()), 2 * failed)
        for name in self.kept():
            self.assertRegex(name, r"^seed-[01]-on-1\.(script|out)$")
            self.assertGreater((self.kept_in / name).stat().st_size, 0)
        self.says(failed, "failed runs")

    def test_rubbish_is_a_failure(self):
        found = outcome_of(self.soak("--runs=3", "/bin/echo"))
        self.assertEqual((found.status, counts_of(found.output)), (1, (0, 3)), found)
        self.assertEqual(len(self.kept()), 6)
        self.says(3, "runs")

    def test_crash_is_a_failure(self):
        """A crash of the soak itself neither ends it nor passes a run."""
        copy = self.broken_copy()
        found = outcome_of(self.soak("--runs=2", copy / "simulate", tests=copy))
        self.assertEqual((found.status, counts_of(found.output)), (1, (0, 2)), found)
        self.assertEqual(found.output.count(b"FAILED: crash of the soak"), 2)
        self.assertEqual(len(self.kept()), 4)
        self.says(2, "crashes")

    def test_crash_finds_no_fault(self):
        words = [self.broken_copy() / "soak.d" / "faults", "--runs=2", "--seeds=1", "--first"]
        found = outcome_of(words)
        _, failed = counts_of(found.output)
        self.assertEqual(found.status, 1)
        self.assertIn(b"FAILED: a crash", found.output)
        self.assertGreater(failed, 20, found.output)
        self.says(failed, "crashes")

    def test_interrupt_prints_the_report(self):
        """The first run never ends, and the signal comes while it waits."""
        mark = f"#!/bin/sh\ntouch '{self.folder}/begun'\nexec sleep 60\n"
        endless = self.write("endless", mark, 0o755)
        signals = [signal.SIGINT, signal.SIGTERM]
        for number in signals:
            with self.subTest(signal=number):
                status, output, errors = self.interrupt(number, self.soak("--runs=3", endless))
                self.assertEqual((status, counts_of(output)), (1, (0, 0)), errors)
                self.assertNotIn(b"Traceback", errors)
        self.says(len(signals), "signals")

    def interrupt(self, number, words):
        """The status, output and errors of a soak that gets a signal in its first run."""
        (self.folder / "begun").unlink(missing_ok=True)
        with support.begun(words, (self.folder / "begun").exists) as process:
            process.send_signal(number)
            return process.wait(20), *process.communicate()

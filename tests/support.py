"""What the tests share: the program, what a test says, and calls that are refused."""

import contextlib
import functools
import os
import pathlib
import shutil
import signal
import subprocess
import sys
import tempfile
import time
import unittest

from comparing import Outcome, first_difference, outcome_of, settled
from row_files import Row, row, rows

TESTS = pathlib.Path(__file__).resolve().parent
ROOT = TESTS.parent
# The modules of the tools, for tests that import them behind this one.
sys.path.append(str(ROOT / "tools"))
BUILT = ROOT / "crates" / "messagehub" / "out" / "messagehub"
# Where `tests/all --program` says which program is tested.
PROGRAM = os.environ.get("VARUKONI_PROGRAM", str(BUILT))
# The program that plays step files on the parts that threads share.
PLAYER = str(ROOT / "crates" / "hub_player" / "out" / "hub_player")
IS_BUILT = os.access(PROGRAM, os.X_OK)
# It stands in for the program where that isn't built.
SIMULATE = TESTS / "simulate"
REPORT = ROOT / "tools" / "report"
MERGE = ROOT / "record" / "merge"
MODES = ("steps", "run", "check")


def needs(tool, why=None):
    """Leaves a test or a class out where a tool isn't installed."""
    return unittest.skipIf(shutil.which(tool) is None, why or f"{tool}, which is not on the PATH")


def add_tests(case, call, items):
    """Gives a class a test of each name, a call for one item each: they run side by side."""
    for name, item in items.items():
        setattr(case, f"test_{name}", lambda self, item=item: call(self, item))


def wait_until(holds, seconds=60):
    """Waits until that holds, and fails where it takes too long."""
    limit = time.monotonic() + seconds
    while not holds():
        if time.monotonic() > limit:
            raise AssertionError(f"nothing came within {seconds} s")
        time.sleep(0.02)


def has_text(path):
    return path.exists() and bool(path.read_bytes())


def is_running(number):
    """Whether the process runs. One that only waits to be asked for its status doesn't."""
    try:
        status = pathlib.Path(f"/proc/{number}/stat").read_text("utf-8")
    except FileNotFoundError:
        return False
    return status.rpartition(") ")[2][0] != "Z"


@contextlib.contextmanager
def begun(words, is_ready, **options):
    """A process that has come so far that this holds, or has ended. It is killed behind."""
    pipes = {"stdout": subprocess.PIPE, "stderr": subprocess.PIPE}
    # A shell may have begun the tests so that they ignore Ctrl-C.
    heed = functools.partial(signal.signal, signal.SIGINT, signal.SIG_DFL)
    with subprocess.Popen(words, preexec_fn=heed, **pipes | options) as process:
        try:
            wait_until(lambda: is_ready() or process.poll() is not None)
            yield process
        finally:
            process.kill()


class TestCase(unittest.TestCase):
    """A test of the program. `tests/all` ends one that takes more seconds than its limit."""

    time_limit = 120
    maxDiff = 4_000
    # What the test shows beside the rows: words and statuses of docs/FORMATS.md.
    shows = frozenset()
    # What `tests/all` prints behind the name: how much was compared.
    summary = ""

    @functools.cached_property
    def folder(self):
        """A new folder with a space in its path, which goes with the test."""
        made = tempfile.TemporaryDirectory(prefix="a folder ")
        return pathlib.Path(self.enterContext(made)).resolve()

    def write(self, name, text, mode=0o644):
        """A file of the folder with a text, or a program with the mode 0o755."""
        path = self.folder / name
        path.parent.mkdir(parents=True, exist_ok=True)
        path.write_text(text, "utf-8")
        path.chmod(mode)
        return path

    def ran(self, words, text=b"", status=0, **options):
        """What a command prints, which ends with that status and says nothing is wrong."""
        found = outcome_of(words, text, **options)
        self.assertEqual((found.errors.decode(), found.status), ("", status), found.output[-4_000:])
        return found.output

    def assert_refused(self, words, *said, text=b"", status=2, **options):
        """A command prints nothing, and says why without a traceback."""
        found = outcome_of(words, text, **options)
        self.assertEqual((found.output, found.status), (b"", status), found.errors)
        for it in said:
            self.assertIn(it, found.errors.decode())
        self.assertNotIn(b"Traceback", found.errors)

    def says(self, count, things, floor=1):
        """Says how much was compared, and fails where that is too little."""
        self.assertGreaterEqual(count, floor, f"only {count:,} {things} were compared")
        self.summary = ", ".join(filter(None, [self.summary, f"{count:,} {things}"]))

    def each(self, items, things, check, floor=1):
        """Checks each of the items, also where others fail, and says how many there were."""
        for item in items:
            with self.subTest(item=item):
                check(item)
        self.says(len(items), things, floor)

    def assert_outcome(self, found, wanted):
        """Compares two outcomes. Of long texts the first line that differs is enough."""
        difference = first_difference(found.output, wanted.output)
        if difference:
            self.fail(difference)
        self.assertEqual((found.errors, found.status), (wanted.errors, wanted.status))


class Refuser:
    """A library, made from refuse.c, that is loaded before the C library and fails one call."""

    def __init__(self):
        self.folder = tempfile.TemporaryDirectory()
        words = ["cc", "-O1", "-shared", "-fPIC", "-o", "refuse.so", TESTS / "refuse.c", "-ldl"]
        subprocess.run(words, check=True, cwd=self.folder.name)

    def close(self):
        self.folder.cleanup()

    def outcome(self, words, text, setting, number):
        """The outcome where the call of that number fails, and whether there was such a call.

        A path in LD_PRELOAD may have no space, so the program runs in the folder of the library.
        """
        settings = {"LD_PRELOAD": "./refuse.so", setting: str(number), "PATH": os.defpath}
        found = outcome_of(words, text, env=settings, cwd=self.folder.name)
        errors = found.errors.replace(b"refused\n", b"", 1)
        return found._replace(errors=errors), errors != found.errors


class RefusingCase(TestCase):
    """A test of calls that are refused."""

    @classmethod
    def setUpClass(cls):
        cls.refuser = Refuser()
        cls.addClassCleanup(cls.refuser.close)

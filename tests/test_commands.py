"""Runs every script with words that it takes and that it doesn't, and over bad streams and inputs.

The exit status is 2 where a script is used wrongly or a file is missing, with no traceback.
"""

import os
import pathlib
import shutil
import signal
import subprocess

import support
from support import ROOT, TESTS, outcome_of

FOLDERS = ("bench", "embed", "examples", "record", "tests", "tests/soak.d", "tools")
LOCALES = ("C", "POSIX", "C.UTF-8", "xx_XX.ISO-8859-1")
# What is missing or wrong in each call, by script.
WRONG = {
    "bench/all": [["no-such-bench"], ["--turns", "0"], ["--program", "/nowhere/at/all"],
                  ["--jobs", "0"], ["scripts", "--built", "/nowhere/at/all"]],
    "bench/build": [[], ["/nowhere/at/all", "name"], ["/tmp/x", "name", "/nowhere", "crate"]],
    "embed/build": [["--to"], ["--to", "/tmp"], ["--to", "/dev/null"]],
    "examples/relay.py": [[], ["--bug", "fly", "/tmp/x"], ["/nowhere/at/all"], ["/tmp"]],
    "record/merge": [[], ["/nowhere/at/all"]],
    "tests/all": [["no-such-test"], ["--program", "/nowhere/at/all"], ["--jobs", "0"],
                  ["--program", "/"], ["--program", "/bin/true", "--folder", "/nowhere/at/all"]],
    "tests/changed_scripts": [[], ["/nowhere/at/all"], ["--count", "0", "/bin/true"]],
    "tests/node": [["/nowhere/at/all"], ["/"], ["--files", "0"], ["--lines", "abc"]],
    "tests/simulate": [[], ["fly"], ["--wrong", "fly", "run"]],
    "tests/soak": [[], ["/nowhere/at/all"], ["--processors", "0", "/bin/true"], ["/tmp"],
                   ["--seconds", "nan", "/bin/true"], ["--keep", "/nowhere", "/bin/true"]],
    "tests/soak.d/faults": [["--runs", "x"], ["--runs", "0", "--seeds", "0"], ["--jobs", "0"]],
    "tools/account": [["/nowhere/at/all"], ["a", "b"]],
    "tools/judge": [["/nowhere/at/all"], ["/"], ["a", "b"]],
    "tools/play": [[], ["/nowhere/at/all"], ["/"], ["--timeout", "0", "x"], ["--repeat", "0", "x"],
                   ["--program", "/nowhere/at/all", "x"],
                   ["--expect", "/nowhere/at/all", "examples/two_windows.script"]],
    "tools/report": [["/nowhere/at/all"], ["--most", "0"], ["--script", "/nowhere/at/all"]],
    "tools/rests-on": [[], ["no_such_crate", "Headline"], ["hub_core", "NoSuchName"]],
    "tools/release": [["--to"], ["--to", "/dev/null"]],
    "tools/steps-of": [["/nowhere/at/all"], ["--states", "x"]],
    "tools/why": [["/nowhere/at/all"], ["/"], ["a", "b"]],
    **{f"tools/{name}": [["/nowhere/at/all"], ["a", "b"], ["--script"], ["--most", "-1"],
                         ["--script", "/nowhere/at/all"], ["--script", ROOT / "README.md"]]
       for name in ("view", "draw")},
    "tools/build": [["--jobs", "0"]],
    "tools/clauses": [["no_such_crate"]],
    "tools/costs": [[], ["/dev/null"], ["/dev/null", "/nowhere/at/all"]],
    "tools/edits": [["no_such_crate"], ["--jobs", "-1"]],
    "tools/functions": [[], ["no_such_crate"]],
}
# The scripts that read logs, or a script, each with the words before its input.
READERS = {
    **{f"tools/{name}": [] for name in ("account", "draw", "judge", "report", "steps-of", "view")},
    "tests/simulate": ["check"],
}
# Those that refuse logs without an entry.
NEED_ENTRIES = {"tools/account", "tools/report"}
# Those that take several files, and say in which one a bad line stands.
NAME_THEIR_INPUT = {"tools/account", "tools/draw", "tools/report", "tools/view"}
# Scripts whose output is long before they end, and quick to come.
TALKATIVE = [
    ["tools/clauses"], ["tests/all", "--list"], ["bench/all", "--list"],
    ["tools/view", "tests/runs/two_windows.out"], ["tools/draw", "tests/runs/two_windows.out"],
    ["tools/judge", "examples/run.log"], ["tools/account", "examples/run.log"],
    ["tools/report", "examples/run.log"], ["tools/steps-of", "examples/run.log"],
    ["tools/why", "examples/worker_ends.steps"],
    ["tools/play", "--program=tests/simulate", "examples/two_windows.script"],
]
VERSION = "1.0.0"
# Two tests: one says its process and never ends, the other waits for that and ends.
ENDLESS = """import os, pathlib, time, unittest
class Endless(unittest.TestCase):
    def test_endless(self):
        pathlib.Path("new").write_text(str(os.getpid()), "utf-8")
        os.rename("new", "begun")
        time.sleep(300)
"""
ENDING = """import pathlib, time, unittest
class Ending(unittest.TestCase):
    summary = "1 thing"
    def test_ending(self):
        while not pathlib.Path("begun").exists():
            time.sleep(0.05)
"""


def scripts():
    paths = [path for folder in FOLDERS for path in sorted((ROOT / folder).iterdir())]
    paths = [path for path in paths if path.is_file() and os.access(path, os.X_OK)]
    return [str(path.relative_to(ROOT)) for path in paths]


class Commands(support.TestCase):
    def check_help(self, words, **options):
        self.assertGreater(self.ran([*words, "--help"], **options).count(b"\n"), 3)

    def test_version(self):
        """One version, whatever stands behind."""
        for name in scripts():
            with self.subTest(script=name):
                # (The examples stand alone.)
                if not name.startswith("examples/"):
                    found = outcome_of([ROOT / name, "--version"])
                    self.assertEqual(found, (f"{name} {VERSION}\n".encode(), b"", 0))
        self.says(len(scripts()), "scripts", 20)

    def test_wrong_words(self):
        count = 0
        for name in scripts():
            for words in [["--fly"], *WRONG.get(name, [])]:
                with self.subTest(script=name, words=words):
                    self.assert_refused([ROOT / name, *words], "usage: ")
                    count += 1
        self.assertLessEqual(set(WRONG), set(scripts()))
        self.says(count, "calls", 25)

    def test_locales(self):
        for locale in LOCALES:
            for name in scripts():
                with self.subTest(script=name, locale=locale):
                    settings = {**os.environ, "LC_ALL": locale}
                    self.check_help([ROOT / name], env=settings, cwd="/")
        self.says(len(LOCALES) * len(scripts()), "calls", 32)

    def test_paths_with_spaces(self):
        for name in ["bench", "embed", "examples", "record", "tests", "tools"]:
            shutil.copytree(ROOT / name, self.folder / name)
        self.each(scripts(), "scripts", lambda it: self.check_help([self.folder / it]), 8)


class Streams(support.TestCase):
    def told(self, errors):
        """What was wrong, in one line, but for notes of the script and its usage."""
        lines = errors.decode().splitlines()
        self.assertFalse([it for it in lines if "Traceback" in it or "Exception" in it], errors)
        return lines[-1] if lines else ""

    def redirected(self, words, redirection):
        settings = {**os.environ, "PYTHONUNBUFFERED": ""}
        return outcome_of(["sh", "-c", f'"$0" "$@" {redirection}', *words], env=settings, cwd=ROOT)

    def run_to_nobody(self, words, folder):
        reader, writer = os.pipe()
        os.close(reader)
        with open(writer, "wb") as output:
            errors = subprocess.PIPE
            return subprocess.run(words, stdout=output, stderr=errors, cwd=folder, timeout=60)

    def test_output_fails(self):
        for redirection, said in [("> /dev/full", "No space left"), (">&-", "is closed")]:
            for name, *words in TALKATIVE:
                with self.subTest(script=name, redirection=redirection):
                    found = self.redirected([ROOT / name, *words], redirection)
                    if redirection == ">&-" and name.endswith(("all", "clauses")):
                        # They print as they go, and print to nobody.
                        self.assertEqual((found.errors, found.status), (b"", 0))
                        continue
                    self.assertEqual(found.status, 2, found)
                    self.assertIn(said, self.told(found.errors))
                    self.assertTrue(self.told(found.errors).startswith(f"{name}: "), found)
        self.says(2 * len(TALKATIVE), "calls", 18)

    def test_pipe_is_closed(self):
        for name, *words in TALKATIVE:
            with self.subTest(script=name):
                found = self.run_to_nobody([ROOT / name, *words], ROOT)
                self.told(found.stderr)
                self.assertEqual(found.returncode, -signal.SIGPIPE)
        self.says(len(TALKATIVE), "calls", 9)

    def test_tests_end_with_their_pipe(self):
        """A test that runs when the pipe of tests/all is closed is ended too."""
        self.write("test_ending.py", ENDING)
        self.write("test_endless.py", ENDLESS)
        words = [TESTS / "all", "--folder", self.folder, "--program=/bin/true", "--jobs=2"]
        found = self.run_to_nobody(words, self.folder)
        self.assertEqual((found.returncode, found.stderr), (-signal.SIGPIPE, b""))
        number = int((self.folder / "begun").read_text("utf-8"))
        self.assertFalse(pathlib.Path(f"/proc/{number}").exists(), "a test still runs")
        self.says(1, "call")

    def test_input_is_closed(self):
        for name, words in READERS.items():
            with self.subTest(script=name):
                command = ["sh", "-c", '"$0" "$@" <&-', ROOT / name, *words]
                self.assert_refused(command, f"\n{name}: error: standard input is closed\n")
        self.says(len(READERS), "calls", 7)

    def test_inputs(self):
        """Empty logs are clean, but nothing recorded is no verdict. Of what is no logs the first
        bad line is told, in one line."""
        front = b"hublog 3\nagent 0\nput 1 0 0:0 - "
        rows = [
            (b"", None), (b"hublog 3\n", None), (b"hublog 3", None),
            (b"\n", "line 1: BadHeader"), (b"hublog 3\n\n", "line 2: BadLine"),
            (b"\xff\xfe\x00\n" * 3, "line 1: BadHeader"), (b"hublog 9\n", "line 1: BadHeader"),
            (b"x" * 2_000_000, "line 1: BadHeader"), (front + b"[" * 9_000, "line 3: BadLine"),
            (front + b'"\\ud800"\n', "line 3: BadLine"), (front + b"1.5\n", "line 3: BadLine"),
            (b"hublog 3\nput 0 0 0:0 - 1\n", "line 2: BadLine"),
        ]
        for name, words in READERS.items():
            for text, bad in rows:
                with self.subTest(script=name, text=text[:40]):
                    found = outcome_of([ROOT / name, *words], text)
                    is_refused = bad is None and name in NEED_ENTRIES
                    self.assertEqual(found.status, 2 if bad or is_refused else 0, found)
                    self.assertEqual(b"nothing is recorded" in found.errors, is_refused)
                    if bad:
                        (line,) = (found.output + found.errors).decode().splitlines()
                        where = "<stdin>: " if name in NAME_THEIR_INPUT else ""
                        said = bad if found.output else f"{name}: {where}{bad}"
                        self.assertEqual(line, said)
        self.says(len(rows) * len(READERS), "inputs", 84)

    def test_scripts(self):
        """What is no script is told as the program tells it."""
        scripts = [b"[" * 5_000, b"{", b"\xff", b'{"agent":"boss"}', b'{"at":7,"wait":1}']
        for text in scripts:
            with self.subTest(script=text[:40]):
                found = outcome_of([TESTS / "simulate", "run"], text)
                kind = b"UnknownName" if b"7" in text else b"Syntax"
                self.assertEqual(found, (b"line 1: " + kind + b"\n", b"", 2))
        self.says(len(scripts), "scripts", 5)

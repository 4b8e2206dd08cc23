"""Runs scripts in varukoni-js: the tests of the web's standards, the examples, and what ends.

The runtime is built once for all tests, and once more under the sanitizers, where a source is
newer. It is left out where the engine (libmozjs-102-dev), g++ or pkg-config aren't there.
"""

import collections
import fcntl
import os
import pathlib
import re
import shutil
import subprocess
import tempfile
import unittest

import support
import test_embed
from support import ROOT, Outcome, outcome_of
from test_embed import needs

RUNTIME = ROOT / "embed" / "runtime"
HERE = ROOT / "tests" / "runtime"
EXAMPLES = ROOT / "examples" / "runtime"
REPORT = ROOT / "tools" / "report"
SHIM = RUNTIME / "node-shim.mjs"
PAGE = ROOT / "docs" / "EMBEDDING.md"
# A run, on a machine that does other work: it ends far earlier.
SECONDS = 600
SANITIZERS = ["-fsanitize=address,undefined", "-fno-sanitize-recover=all", "-g"]
# A status that no script makes.
LEAKED = 99
SETTINGS = {
    **os.environ,
    "ASAN_OPTIONS": f"exitcode={LEAKED}",
    "LSAN_OPTIONS": f"exitcode={LEAKED}:print_suppressions=0:suppressions={HERE / 'leaks.txt'}",
}
MOST_LINES = 2_000
RUN = re.compile(r"^(.*): (\d+) of (\d+) passed$", re.MULTILINE)


def has_engine():
    words = ["pkg-config", "--exists", "mozjs-102"]
    tools = all(shutil.which(tool) for tool in ("pkg-config", "g++"))
    return tools and subprocess.run(words, check=False).returncode == 0


def built(name, *flags):
    """The runtime, built with these flags into a file of this name, once for all tests."""
    test_embed.build()
    target = RUNTIME / "out" / name
    lock = pathlib.Path(tempfile.gettempdir()) / f"varukoni-runtime-{os.getuid()}"
    with open(lock, "w", encoding="utf-8") as held:
        fcntl.flock(held, fcntl.LOCK_EX)
        made = target.stat().st_mtime if target.is_file() else 0
        sources = [test_embed.OUT / "BUILT", *(it for it in RUNTIME.iterdir() if it.is_file())]
        if made < max(path.stat().st_mtime for path in sources):
            words = [RUNTIME / "build", "--to", target, *(f"--flag={flag}" for flag in flags)]
            found = outcome_of(words, seconds=SECONDS)
            if found.status != 0:
                raise AssertionError(found.errors.decode())
    return target


@needs("rt", "the Rattle toolchain, which is not on the PATH")
@unittest.skipUnless(has_engine(), "libmozjs-102-dev with g++ and pkg-config")
class Scripts(support.TestCase):
    """Scripts in the runtime."""

    time_limit = test_embed.SECONDS_TO_BUILD + SECONDS

    def setUp(self):
        self.program = built("varukoni-js")
        self.folder = tempfile.TemporaryDirectory()
        self.addCleanup(self.folder.cleanup)

    def ran(self, script, *words, program=None, **options):
        return outcome_of([program or self.program, *words, script], seconds=SECONDS, **options)

    def web(self, *words, program=None, floor):
        """Runs the tests of the standards, all of which have to pass."""
        words = [HERE / "wpt", "--program", program or self.program, *words, HERE / "web"]
        found = outcome_of(words, seconds=SECONDS, env=SETTINGS)
        text = found.output.decode()
        self.assertEqual((found.errors.decode(), found.status), ("", 0), text)
        self.says(sum(int(count) for _, count, _ in RUN.findall(text)), "tests of standards", floor)
        return RUN.findall(text)


class Web(Scripts):
    """What the standards say of channels, clones, events, errors, timers and workers."""

    def test_standards(self):
        runs = self.web(floor=240)
        in_window = sum(int(count) for name, count, _ in runs if name.endswith("window"))
        self.says(in_window, "of them in a window", 120)

    def test_recorded(self):
        """The logs of each run are right."""
        logs = pathlib.Path(self.folder.name) / "logs"
        runs = self.web("--record", logs, floor=240)
        messages = 0
        for name, _, _ in runs:
            folder = logs / name.replace("/", " ")
            if not re.search("^(put|got|closed)", "".join(map(text_of, folder.iterdir())), re.M):
                continue
            messages += self.judged(folder)
        self.says(messages, "messages got, by logs that are right", 1_000)

    def judged(self, folder):
        """How many messages were got by the logs of a folder, which have to be right."""
        found = outcome_of([REPORT, "--allow-left", folder], seconds=SECONDS)
        self.assertEqual((found.errors.decode(), found.status), ("", 0), found.output)
        return int(re.search(rb"and ([\d,]+) got", found.output)[1].replace(b",", b""))

    def test_leaks(self):
        """All memory is given back, whatever ends how."""
        program = built("varukoni-js-sanitized", *SANITIZERS)
        self.web("--seconds", str(SECONDS), program=program, floor=240)
        for script in sorted(EXAMPLES.glob("*.out")):
            found = self.ran(script.with_suffix(".js"), program=program, env=SETTINGS)
            self.assert_outcome(found, Outcome(script.read_bytes(), b"", 0))

    def test_a_test_that_fails_is_told(self):
        """The commands above find a wrong answer, an error and a run that ends early."""
        checkout = pathlib.Path(self.folder.name)
        shutil.copytree(HERE / "web" / "resources", checkout / "resources")
        wrong = {
            "fails": "test(() => assert_equals(1, 2), 'one'); test(() => {}, 'other');",
            "throws": "async_test(() => setTimeout(() => { throw 1; }, 0), 'one');",
            "ends": "async_test(() => {}, 'nobody ends this');",
            "none": "",
        }
        for name, text in wrong.items():
            (checkout / f"{name}.any.js").write_text(text, encoding="utf-8")
        for name in wrong:
            words = [HERE / "wpt", "--program", self.program, checkout, f"{name}.any.js"]
            found = outcome_of(words, seconds=SECONDS)
            self.assertEqual((found.errors, found.status), (b"", 1), name)
            self.assertIn(f"failed: {name}.any.js in the window: ".encode(), found.output)
        self.says(len(wrong), "wrong tests", 4)


class Platform(Scripts):
    """The web platform tests' own files, which aren't in this repository."""

    @unittest.skipUnless("WPT" in os.environ, "a checkout of the web platform tests, named by WPT")
    def test_platform(self):
        """All pass but in the files that ask for what is left out."""
        words = [HERE / "wpt", "--program", self.program, "--lacks", HERE / "lacks.txt",
                 "--seconds", "20", os.environ["WPT"], "webmessaging", "workers"]
        found = outcome_of(words, seconds=SECONDS)
        self.assertEqual((found.errors.decode(), found.status), ("", 0), found.output.decode())
        passed = sum(int(count) for _, count, _ in RUN.findall(found.output.decode()))
        self.says(passed, "tests of the platform", 280)


def text_of(path):
    return path.read_text(encoding="utf-8")


class Examples(Scripts):
    """The scripts of examples/runtime."""

    def names(self):
        return sorted(path.stem for path in EXAMPLES.glob("*.out"))

    def test_output(self):
        for name in self.names():
            with self.subTest(name=name):
                wanted = Outcome((EXAMPLES / f"{name}.out").read_bytes(), b"", 0)
                self.assert_outcome(self.ran(EXAMPLES / f"{name}.js"), wanted)
                logs = pathlib.Path(self.folder.name) / name
                logs.mkdir()
                found = self.ran(EXAMPLES / f"{name}.js", "--record", logs)
                self.assert_outcome(found, wanted)
                found = outcome_of([REPORT, "--allow-left", logs], seconds=SECONDS)
                self.assertEqual((found.errors, found.status), (b"", 0), found.output)
        self.says(len(self.names()), "examples", 5)

    @needs("node")
    def test_node(self):
        """Those with ports alone do the same in Node, at each port."""
        names = [name for name in self.names()
                 if not re.search("Worker|Broadcast", text_of(EXAMPLES / f"{name}.js"))]
        for name in names:
            script = EXAMPLES / f"{name}.js"
            found = outcome_of(["node", "--import", SHIM, script], seconds=SECONDS)
            self.assertEqual((found.errors.decode(), found.status), ("", 0))
            self.assertEqual(by_port(found.output), by_port(self.ran(script).output))
        self.says(len(names), "examples", 2)

    def test_page(self):
        """The page shows an example as it is, and what it prints."""
        page, script = text_of(PAGE), EXAMPLES / "ports.js"
        form = r"^(\S+varukoni-js) (\S+)\n```\n\n```\n(.*?)```"
        shown = re.search(form, page, re.DOTALL | re.MULTILINE)
        program, shown_script, output = shown.groups()
        self.assertEqual(ROOT / program, RUNTIME / "out" / "varukoni-js")
        self.assertEqual(ROOT / shown_script, script)
        self.assert_outcome(self.ran(script), Outcome(output.encode(), b"", 0))
        self.says(len(output.splitlines()), "lines", 4)


def by_port(output):
    """The lines of an output by the port that begins them."""
    lines = collections.defaultdict(list)
    for line in output.decode().splitlines():
        lines[line.partition(":")[0]].append(line)
    return lines


class Ends(Scripts):
    """How a run ends, and what it leaves."""

    ERRORS = {
        "uncaught.js": ("the next task runs\n",
                        r"file://\S+/uncaught\.js:4:\d+: uncaught TypeError: thrown by the script\n"
                        r"    at \S+uncaught\.js:4:\d+\n"),
        "rejected.js": ("the next task runs\n",
                        r"file://\S+/rejected\.js:4:\d+: unhandled rejection: RangeError: "
                        r"rejected by the script\n    at \S+rejected\.js:4:\d+\n"),
        "worker_throws.js": ("error event: Error: thrown by the worker, line 3\n",
                             r"file://\S+/throws\.js:3:\d+: uncaught Error: thrown by the worker\n"
                             r"    at \S+throws\.js:3:\d+\n"),
    }
    REFUSED = [[], ["--fly"], ["a.js", "b.js"], ["/nowhere/at/all.js"], ["/"], ["--record"],
               ["--record", "/nowhere/at/all", "x.js"], ["--root", "/dev/null", "x.js"],
               ["--script", "/nowhere/at/all.js", __file__], ["--root", str(HERE), __file__]]

    def test_errors(self):
        for name, (output, errors) in self.ERRORS.items():
            found = self.ran(HERE / "programs" / name)
            self.assertEqual((found.output.decode(), found.status), (output, 1))
            self.assertRegex(found.errors.decode(), f"^{errors}$")
        self.says(len(self.ERRORS), "errors", 3)

    def test_wrong_words(self):
        for words in self.REFUSED:
            found = outcome_of([self.program, *words])
            self.assertEqual((found.output, found.status), (b"", 2), words)
            why, usage = found.errors.decode().splitlines()
            self.assertRegex(why, "^varukoni-js: .+")
            self.assertRegex(usage, "^usage: varukoni-js ")
        self.assertEqual(outcome_of([self.program, "--help"]).status, 0)
        self.says(len(self.REFUSED), "refusals", 10)

    def test_limits(self):
        logs = pathlib.Path(self.folder.name)
        wanted = {
            "many_agents.js": b"15 workers, then QuotaExceededError: a recording has at most 16 "
                              b"agents\n",
            "many_ends.js": b"32768 channels, then QuotaExceededError: a recording has at most "
                            b"65,536 ends\nQuotaExceededError\n",
            "sixteen.js": b"DataCloneError: a message has at most 16 ports\n16 ports\n",
        }
        for name, output in wanted.items():
            (logs / name).mkdir()
            found = self.ran(HERE / "programs" / name, "--record", logs / name)
            self.assert_outcome(found, Outcome(output, b"", 0))
        self.says(len(wanted), "limits", 3)

    def test_a_late_refusal(self):
        output = b"DataCloneError\nat the port that stayed\n"
        found = self.ran(HERE / "programs" / "late_refusal.js")
        self.assert_outcome(found, Outcome(output, b"", 0))
        self.says(len(output.splitlines()), "lines", 2)

    def test_logs_that_can_not_be_written(self):
        logs = pathlib.Path(self.folder.name)
        (logs / "agent-0.log").touch()
        found = self.ran(EXAMPLES / "ports.js", "--record", logs)
        self.assertEqual((found.output, found.status), (b"", 4))
        self.says(found.errors.count(b"varukoni-js: --record: File exists"), "refusal", 1)

    def test_memory_that_the_hub_is_refused(self):
        """A post that is refused once goes through, and one refused twice leaves its port."""
        shim = pathlib.Path(self.folder.name) / "refuse.o"
        include = f"-I{test_embed.OUT / 'include'}"
        words = ["gcc", "-O1", "-c", include, "-o", shim, HERE / "refuse.c"]
        self.assertEqual(outcome_of(words).status, 0)
        program = pathlib.Path(self.folder.name) / "refusing"
        flags = [f"--flag={flag}" for flag in (shim, "-Wl,--wrap=varukoni_port_post")]
        found = outcome_of([RUNTIME / "build", "--to", program, *flags], seconds=SECONDS)
        self.assertEqual(found.status, 0, found.errors.decode())
        kept = "a port and 3 bytes, first, third"
        moved = "a port and 3 bytes, at the port where it came, first, third"
        for first in (1, 2, 3):
            for count, wanted in ((1, f"false {kept}\n"), (2, f"true {moved}\n")):
                settings = {**os.environ, "VARUKONI_REFUSE": f"{first} {count}"}
                found = self.ran(HERE / "programs" / "refused.js", program=program, env=settings)
                self.assert_outcome(found, Outcome(wanted.encode(), b"", 0))
        self.says(6, "posts refused", 6)


class Soak(Scripts):
    """Many workers, and what they take."""

    def measured(self, script, *words):
        """What a script prints, with its processor seconds and its most memory in KiB."""
        process = subprocess.Popen([self.program, *words, script], stdout=subprocess.PIPE)
        output = process.stdout.read()
        _, status, used = os.wait4(process.pid, 0)
        process.returncode = os.waitstatus_to_exitcode(status)
        self.assertEqual(process.returncode, 0, output)
        return output, used.ru_utime + used.ru_stime, used.ru_maxrss

    def setting(self, name, value):
        path = pathlib.Path(self.folder.name) / f"{name}-{value}.js"
        path.write_text(f"self.{name} = {value};\n", encoding="utf-8")
        return ["--script", path]

    def test_idle(self):
        """A window and workers that wait for nothing take no processor time."""
        used = [self.measured(HERE / "programs" / "idle.js", *self.setting("wait", wait))[1]
                for wait in (500, 8_000)]
        self.assertLess(used[1], used[0] + 0.2)
        self.says(8, "seconds", 8)

    def test_one_after_another(self):
        output, _, memory = self.measured(HERE / "soak" / "one_by_one.js")
        self.assertEqual(output, b"1000 workers\n")
        self.assertLess(memory, 100_000)
        self.says(1_000, "workers", 1_000)

    def test_at_once(self):
        """200 workers with 10 ports each, in 10 rounds: behind the first ones none takes more."""
        script, found = HERE / "soak" / "at_once.js", {}
        for rounds in (5, 10):
            output, _, found[rounds] = self.measured(script, *self.setting("rounds", rounds))
            self.assertEqual(output, f"{rounds} rounds, {rounds * 30_000}\n".encode())
        self.assertLess(found[10], 1.25 * found[5])
        self.says(3_000, f"workers, in {found[10] // 1024} MiB at most", 3_000)


class Source(support.TestCase):
    """The size of the runtime."""

    def test_lines(self):
        kinds = (".cpp", ".hpp", ".js")
        sources = [path for path in sorted(RUNTIME.iterdir()) if path.suffix in kinds]
        counts = {path.name: len(text_of(path).splitlines()) for path in sources}
        self.assertLess(max(counts.values()), 800)
        self.assertLessEqual(sum(counts.values()), MOST_LINES)
        self.says(sum(counts.values()), "lines of the runtime", 1_000)

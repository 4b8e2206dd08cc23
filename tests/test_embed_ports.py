"""Calls the ports, fans and groups of embed/ from C and C++, on one thread and on several.

The programs run under the sanitizers for addresses, undefined behaviour and threads, and under
valgrind where that is there: each block is to be given back.
"""

import collections
import os
import pathlib
import re
import shutil
import tempfile

import support
from support import REPORT, ROOT, outcome_of
from test_embed import OUT, SANITIZERS, Embedded, needs

EMBED = ROOT / "embed" / "c"
ARCHIVE = OUT / "lib" / "libvarukoni_ports.a"
WRAPPED = ["-Wl,--wrap=malloc", "-Wl,--wrap=realloc", "-Wl,--wrap=free"]
SAID = b"worker: a port\nworker: it waited\nmain: a reply\nmain: the port is closed\n"
# What the program of docs/EMBEDDING.md in C++ and Rust prints.
WORKER_SAID = b"""worker: a port
worker: it waited
page: a reply
page: the port is closed
news: the worker has read it
"""
LOST = 1
# How many steps each agent makes that records what it does.
STEPS = 30_000
# How long a program may take on a machine that does other work: it ends far earlier.
SECONDS = 600


class Recorded(Embedded):
    """Programs whose threads record what they do."""

    def judge(self, programs):
        """Runs each with 2, 4 and 16 agents: their logs are to be right."""
        counts = collections.Counter()
        for program in programs:
            counts["programs"] += 1
            for agents in (2, 4, 16):
                folder = tempfile.mkdtemp(dir=self.folder)
                words = [program, folder, str(agents), str(STEPS), str(100 + agents)]
                output = self.ran(words, seconds=SECONDS).decode()
                for count, what in re.findall(r"(\d+) (\w+)", output):
                    counts[what] += int(count)
                self.ran([REPORT, "--allow-left", folder], seconds=SECONDS)
        self.says(counts["put"], "messages accepted", 50_000 * counts["programs"])
        self.says(counts["adopted"], "ports adopted", 500 * counts["programs"])
        self.says(counts["refused"], "refused", 25 * counts["programs"])


class Ports(Recorded):
    """Ports in programs of C."""

    # By test: the program with its flags and its words, and how much it says at least that it did.
    # Of what arrives and of what is cast nothing may be missing.
    RUNS = {
        "answers": ("ports_calls", [*SANITIZERS, *WRAPPED], ["answers"], {"answers": 100}),
        # Each allocation of a scenario is refused in turn, and each call goes through when it is
        # made again.
        "refused_allocations":
            ("ports_calls", WRAPPED, ["refuse"], {"refused allocations": 2_000}),
        "hops": ("ports_threads", SANITIZERS, ["hops", "10"], {"arrived": 200_000}),
        # Each message is taken, handed back or refused, once.
        "closing_beside_posts":
            ("ports_threads", SANITIZERS, ["closing", "100000"],
             {"ports closed": 100_000, "messages taken": 1_000_000, "handed back": 100_000}),
        "no_wake_up_is_lost":
            ("ports_threads", SANITIZERS, ["sleepers", "30000"],
             {"arrived": 30_000, "sleeps": 1_000}),
        "answers_of_fans": ("fans_calls", [*SANITIZERS, *WRAPPED], ["answers"], {"answers": 1_200}),
        "refused_allocations_of_fans":
            ("fans_calls", WRAPPED, ["refuse"], {"refused allocations": 100}),
        # Each line's messages come in order to a taker that sleeps, and no wake-up is lost.
        "senders_at_a_fan":
            ("fans_threads", SANITIZERS, ["senders", "10000"],
             {"arrived": 40_000, "sleeps": 1_000}),
        # Each message is taken, handed back or refused, once.
        "closing_a_fan_beside_posts":
            ("fans_threads", SANITIZERS, ["closing", "5000"],
             {"fans closed": 5_000, "messages taken": 100_000, "handed back": 20_000}),
        # Each member takes what was cast between its joining and its leaving but its own.
        "casts_while_members_leave":
            ("fans_threads", SANITIZERS, ["casts", "20000"],
             {"cast": 80_000, "messages taken": 120_000, "leavings": 800}),
    }
    # By test, what runs under the thread sanitizer, which tells no race that isn't there.
    WATCHED = {
        "thread_sanitizer":
            ("ports_threads", [["hops", "3"], ["closing", "3000"], ["sleepers", "3000"]], 50_000),
        "thread_sanitizer_of_fans":
            ("fans_threads", [["senders", "3000"], ["closing", "300"], ["casts", "10000"]], 60_000),
    }

    def program(self, name, *words, **options):
        return self.compiled(EMBED / "tests" / f"{name}.c", ARCHIVE, *words, "-pthread", **options)

    def counts_of(self, *words):
        """What a program says that it did: numbers by their names."""
        output = self.ran(words, seconds=SECONDS).decode()
        lines = re.findall(r"^(.*): (\d+)$", output, re.MULTILINE)
        return {name: int(number) for name, number in lines}

    def test_page(self):
        """The program of docs/EMBEDDING.md prints what the page says."""
        page = (ROOT / "docs" / "EMBEDDING.md").read_text(encoding="utf-8")
        self.assertIn(f"```\n{SAID.decode()}```", page)
        for program in self.compiled_twice(EMBED / "ports.c", ARCHIVE, "-pthread", *SANITIZERS):
            self.assertEqual(self.ran([program]), SAID)
            self.says(len(SAID.splitlines()), "lines", 4)

    def check_run(self, run):
        name, flags, words, floors = run
        found = self.counts_of(self.program(name, *flags), *words)
        for what, floor in floors.items():
            if what in ("arrived", "cast"):
                self.assertEqual(found[what], floor)
            self.says(found[what], what, floor)

    def check_races(self, watched):
        name, runs, floor = watched
        program, count = self.program(name, "-fsanitize=thread"), 0
        for words in runs:
            with self.subTest(words=words):
                count += sum(self.counts_of(program, *words).values())
        self.says(count, "messages, sleeps and leavings", floor)

    def test_nested_ports(self):
        """Ports that lie in messages of ports, and so on, are closed in a small stack."""
        program = self.program("ports_calls", *WRAPPED)
        small = ["sh", "-c", 'ulimit -s 256 && exec "$@"', "sh"]
        found = self.counts_of(*small, program, "nested")
        self.says(found["nested"], "nested ports", 100_000)

    def test_memory(self):
        """A channel is small, and so it is again once a line that was far behind was taken."""
        program = self.program("ports_calls", *WRAPPED)
        found = self.counts_of(program, "memory")
        self.assertLessEqual(found["channel"], 5_000)
        self.assertLessEqual(found["after"], found["channel"])
        self.says(found["most"] // 2**20, "MiB at most", 30)

    def test_a_late_arming_loses_a_wake_up(self):
        """The test above finds a port that is looked into before it is armed."""
        program = self.program("ports_threads")
        lost = 0
        for _ in range(5):
            found = outcome_of([program, "late", "30000"], seconds=SECONDS)
            self.assertIn(found.status, (0, LOST))
            lost += found.status == LOST
            if lost:
                break
        self.says(lost, "lost wake-ups")

    def test_a_race_is_told(self):
        program = self.program("ports_threads", "-fsanitize=thread")
        found = outcome_of([program, "racy", "20000"], seconds=SECONDS)
        self.assertIn(b"data race", found.errors)
        self.says(1, "race")

    def test_recorded(self):
        """What threads did with ports is right by the logs that they recorded."""
        self.judge(
            self.program("ports_recorded", *flags, standard="-std=gnu11")
            for flags in (SANITIZERS, ["-fsanitize=thread"])
        )

    def test_a_deaf_taker_loses_a_wake_up(self):
        """The test above finds a taker that sleeps though its armed fan has something."""
        program = self.program("fans_threads")
        found = outcome_of([program, "late", "10000"], seconds=SECONDS)
        self.assertEqual((found.output, found.status), (b"lost: a wake-up\n", LOST))
        self.says(1, "lost wake-up")

    @needs("valgrind")
    def test_memcheck(self):
        words = ["valgrind", "--error-exitcode=9", "--leak-check=full", "--quiet"]
        count = 0
        for name, what in (("ports_calls", ["answers"]), ("ports_threads", ["hops", "1"]),
                           ("ports_threads", ["closing", "300"]), ("fans_calls", ["answers"]),
                           ("fans_threads", ["senders", "300"]), ("fans_threads", ["casts", "300"]),
                           ("fans_threads", ["closing", "30"])):
            flags = WRAPPED if name.endswith("calls") else []
            self.ran([*words, self.program(name, *flags), *what], seconds=SECONDS)
            count += 1
        self.says(count, "programs", 7)


support.add_tests(Ports, Ports.check_run, Ports.RUNS)
support.add_tests(Ports, Ports.check_races, Ports.WATCHED)


@needs("g++")
class Cpp(Recorded):
    """embed/cpp/varukoni_ports.hpp."""

    # What a program of C can do wrong, and what the compiler says to it here.
    MISTAKES = {
        "copies a port": "varukoni::Port copy = left;",
        "assigns a copy": "varukoni::Port other; other = left;",
        "copies a message": "varukoni::Message copy = message;",
        "copies the ports of a message": "auto copy = message.ports;",
        "posts a port without moving it": "message.ports.push_back(left);",
        "posts over a constant port": "const auto &same = left; same.post(message);",
        "reaches into the handle": "left.handle.is_open = false;",
        "makes a body that isn't the message's": "varukoni::Counted body; message.body = &body;",
        "copies a fan": "varukoni::Fan fan; auto copy = fan;",
        "copies a line": "varukoni::Fan fan; auto line = *fan.line(); auto copy = line;",
        "copies a member": "varukoni::Group group; auto member = group.join(); auto copy = member;",
        "writes what all members read":
            "varukoni::Group all; std::shared_ptr<varukoni::Body> own = *all.join().take();",
    }
    FRONT = """#include "varukoni_ports.hpp"
        namespace varukoni { struct Counted final : Body {}; }
        int main() { auto [left, right] = varukoni::open_channel(); varukoni::Message message;
        """

    def made(self, source, *words):
        words = [*words, ARCHIVE, "-pthread"]
        return self.compiled(source, *words, compiler="g++", standard="-std=c++17")

    def test_ports(self):
        self.says(self.facts_of("ports"), "facts", 200_000)

    def test_page(self):
        """The programs of docs/EMBEDDING.md print what the page says, and are those it shows."""
        page = (ROOT / "docs" / "EMBEDDING.md").read_text(encoding="utf-8")
        self.assertIn(f"```\n{WORKER_SAID.decode()}```", page)
        program = self.made(ROOT / "embed" / "cpp" / "worker.cc", *SANITIZERS)
        self.assertEqual(self.ran([program]), WORKER_SAID)
        shown = 0
        for section, language, source in (
            ("In Rust", "rust", "rust-ports/examples/worker.rs"),
            ("In C++", "cpp", "cpp/worker.cc"),
        ):
            lines = (ROOT / "embed" / source).read_text(encoding="utf-8").split("\n")
            text = page.partition(f"### {section}\n")[2].partition("\n#")[0]
            blocks = re.findall(rf"```{language}\n(.*?)```", text, re.DOTALL)
            for line in "".join(blocks).split("\n"):
                with self.subTest(line=line):
                    self.assertIn(line.partition("   //")[0].strip(), map(str.strip, lines))
                shown += 1
        self.says(shown, "lines of code", 20)

    def test_fans_and_groups(self):
        self.says(self.facts_of("fans"), "facts", 150_000)

    def test_recorded(self):
        """What threads did with ports and fans is right by the logs that they recorded."""
        self.judge(self.sanitized("recorded"))

    def sanitized(self, name):
        """A program of the tests under one sanitizer, and then under the other."""
        source = ROOT / "embed" / "cpp" / "tests" / f"{name}.cc"
        return (self.made(source, *flags) for flags in (SANITIZERS, ["-fsanitize=thread"]))

    def facts_of(self, name):
        """How many facts a program tells that it needed, under each sanitizer."""
        needed = 0
        for program in self.sanitized(name):
            output = self.ran([program], seconds=SECONDS)
            needed += int(re.search(rb"needed: (\d+)", output)[1])
        return needed

    def test_mistakes_do_not_compile(self):
        source = self.folder / "mistake.cc"
        words = ["g++", "-std=c++17", "-fsyntax-only", f"-I{OUT / 'include'}", source]
        for what, line in {"does nothing wrong": "left.post(message);", **self.MISTAKES}.items():
            with self.subTest(what=what):
                source.write_text(f"{self.FRONT}{line} }}\n", encoding="utf-8")
                self.assertEqual(outcome_of(words).status == 0, what not in self.MISTAKES)
        self.says(len(self.MISTAKES), "mistakes", 12)


@needs("cargo")
class Rust(Recorded):
    """embed/rust-ports."""

    SECONDS_OF_STRESS = 20

    def setUp(self):
        super().setUp()
        self.crate = self.folder / "embed" / "rust-ports"
        shutil.copytree(ROOT / "embed" / "rust-ports", self.crate,
                        ignore=shutil.ignore_patterns("target", "Cargo.lock"))
        shutil.copytree(ROOT / "record", self.crate.parent.parent / "record")

    def settings(self, cargo):
        path = f"{pathlib.Path(cargo).parent}:{os.environ['PATH']}"
        return {**os.environ, "PATH": path, "VARUKONI_LIB": str(OUT / "lib"),
                "CARGO_TARGET_DIR": str(self.crate / f"target-{pathlib.Path(cargo).parent.name}"),
                "VARUKONI_STRESS_SECONDS": str(self.SECONDS_OF_STRESS),
                "RUSTFLAGS": "-D warnings", "RUSTDOCFLAGS": "-D warnings"}

    def called(self, cargo, *words):
        words = [cargo, words[0], "--offline", "--quiet", *words[1:]]
        found = outcome_of(words, seconds=SECONDS, cwd=self.crate, env=self.settings(cargo))
        self.assertEqual(found.status, 0, (found.output + found.errors).decode()[-4_000:])
        return found

    def test_crate(self):
        """The tests of the crate, the examples of its pages and its documentation, by each
        compiler that is there."""
        for cargo in {shutil.which("cargo"), "/usr/bin/cargo"}:
            if not pathlib.Path(cargo).is_file():
                continue
            with self.subTest(cargo=cargo):
                found = self.called(cargo, "test", "--release")
                passed = re.findall(rb"test result: ok. (\d+) passed; 0 failed", found.output)
                found = self.called(cargo, "run", "--release", "--example", "worker")
                self.assert_outcome(found, support.Outcome(WORKER_SAID, b"", 0))
                self.assertEqual(self.called(cargo, "doc", "--no-deps").errors.decode(), "")
                version = outcome_of([pathlib.Path(cargo).parent / "rustc", "--version"]).output
                what = f"tests and examples by rustc {version.split()[1].decode()}"
                self.says(sum(map(int, passed)), what, 75)

    def test_recorded(self):
        """What threads did with ports and queues is right by the logs that they recorded."""
        cargo = shutil.which("cargo")
        self.called(cargo, "build", "--release", "--example", "recorded")
        target = pathlib.Path(self.settings(cargo)["CARGO_TARGET_DIR"])
        self.judge([target / "release" / "examples" / "recorded"])

"""Builds embed/ and calls it from C, Rust, Python and Node, where these are there.

What `embed/build` makes is left in embed/out, and made anew where a source is newer. The calls
from C run under the sanitizers for addresses and undefined behaviour, which also find what isn't
given back.
"""

import fcntl
import os
import pathlib
import re
import shutil
import sys
import tempfile

import support
from support import PROGRAM, ROOT, TESTS, needs, outcome_of

EMBED = ROOT / "embed"
OUT = EMBED / "out"
CALLS = EMBED / "c" / "tests" / "calls.c"
# The build, and the wait for another test that builds.
SECONDS_TO_BUILD = 2400
SANITIZERS = ["-fsanitize=address,undefined", "-fno-sanitize-recover=all"]
WARNINGS = ["-Wall", "-Wextra", "-Werror", "-pedantic"]
WRAPPED = ["-Wl,--wrap=malloc", "-Wl,--wrap=realloc", "-pthread"]
BUGS = ["overtakes", "swaps_ports", "stays_enabled", "drops_waiting", "posts_to_closed",
        "sends_to_itself"]
MOST_ACTIONS = 15


def sources():
    yield ROOT / "crates.txt"
    yield from (ROOT / "tools" / name for name in ("machine.py", "notices.py", "weburl.py"))
    for folder in (EMBED, ROOT / "crates"):
        for path in folder.rglob("*"):
            parts = path.relative_to(folder).parts
            if path.is_file() and "out" not in parts and (folder == EMBED or "src" in parts):
                yield path


def build():
    lock = pathlib.Path(tempfile.gettempdir()) / f"varukoni-embed-{os.getuid()}"
    with open(lock, "w", encoding="utf-8") as held:
        fcntl.flock(held, fcntl.LOCK_EX)
        mark = OUT / "BUILT"
        made = mark.stat().st_mtime if mark.is_file() else 0
        if made < max(path.stat().st_mtime for path in sources()):
            found = outcome_of([EMBED / "build"], seconds=SECONDS_TO_BUILD)
            if found.status != 0:
                raise AssertionError(found.errors.decode())


@needs("gcc")
@needs("rt", "the Rattle toolchain, which is not on the PATH")
class Embedded(support.TestCase):
    """What is built, in a folder of the test's own."""

    time_limit = SECONDS_TO_BUILD + 120

    def setUp(self):
        build()

    def compiled(self, source, *words, compiler="gcc", standard="-std=c11"):
        program = self.folder / source.stem
        self.ran([
            compiler, standard, "-g", "-O1", *WARNINGS, f"-I{OUT / 'include'}", "-o", program,
            source, *words,
        ])
        return program

    def compiled_twice(self, source, *words):
        """The programs of a source in C as such, and in C++ where g++ is there."""
        yield self.compiled(source, *words)
        if shutil.which("g++"):
            cpp = shutil.copy(source, self.folder / f"{source.stem}.cc")
            yield self.compiled(cpp, *words, compiler="g++", standard="-std=c++11")

    def calls(self):
        return self.compiled(CALLS, OUT / "lib" / "libvarukoni.a", *SANITIZERS, *WRAPPED)


def step_texts():
    for path in sorted((ROOT / "examples").glob("*.steps")):
        yield path.name, path.read_bytes()
    for row in support.rows("steps"):
        yield row.name, row.text


def texts():
    """Every file of examples/, every recorded run and every input of a row, of any mode."""
    for folder in (ROOT / "examples", TESTS / "runs"):
        for path in sorted(folder.rglob("*")):
            if path.is_file():
                yield path.name, path.read_bytes()
    for mode in support.MODES:
        for row in support.rows(mode):
            yield f"{mode} {row.name}", row.text


class C(Embedded):
    def test_first_example(self):
        wanted = outcome_of([PROGRAM, "steps"], (ROOT / "examples" / "first.steps").read_bytes())
        first = EMBED / "c" / "first.c"
        shared = [f"-L{OUT / 'lib'}", "-lvarukoni", f"-Wl,-rpath,{OUT / 'lib'}"]
        for words in ([OUT / "lib" / "libvarukoni.a"], shared):
            for program in self.compiled_twice(first, *words):
                self.assert_outcome(outcome_of([program]), wanted)
                self.says(len(wanted.output.splitlines()), "lines", 5)

    def test_step_files_line_by_line(self):
        program, count = self.calls(), 0
        for name, text in step_texts():
            with self.subTest(name=name):
                found = outcome_of([program, "lines"], text)
                self.assert_outcome(found, outcome_of([PROGRAM, "steps"], text))
                count += 1
        self.says(count, "files", 80)

    def test_whole_texts(self):
        program, counts, good = self.calls(), dict.fromkeys(["steps", "check", "script"], 0), 0
        for name, text in texts():
            for what in counts:
                with self.subTest(name=name, call=what):
                    found = outcome_of([program, what], text)
                    wanted = outcome_of([PROGRAM, "run" if what == "script" else what], text)
                    if what == "script" and wanted.status != 2:
                        # What the program runs is good, and only read.
                        wanted = support.Outcome(b"", b"", 0)
                        good += 1
                    self.assert_outcome(found, wanted)
                    counts[what] += 1
        for what, count in counts.items():
            self.says(count, f"texts for {what}", 150)
        self.says(good, "good scripts", 10)
        self.says(counts["script"] - good, "bad scripts", 5)

    def test_each_allocation_refused(self):
        program, total = self.calls(), [0, 0, 0, 0]
        names = ["every", "casts-of-two-origins", "doomed-then-taken", "long-body-taken",
                 "port-in-what-is-swept", "queues-and-an-order"]
        for name in names:
            found = self.ran([program, "refuse"], support.row("steps", name).text, seconds=300)
            counts = list(map(int, re.findall(rb"\d+", found)))
            total = [one + other for one, other in zip(total, counts)]
        things = ["allocations refused", "lines given again", "told later", "hubs lost"]
        for count, what, floor in zip(total, things, [100, 50, 10, 20]):
            self.says(count, what, floor)

    def test_four_threads(self):
        program, lines = self.calls(), 0
        for name in ("every", "casts-of-two-origins"):
            lines += int(self.ran([program, "threads"], support.row("steps", name).text).split()[0])
        self.says(lines, "lines", 10_000)

    def test_a_million_lines(self):
        program, posts = self.calls(), 500_000
        text = b"agent -\nchannel 0\nstart 1\n" + b"".join(
            b'post 0 - {"n":%d,"s":"abcde"}\ntake 1\n' % number for number in range(posts)
        )
        found = outcome_of([program, "lines"], text, seconds=300)
        self.assert_outcome(found, outcome_of([PROGRAM, "steps"], text))
        self.says(len(found.output.splitlines()), "lines", 2 * posts + 3)

    def test_exports(self):
        """The shared object exports what the header declares, and nothing else."""
        header = (OUT / "include" / "varukoni.h").read_text(encoding="utf-8")
        declared = set(re.findall(r"^\w+ (varukoni_\w+)\(", header, re.MULTILINE))
        found = outcome_of(["nm", "-D", "--defined-only", OUT / "lib" / "libvarukoni.so"])
        exported = {line.split()[-1] for line in found.output.decode().splitlines()}
        self.assertEqual(exported, declared)
        self.says(len(exported), "functions", 8)


class Wrappers(Embedded):
    def told(self, words, **options):
        found = outcome_of(words, seconds=300, **options)
        self.assertEqual(found.status, 0, (found.output + found.errors)[-4_000:].decode())
        return found.output.decode()

    @needs("cargo")
    def test_rust(self):
        crate = self.folder / "rust"
        shutil.copytree(OUT / "rust", crate)
        settings = {**os.environ, "VARUKONI_LIB": str(OUT / "lib")}
        told = self.told(["cargo", "test", "--offline", "--quiet"], cwd=crate, env=settings)
        self.says(sum(map(int, re.findall(r"(\d+) passed", told))), "tests", 6)

    def test_python(self):
        told = self.told([sys.executable, "-B", EMBED / "python" / "tests.py"])
        self.says(int(re.fullmatch(r"embed/python: (\d+) checks\n", told)[1]), "checks", 30)

    @needs("node")
    def test_node(self):
        told = self.told(["node", EMBED / "node" / "tests.mjs", "200", "300", "1"])
        wanted = r"embed/node: (\d+) checks, (\d+) programs, (\d+) deliveries, (\d+) ports: 0 "
        counts = map(int, re.match(wanted, told).groups())
        for count, what, floor in zip(counts, ["checks", "programs", "deliveries", "ports"],
                                      [70, 200, 10_000, 2_000]):
            self.says(count, what, floor)


class Models(Embedded):
    def outcome(self, *words):
        program = OUT / "python" / "model_test.py"
        found = outcome_of([sys.executable, "-B", program, *words], seconds=200)
        self.assertEqual(found.errors, b"", found.errors[-4_000:].decode())
        return found

    def same(self, found, runs, floor):
        self.assertEqual(found.status, 0, found.output)
        counts = re.match(rb"(\d+) runs, (\d+) actions", found.output)
        self.assertEqual(int(counts[1]), runs)
        self.says(int(counts[2]), "actions", floor)

    def test_bugs_are_found(self):
        for bug in BUGS:
            with self.subTest(bug=bug):
                found = self.outcome("--bug", bug)
                self.assertEqual(found.status, 1, found.output)
                actions = len(found.output.splitlines()) - 1
                self.assertLessEqual(actions, MOST_ACTIONS, found.output.decode())
                self.assertGreater(actions, 0)
        self.says(len(BUGS), "bugs", 6)

    def test_no_bug(self):
        self.same(self.outcome(), 300, 50_000)

    @needs("node")
    def test_node(self):
        self.same(self.outcome("--hub", "node"), 300, 30_000)


class Folder(Embedded):
    time_limit = 2 * SECONDS_TO_BUILD

    def test_it_needs_no_toolchain(self):
        folder = self.folder / "made"
        found = outcome_of([EMBED / "build", "--to", folder], seconds=SECONDS_TO_BUILD)
        self.assertEqual(found.status, 0, found.errors.decode())
        told = (folder / "BUILT").read_text(encoding="utf-8")
        head = r"^version [\d.]+\n(interface \d+ of \w+\n){2}commit \w+(-dirty)?\n"
        head += "toolchain rattle-kit"
        self.assertRegex(told, head)
        sums = re.findall(r"^([0-9a-f]{64})  (.*)$", told, re.MULTILINE)
        listed = "".join(f"{total}  {name}\n" for total, name in sums)
        self.ran(["sha256sum", "--check", "--quiet"], listed.encode(), cwd=folder)
        self.assertIn("serde_json", (folder / "NOTICE").read_text(encoding="utf-8"))
        self.says(len(sums), "files", 14)
        bare = {"PATH": os.defpath, "HOME": str(self.folder)}
        first = "import varukoni\nprint(varukoni.Hub()('agent -'))"
        words = [sys.executable, "-B", "-c", first]
        self.assertEqual(self.ran(words, cwd=folder / "python", env=bare), b"agent 0\n")

    def test_refusals(self):
        """It leaves alone a folder that it hasn't made, and says what is wrong."""
        other = self.write("other/mine", "mine").parent
        self.assert_refused([EMBED / "build", "--to", other])
        self.assertEqual([path.name for path in other.iterdir()], ["mine"])
        words = [sys.executable, "-B", EMBED / "build", "--to", other / "new"]
        found = outcome_of(words, env={"PATH": "/nowhere"})
        self.assertEqual(found.status, 70, found)
        self.assertFalse((other / "new").exists())
        self.says(2, "calls")

"""Reads README.md, docs/ and the crates' pages as their readers do: what they show is so.

Commands with an output are run and compared, step lines that stand beside their outcomes are run,
examples of code are looked for in the file that they are from, links are followed, and what can be
counted is counted. docs/YOUR_HUB.md has a test of its own.

A session is a block that begins with ```console. Each line `$ COMMAND` in it is a command, and what
follows up to the next one is the whole output. No exit status is shown: that of the program is told
by the last line of the output, as docs/FORMATS.md says.
"""

import collections
import os
import pathlib
import re
import shutil
import subprocess
import sys
import tempfile
import time

import support
import test_embed
import test_embed_ports
import test_names
import test_runtime
from support import MODES, PROGRAM, ROOT, Outcome, outcome_of

import cratelist

README = ROOT / "README.md"
DOCS = sorted((ROOT / "docs").glob("*.md"))
CRATE_PAGES = sorted((ROOT / "crates").glob("*/README.md"))
PAGES = [README, *DOCS, *CRATE_PAGES]
OTHERS = [ROOT / "CONTRIBUTING.md", ROOT / "CHANGELOG.md"]
# A page whose sessions another test runs.
TESTED = "YOUR_HUB.md"

SESSION = re.compile(r"^```console\n((?:.*\n)*?)```$", re.MULTILINE)
BESIDE = re.compile(r"^```steps\n((?:.*\n)*?)```$", re.MULTILINE)
EXCERPT = re.compile(r"^From `([^`]+)`[^\n]*:\n\n```rust\n((?:.*\n)*?)```$", re.MULTILINE)
LINK = re.compile(r"\[([^]]*)\]\(([^)#\s]*)(#[^)\s]*)?\)")
NAMED = re.compile(r"`([a-z_0-9]+\.rt)`")
SHOWN = re.compile(rf"(?:(cat|tools/\w+)|\./messagehub ({'|'.join(MODES)}) <) (\S+)")
BAD_INPUT = re.compile(rb"line [0-9]+: [A-Za-z0-9()]+")
# Commands that are shown and not run: they prove, build without proofs, or build a library.
LEFT = re.compile(
    r"\.ci/run|\./messagehub --unproved .*|embed/build .*|python3 /opt/varukoni/python/.*"
)

MOST_WORDS = {"README.md": 1_400, "a crate": 250, "all": 31_000}


def text_of(path):
    return path.read_text(encoding="utf-8")


def words_of(path):
    return len(text_of(path).split())


def crates():
    names = set(cratelist.lines())
    return names, {name for name in names if name.endswith("_tests")}


def commands_of(page):
    """Each command of a page with its output, which is empty where the page shows none."""
    for block in SESSION.findall(text_of(page)):
        for part in re.split(r"^\$ ", block, flags=re.MULTILINE)[1:]:
            command, _, output = part.partition("\n")
            yield command, output.encode()


def status_of(mode, output):
    """The status that goes with an output of the program."""
    last = output.splitlines()[-1]
    if BAD_INPUT.fullmatch(last):
        return 2
    return 0 if mode == "steps" or last == b"clean" else 1


def anchors(path):
    """What a link may name in a page: its headings, as they are written in addresses."""
    heads = re.findall(r"^#+ (.*)$", text_of(path), re.MULTILINE)
    return {"#" + re.sub(r"[^\w\- ]", "", head.lower()).replace(" ", "-") for head in heads}


def dedented(text):
    return [line.strip() for line in text.splitlines()]


class Sessions(support.TestCase):
    def check(self, tool, mode, path, output):
        """Compares what a command gives with what the page shows of it."""
        if tool == "cat":
            self.assertEqual(path.read_bytes(), output)
            return
        if mode:
            found = outcome_of([PROGRAM, mode], path.read_bytes())
            output = output or found.output
            wanted = Outcome(output, b"", status_of(mode, output))
        else:
            # Else it has the launcher build the program.
            words = [f"--program={PROGRAM}"] if tool == "tools/play" else []
            found = outcome_of([ROOT / tool, *words, path], None)
            wanted = Outcome(output or found.output, b"", found.status)
        if mode == "run":
            found, wanted = found.settled(), wanted.settled()
        self.assert_outcome(found, wanted)

    def test_commands(self):
        ran = collections.Counter()
        pages = [page for page in PAGES if page.name != TESTED]
        shown = [(page, *it) for page in pages for it in commands_of(page)]
        for page, command, output in shown:
            with self.subTest(page=page.name, command=command):
                if not LEFT.fullmatch(command):
                    found = SHOWN.fullmatch(command)
                    self.assertTrue(found, "no such command is run")
                    tool, mode, path = found.groups()
                    self.check(tool, mode, ROOT / path, output)
                    ran[tool or mode] += 1
        runs = [ran[mode] for mode in MODES]
        self.assertGreater(min(runs), 0)
        self.says(ran["cat"], "files", 7)
        self.says(sum(runs), "runs", 7)
        self.says(ran.total() - ran["cat"] - sum(runs), "commands of tools", 3)

    def test_steps_beside_outcomes(self):
        """Each block of a page is the whole input of a hub, with its outcomes beside it."""
        count = 0
        for page, block in [(it, block) for it in PAGES for block in BESIDE.findall(text_of(it))]:
            pairs = [re.split(r" {2,}", line, maxsplit=1) for line in block.splitlines()]
            text = "".join(f"{step}\n" for step, _ in pairs).encode()
            wanted = "".join(f"{outcome}\n" for _, outcome in pairs).encode()
            with self.subTest(page=page.name):
                self.assert_outcome(outcome_of([PROGRAM, "steps"], text), Outcome(wanted, b"", 0))
            count += len(pairs)
        self.says(count, "step lines", 20)

    def test_examples_of_formats(self):
        """Where an example of docs/FORMATS.md is one whole step line, it gives the word beside."""
        page = text_of(ROOT / "docs" / "FORMATS.md")
        shown = re.findall(r"^\| `([A-Za-z-]+)` \|.*\| `([^`]+)` \|$", page, re.MULTILINE)
        steps, _, _ = page.partition("\n## Logs\n")
        shown = [(word, line) for word, line in shown if f"| `{word}` |" in steps]
        for word, line in shown:
            with self.subTest(word=word, line=line):
                told = outcome_of([PROGRAM, "steps"], f"{line}\n".encode()).output.decode()
                self.assertIn(told, (f"line 1: {word}\n", f"{word}\n"))
        self.says(len(shown), "examples", 10)

    def test_excerpts(self):
        shown = [(page, *it) for page in PAGES for it in EXCERPT.findall(text_of(page))]
        for page, source, code in shown:
            with self.subTest(page=page, source=source):
                lines, wanted = dedented(text_of(ROOT / source)), dedented(code)
                starts = range(len(lines) - len(wanted) + 1)
                self.assertTrue(any(lines[at : at + len(wanted)] == wanted for at in starts))
        self.says(len(shown), "excerpts", 8)


def ways():
    """The rows of README's table of ways: the first command, and what it needs and takes."""
    _, _, part = text_of(README).partition("\n## Six ways to use it\n")
    row = r"^\|[^|]+\| `([^`]+)`[^|]*\| ([^|]+) \|[^|]+\|$"
    rows, before = [], ""
    for command, takes in re.findall(row, part.partition("\n## ")[0], re.MULTILINE):
        before = takes.replace("the same", before)
        rows.append((command, before))
    return rows


class FirstCommands(support.TestCase):
    """The first commands of README's table of ways, where a fresh clone has nothing else."""

    # What the launcher calls, beside Python. There is no rt, no compiler and no browser.
    LAUNCHERS = ("bash", "cat", "env", "readlink", "sed", "sh")
    PARTS = ("CHANGELOG.md", "crates.txt", "examples", "messagehub", "record", "tools")

    def clone(self, *tools):
        """A folder with what git keeps of these parts, and a path with these tools alone."""
        if shutil.which("git") and (ROOT / ".git").exists():
            listed = self.ran(["git", "ls-files", "-z", *self.PARTS], cwd=ROOT).decode()
            names = [name for name in listed.split("\0") if name]
        else:
            found = [ROOT / name for name in self.PARTS]
            found += [path for folder in found for path in folder.rglob("*")]
            names = [path.relative_to(ROOT) for path in found if path.is_file()]
        for name in names:
            (self.folder / name).parent.mkdir(parents=True, exist_ok=True)
            shutil.copy2(ROOT / name, self.folder / name)
        (self.folder / "bin").mkdir()
        (self.folder / "bin" / "python3").symlink_to(sys.executable)
        for name in tools:
            (self.folder / "bin" / name).symlink_to(shutil.which(name))

    def run_first(self, rows):
        """Runs each command there, and tells its time beside what README says."""
        told = []
        for command, takes in rows:
            began = time.monotonic()
            found = subprocess.run(["/bin/sh", "-c", command], cwd=self.folder, check=False,
                                   capture_output=True, env={"PATH": str(self.folder / "bin")})
            told.append(f"`{command}` in {time.monotonic() - began:.1f} s (README: {takes})")
            _, _, target = command.partition(" > ")
            with self.subTest(command=command):
                self.assertEqual((found.stderr, found.returncode), (b"", 0))
                given = (self.folder / target).read_bytes() if target else found.stdout
                self.assertGreater(given.count(b"\n"), 2, "it gives too little")
        self.says(len(rows), f"ways: {', '.join(told)}", 2)

    def test_rows(self):
        """Each row stands in a test: here, or where `embed/build` has built."""
        rows = ways()
        alone = [takes for command, takes in rows if takes == "Python 3.11; a second"]
        self.assertEqual(len(rows) - len(alone), len([
            command for command, _ in rows
            if command.startswith(("./messagehub steps <", "tools/play ", "embed/build"))
        ]))
        self.says(len(rows), "ways", 6)

    def test_python_alone(self):
        self.clone()
        self.run_first([row for row in ways() if row[1] == "Python 3.11; a second"])

    def test_program(self):
        """With the program that CI has built: its build is no part of the time."""
        if not support.IS_BUILT:
            self.skipTest("the program, which `rt ci` builds")
        out = self.folder / "crates" / "messagehub" / "out"
        out.mkdir(parents=True)
        shutil.copy2(PROGRAM, out / "messagehub")
        (out / "messagehub.sources").touch()
        self.clone(*self.LAUNCHERS)
        self.run_first([it for it in ways() if it[0].startswith(("./messagehub", "tools/play"))])


class FirstBuilds(test_embed.Embedded):
    """The rows of README's table that `embed/build` serves, and those of docs/EMBEDDING.md."""

    time_limit = test_embed.SECONDS_TO_BUILD + test_runtime.SECONDS

    def setUp(self):
        is_built = (test_embed.OUT / "BUILT").is_file()
        if not (is_built or os.access(support.BUILT, os.X_OK)):
            self.skipTest("what `rt ci` builds, without which embed/build proves all crates")
        began = time.monotonic()
        super().setUp()
        took = time.monotonic() - began
        self.summary = f"embed/build {'built before' if is_built else f'in {took:.0f} s'}"

    def first(self, tool):
        """Runs the row's command that begins with the tool, in a folder with what was built."""
        if shutil.which(tool) is None:
            self.skipTest(f"{tool}, which is not on the PATH")
        page = text_of(ROOT / "docs" / "EMBEDDING.md")
        row = rf"^\|[^|]+\|[^|]+\| `({re.escape(tool)} [^`]+)`(?:, in (DIR/[\w-]+))? \|$"
        command, inside = re.search(row, page, re.MULTILINE).groups()
        folder = pathlib.Path(self.enterContext(tempfile.TemporaryDirectory()))
        shutil.copytree(test_embed.OUT, folder / "DIR")
        shutil.copytree(ROOT / "examples", folder / "examples")
        settings = {**os.environ, "CARGO_NET_OFFLINE": "true"}
        began = time.monotonic()
        output = outcome_of(["/bin/sh", "-c", command], cwd=folder / (inside or "."), env=settings,
                            seconds=test_embed.SECONDS_TO_BUILD)
        self.assertEqual(output.status, 0, output.errors[-4_000:].decode())
        if (folder / "a.out").is_file():
            output = outcome_of([folder / "a.out"])
        self.summary += f", then `{command}` in {time.monotonic() - began:.1f} s"
        return output.output

    def test_build(self):
        rows = [takes for command, takes in ways() if command == "embed/build"]
        self.says(len(rows), f"ways (README: {', '.join(rows)})", 2)

    def test_model(self):
        self.assertEqual(self.first("python3").splitlines()[:2], [b"agent 0", b"ends 0 1"])

    def test_c(self):
        self.assertEqual(self.first("cc"), test_embed_ports.SAID)

    def test_cpp(self):
        self.assertEqual(self.first("c++"), test_embed_ports.WORKER_SAID)

    def test_rust(self):
        self.assertEqual(self.first("cargo"), test_embed_ports.WORKER_SAID)

    def test_scripts(self):
        if not test_runtime.has_engine():
            self.skipTest("libmozjs-102-dev with g++ and pkg-config")
        began = time.monotonic()
        program = test_runtime.built("varukoni-js")
        output = self.ran([program, ROOT / "examples" / "runtime" / "ports.js"]).decode()
        self.assertIn(f"\n{output}```", text_of(ROOT / "docs" / "EMBEDDING.md"))
        self.summary += f", then `embed/runtime/build` in {time.monotonic() - began:.1f} s"


class Links(support.TestCase):
    def test_links(self):
        count = 0
        for page in [*PAGES, *OTHERS]:
            for _, target, anchor in LINK.findall(text_of(page)):
                if re.match(r"\w+:", target):
                    continue
                with self.subTest(page=page.name, link=target + anchor):
                    count += 1
                    path = (page.parent / target) if target else page
                    self.assertTrue(path.exists())
                    if anchor and path.suffix == ".md":
                        self.assertIn(anchor, anchors(path))
        self.says(count, "links", 20)

    def test_clauses(self):
        """Where a link ends in a line of a source, that line declares what the link names."""
        shown = [(page, *it) for page in PAGES for it in LINK.findall(text_of(page))]
        shown = [it for it in shown if it[2].endswith((".rt", ".antt"))]
        for page, text, target, anchor in shown:
            with self.subTest(page=page.name, link=text):
                self.assertRegex(anchor, r"^#L[1-9]\d*$")
                name = re.findall(r"\w+", text)[-1]
                line = text_of(page.parent / target).splitlines()[int(anchor[2:]) - 1]
                words = r"fn|struct|trait|ensures|ghost|abbrev|record|pub"
                self.assertRegex(line, rf"^\s*(?:pub )?[^/={{]*\b(?:{words}) {name}\b")
        self.ran([ROOT / "tools" / "links", "--check"])
        self.says(len(shown), "clauses and definitions", 150)

    def test_promises(self):
        """Each promise of the first parts names a clause, by a link."""
        page = text_of(ROOT / "docs" / "PROMISES.md")
        parts = re.split(r"^## ", page, flags=re.MULTILINE)
        heads = ("The state machine", "Values and texts", "The parts that threads share")
        rows = [row for part in parts if part.startswith(heads)
                for row in re.findall(r"^- .*", part, re.MULTILINE)]
        for row in rows:
            with self.subTest(row=row[:60]):
                self.assertRegex(row, r"\]\(\.\./crates/[^)]*#L\d+\)")
        self.says(len(rows), "promises", 30)

    def test_crates(self):
        names, _ = crates()
        architecture = text_of(ROOT / "docs" / "ARCHITECTURE.md")
        for name in names:
            with self.subTest(crate=name):
                self.assertIn(f"`{name}`", architecture)
                self.assertTrue((ROOT / "crates" / name / "README.md").exists())
        self.says(len(names), "crates", 30)

    def test_files_of_crates(self):
        """A crate's page names each of its files, and no other."""
        names, tests = crates()
        count = 0
        for name in names - tests:
            with self.subTest(crate=name):
                page = text_of(ROOT / "crates" / name / "README.md")
                files = {path.name for path in (ROOT / "crates" / name / "src").glob("*.rt")}
                files -= {"lib.rt"}
                count += len(files)
                self.assertEqual(files - set(NAMED.findall(page)), set())
                self.assertEqual(set(NAMED.findall(page)) - files, set())
        self.says(count, "files", 200)

    def test_folders_to_copy(self):
        """docs/LIBRARY.md names with each crate all those that it stands on."""
        stands_on = cratelist.with_below(cratelist.lines())
        page, before, rows = text_of(ROOT / "docs" / "LIBRARY.md"), set(), 0
        for row in re.findall(r"^\| [^|]+ \| ([^|]*`hub_[^|]*) \|$", page, re.MULTILINE):
            copied = set(re.findall(r"`(\w+)`", row)) | (before if "these, and" in row else set())
            with self.subTest(row=row):
                self.assertEqual({it for name in copied for it in stands_on[name]} - copied, set())
            before, rows = copied, rows + 1
        self.says(rows, "lists", 5)

    def test_definitions(self):
        page = text_of(ROOT / "docs" / "DEFINITIONS.md")
        files = [path for path in sorted((ROOT / "crates").glob("*/specs/*.antt"))
                 if path.stem != "Lib"]
        for path in files:
            with self.subTest(file=path.relative_to(ROOT)):
                self.assertRegex(page, rf"\b{path.stem}\b")
        self.says(len(files), "files", 150)


    def test_notation(self):
        """The legend of docs/DEFINITIONS.md has each sign that the definitions are written with."""
        page = text_of(ROOT / "docs" / "DEFINITIONS.md")
        legend = re.search(r"^## How to read them\n(.*?)^## ", page, re.MULTILINE | re.DOTALL)[1]
        signs = collections.Counter()
        for path in (ROOT / "crates").glob("*/specs/*.antt"):
            code = re.sub(r'--.*|"[^"]*"', "", text_of(path))
            signs.update(re.findall(r"[^\x00-\x7f]|&&|\|\||==|>>=|\+\+", code))
        plain = legend.replace("\\|", "|")
        for sign in (it for it, count in signs.items() if count >= 5):
            with self.subTest(sign=sign, count=signs[sign]):
                self.assertIn(sign, plain)
        self.says(len(signs), "signs", 20)


class Counts(support.TestCase):
    def test_words(self):
        for page in CRATE_PAGES:
            with self.subTest(page=page):
                self.assertLessEqual(words_of(page), MOST_WORDS["a crate"])
        self.assertLessEqual(words_of(README), MOST_WORDS["README.md"])
        total = sum(words_of(page) for page in PAGES)
        self.assertLessEqual(total, MOST_WORDS["all"])
        self.says(len(PAGES), f"pages of {total:,} words", 40)

    def test_sizes(self):
        """docs/PROMISES.md has the crates' sizes, but for tests and examples, to a hundredth."""
        names = test_names.library_crates()
        sizes = [
            sum(text_of(path).count("\n") for name in names
                for path in (ROOT / "crates" / name / part).rglob(f"*.{suffix}"))
            for part, suffix in (("src", "rt"), ("specs", "antt"), ("proofs", "antt"))
        ]
        said = re.search(r"([\d,]+) lines of code, ([\d,]+) of definitions and ([\d,]+) of proof",
                         text_of(ROOT / "docs" / "PROMISES.md")).groups()
        for size, word in zip(sizes, said):
            self.assertLess(abs(size - int(word.replace(",", ""))), size / 100, (sizes, said))
        self.says(sum(sizes), "lines", 70_000)

    def test_lines_to_believe(self):
        """What docs/PROMISES.md has one read for the headline is what `tools/rests-on` counts."""
        rows = self.ran([ROOT / "tools" / "rests-on", "hub_core", "Headline"]).decode()
        found = re.findall(r"^ *(\d+) of +\d+  .*/(\w+)\.antt$", rows, re.MULTILINE)
        listed = ", ".join(f"{name} {count}" for count, name in found)
        page = text_of(ROOT / "docs" / "PROMISES.md")
        total = sum(int(count) for count, _ in found)
        self.assertIn(f"by `tools/rests-on hub_core Headline` {total} lines: {listed} (", page)
        self.says(total, "lines", 500)

    def test_unsafe(self):
        """The command of docs/PROMISES.md shows as many exports as it says, and two lines more."""
        page = text_of(ROOT / "docs" / "PROMISES.md")
        shown = re.search(r"`(git grep [^`]+)` finds (\d+) exports to C, and two", page)
        command, exports = shown.groups()
        if shutil.which("git") is None or not (ROOT / ".git").exists():
            self.skipTest("git, or a clone")
        lines = self.ran(["/bin/sh", "-c", command], cwd=ROOT).decode().splitlines()
        boxes = [line for line in lines if "#[unsafe(no_mangle)]" not in line]
        self.assertEqual(len(lines) - len(boxes), int(exports))
        self.assertEqual([line.split("unsafe")[1] for line in boxes],
                         [" { Box::from_raw(alloc, ptr) }"] * 2)
        self.says(len(lines), "lines", 30)

    def test_edits(self):
        tried = len(list((ROOT / "crates").glob("*/must-fail/*.edit")))
        beside = len(list((ROOT / "edits").glob("*/*.edit")))
        self.assertIn(f"CI tries {tried} edits, and {beside} lie beside",
                      text_of(ROOT / "docs" / "DECISIONS.md"))
        self.says(tried + beside, "edits", 300)

    def test_version(self):
        version = re.search(r"^## ([0-9.]+)", text_of(ROOT / "CHANGELOG.md"), re.MULTILINE)[1]
        told = outcome_of([ROOT / "messagehub", "--version"], None).output.decode().split()
        self.assertEqual(told[:2], ["messagehub", version])
        for crate in ("rust", "rust-ports"):
            cargo = text_of(ROOT / "embed" / crate / "Cargo.toml")
            self.assertIn(f'\nversion = "{version}"\n', cargo)
        self.says(3, "versions")

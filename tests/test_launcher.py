"""Runs the launcher `./messagehub` and tools/build with a toolchain that only plays one."""

import os
import shutil
import signal

import support
from support import ROOT, outcome_of

# Stands in for rt. It writes down what it was asked for and proves a crate where no library of its
# sources lies in out/, as it does each that the crate stands on, and builds a program that says its
# arguments. A file `fails` in a crate has its proof fail, and `saved` a source change meanwhile.
FAKE_RT = """#!/bin/sh
echo "${PWD##*/} $*" >> "$RT_WAS_ASKED"
case $1 in
    version) cat "$(dirname "$0")/../KIT-ID"; exit 0 ;;
    try) cat "$RT_SAYS" >&2; exit 1 ;;
esac
if [ -e fails ]; then echo "rt: a proof failed"; exit 1; fi
for crate in $(sed -n "s/^${PWD##*/}: //p" ../../crates.txt) "${PWD##*/}"; do
    cd "../$crate" 2> /dev/null || continue
    sum=$(cat src/* "$(dirname "$0")/../KIT-ID" | cksum)
    if [ "$(cat out/rlib/stamp 2> /dev/null)" != "$sum" ]; then
        mkdir -p out/rlib
        rm -f out/rlib/stamp
        echo "$sum" > out/rlib/stamp
        echo "proved $crate" >> "$RT_WAS_ASKED"
        echo "logic=proved functions=1"
    fi
done
if [ -e saved ]; then rm saved; echo '// more' >> src/lib.rt; fi
if [ "$1" = run ]; then
    mkdir -p out
    printf '#!/bin/sh\\necho ran "$@"\\n' > out/messagehub
    chmod +x out/messagehub
fi
"""
CRATES = """# A line a crate.
low: std
high: low
wide: low
messagehub: high wide
other: low
"""
# Stands in for what rt knows of its crates.
FAKE_RTLIB = """import collections, pathlib
Crate = collections.namedtuple("Crate", "name stamp")
def crates_below(top):
    return [Crate(it.name, lambda it=it: "of-" + it.name) for it in pathlib.Path(top).iterdir()]
"""
# The same with what builds a library of statements, by the sums that FAKE_RT has.
FAKE_RTLIB_OF_STATEMENTS = """import os, pathlib, subprocess
KIT_ID = pathlib.Path(__file__).resolve().parent.parent / "KIT-ID"
def root_above(folder): return str(pathlib.Path(folder).parent.parent)
def help_of(verb): return "--statements"
def guarded(): return []
def lock(crates): return crates
class Crate:
    cuts_libraries = False
    def __init__(self, folder, root, known):
        self.folder, self.name = pathlib.Path(folder), pathlib.Path(folder).name
    def below(self): return []
    def stamp(self):
        words = ["sh", "-c", 'cat src/* "$0" | cksum', str(KIT_ID)]
        return subprocess.run(words, cwd=self.folder, capture_output=True, text=True).stdout
    def is_built(self): return False
    def build_rlib(self, flags, anew):
        assert (self.cuts_libraries, flags[0], anew) == (True, "--jobs", True)
        (self.folder / "out" / "rlib" / f"{self.name}.rlib").mkdir(parents=True, exist_ok=True)
        with open(os.environ["RT_WAS_ASKED"], "a") as asked:
            print(f"{self.name} statements", file=asked)
        print("logic=proved functions=1", flush=True)
        return 0
"""
USAGE = b"usage: messagehub [--unproved] steps|run|check [FILE]\n"


# What rt says where its limit of time ends the program.
LATE = "checked: no-answer: the program did not end within the time limit\n"


class Launcher(support.TestCase):
    shows = frozenset({"status 70"})

    def setUp(self):
        self.root, self.kit = self.make("a repository"), self.folder / "kit"
        self.write("kit/KIT-ID", "a kit\n")
        self.write("kit/bin/rt", FAKE_RT, 0o755)
        self.asked, self.rt_says = self.folder / "asked", self.folder / "said"
        self.settings = {
            "PATH": f"{self.kit}/bin{os.pathsep}{os.defpath}",
            "RT_WAS_ASKED": str(self.asked),
            "RT_SAYS": str(self.rt_says),
            "XDG_CACHE_HOME": str(self.folder / "cache"),
            "TMPDIR": str(self.folder),
        }

    def make(self, name):
        root = self.folder / name
        for crate in ("low", "high", "wide", "messagehub", "other"):
            self.write(f"{name}/crates/{crate}/src/lib.rt", "// code\n")
        self.write(f"{name}/crates.txt", CRATES)
        self.write(f"{name}/HANDLES", "Handles allowed: none.\n")
        (root / "tools").mkdir()
        shutil.copy(ROOT / "messagehub", root)
        for tool in ("build", "buildplan.py", "command.py", "cratelist.py", "rtinside.py"):
            shutil.copy(ROOT / "tools" / tool, root / "tools")
        return root

    def launch(self, *words, root=None):
        words = [(root or self.root) / "messagehub", *words]
        return outcome_of(words, env=self.settings, cwd=self.folder)

    def assert_fails(self, words, *said):
        words = [self.root / "messagehub", *words]
        self.assert_refused(words, *said, status=70, env=self.settings, cwd=self.folder)

    def calls(self):
        lines = self.asked.read_text(encoding="utf-8").splitlines() if self.asked.exists() else []
        self.asked.unlink(missing_ok=True)
        return [line for line in lines if not line.endswith(" version")]

    def assert_runs(self, is_built, root=None):
        """The program runs, and rt is asked for proofs exactly where it has to be built."""
        found = self.launch("steps", root=root)
        self.assertEqual((found.output, found.status), (b"ran steps\n", 0), found.errors)
        self.assertEqual(bool(self.calls()), is_built, found.errors)
        return found

    def test_words(self):
        """Wrong words are told in a line of their own, and then the usage: nothing is built."""
        (self.folder / "a.steps").touch()
        rows = [
            ([], ""), ([""], "'' is no mode"), (["fly"], "'fly' is no mode"),
            (["stpes"], "'stpes' is no mode, did you mean steps?"),
            (["rum", "x"], "'rum' is no mode, did you mean run?"),
            (["--chek"], "'--chek' is no mode"),
            (["a.steps"],
             "a.steps is a file, and no mode is before it: did you mean steps a.steps?"),
            (["steps", "a.steps", "b"], "b: one FILE at most"),
            (["--unproved"], "--unproved: no mode behind it"),
            (["--unproved", "chek"], "'chek' is no mode, did you mean check?"),
            (["--version", "steps"], "'--version' is no mode"),
        ]
        for self.settings in [self.settings, {**self.settings, "PATH": os.defpath}]:
            for words, said in rows:
                with self.subTest(words=words):
                    found = self.launch(*words)
                    line = f"messagehub: {said}\n" if said else ""
                    self.assertEqual(found, (b"", line.encode() + USAGE, 2))
                    self.assertEqual(self.calls(), [])
        self.says(2 * len(rows), "wrong calls", 22)

    def test_help(self):
        rows = [["-h"], ["--help"], ["run", "--help"], ["check", "-h"], ["--unproved", "run", "-h"]]
        for words in rows:
            found = self.launch(*words)
            self.assertEqual((found.errors, found.status, self.calls()), (b"", 0, []))
            self.assertTrue(found.output.startswith(USAGE), found.output)
            self.assertIn(b"$ printf 'agent -", found.output)
            self.assertLess(max(map(len, found.output.split(b"\n"))), 101)
        self.says(len(rows), "calls")

    def test_file(self):
        """A file in the place of standard input; one that can't be read is told alone."""
        path = self.write("a file.steps", "some text\n")
        self.launch("steps")
        program = self.root / "crates" / "messagehub" / "out" / "messagehub"
        program.write_text('#!/bin/sh\necho "ran $@"\ncat\n', encoding="utf-8")
        self.assertEqual(self.launch("steps", path), (b"ran steps\nsome text\n", b"", 0))
        rows = [("/nowhere/at/all", "there is no such file"), (self.folder, "it is a folder"),
                (path / "below", "there is no such file")]
        for name, why in rows:
            for words in (["check", name], ["--unproved", "check", name]):
                said = f"messagehub: {name}: {why}\n".encode()
                self.assertEqual(self.launch(*words), (b"", said, 2))
        self.says(2 * len(rows) + 1, "calls")

    def test_no_toolchain(self):
        self.settings["PATH"] = os.defpath
        for words in (["steps"], ["--unproved", "steps"]):
            self.assert_fails(words, "no `rt` on the path")
        self.says(2, "calls")

    def test_build(self):
        found = self.launch("check")
        self.assertEqual((found.output, found.status), (b"ran check\n", 0), found.errors)
        proved = [line.split()[1] for line in self.calls() if line.startswith("proved ")]
        self.assertEqual((proved[0], proved[-1]), ("low", "messagehub"))
        self.assertEqual(sorted(proved), ["high", "low", "messagehub", "wide"])
        for count in (b"\n1/4 low ", b"\n4/4 messagehub "):
            self.assertIn(count, found.errors)
        self.assertNotIn(b"other", found.errors)
        self.assert_runs(is_built=False)
        self.says(4, "crates")

    def test_what_is_newer(self):
        self.assert_runs(is_built=True)
        source = self.root / "crates" / "low" / "src" / "lib.rt"
        for change in (
            lambda: source.write_text("// other code\n", encoding="utf-8"),
            lambda: (source.parent / "more.rt").write_text("// more\n", encoding="utf-8"),
            lambda: (source.parent / "more.rt").rename(self.folder / "more.rt"),
            lambda: (self.root / "crates.txt").write_text(CRATES.replace("std", "std itoa")),
            lambda: (self.kit / "KIT-ID").write_text("another kit\n"),
        ):
            change()
            shutil.rmtree(self.folder / "cache")
            self.assert_runs(is_built=True)
            self.assert_runs(is_built=False)
        self.says(5, "changes")

    def test_saved_during_a_build(self):
        (self.root / "crates" / "high" / "saved").touch()
        self.assert_runs(is_built=True)
        self.assert_runs(is_built=True)
        self.assert_runs(is_built=False)
        self.says(3, "runs")

    def test_cache(self):
        self.assert_runs(is_built=True)
        other = self.make("another checkout")
        self.assert_runs(is_built=False, root=other)
        source = self.root / "crates" / "low" / "src" / "lib.rt"
        source.touch()
        self.assert_runs(is_built=False)
        total = self.ran([other / "tools" / "build", "--sum"], env=self.settings)
        self.assertEqual(len(total), 65)
        self.says(3, "runs")

    def test_libraries_of_ci(self):
        """What `rt ci` leaves has no sum. Libraries of one run get theirs, of two runs none."""
        self.write("kit/bin/rtlib.py", FAKE_RTLIB)
        self.assert_runs(is_built=True)
        crates = self.root / "crates"
        stamps = [crates / it / "out" / "rlib" / "stamp" for it in ("low", "high", "wide")]
        for stamp in stamps[:2]:
            stamp.unlink()
        self.build("--keep", self.build("--sum").decode().strip())
        self.assertEqual([it.exists() for it in stamps], [False, False, True])
        stamps[2].unlink()
        self.build("--keep", "another sum")
        self.assertFalse(any(it.exists() for it in stamps))
        self.build("--keep", self.build("--sum").decode().strip())
        self.assertEqual([it.read_text() for it in stamps], ["of-low", "of-high", "of-wide"])
        stamps[0].unlink()
        self.build("--clear")
        self.assertEqual([it.parent.exists() for it in stamps], [False, True, True])
        self.says(4, "calls")

    def test_first_build(self):
        """Where nothing was built yet the libraries hold statements; from then on `rt lib` makes
        them, which goes on from what it keeps."""
        self.write("kit/bin/rtlib.py", FAKE_RTLIB_OF_STATEMENTS)
        self.launch("steps")
        calls = self.calls()
        by_statements = sorted(line.split()[0] for line in calls if line.endswith(" statements"))
        self.assertEqual(by_statements, ["high", "low", "wide"])
        proved = [line for line in calls if line.startswith("proved ")]
        self.assertEqual(proved, ["proved messagehub"])
        self.write("a repository/crates/low/src/lib.rt", "// new\n")
        self.launch("steps")
        calls = self.calls()
        self.assertIn("low lib --jobs", " ".join(calls))
        self.assertFalse([line for line in calls if line.endswith(" statements")])
        self.says(2, "builds")

    def build(self, *words):
        return self.ran([self.root / "tools" / "build", *words], env=self.settings)

    def test_build_that_fails(self):
        fails = self.root / "crates" / "high" / "fails"
        fails.touch()
        self.assert_fails(["steps"], "rt: a proof failed", "high isn't proved")
        self.assertTrue(self.calls())
        fails.unlink()
        self.assert_runs(is_built=True)
        self.says(2, "builds")

    def test_unproved(self):
        for said, status, words in (
            ("usage\nrun=ended status=2 runners=1 proved=no\n", 2, b"usage\n"),
            ("checked: ended status=0\nrun=ended status=0 runners=1 proved=no\n", 0, b""),
            ("checked: no-answer: too long\nrun=no-answer proved=no\n", 70, b"run=no-answer"),
            ("interpreter: no-answer: lacks\n" + LATE + "run=no-answer proved=no\n", 70,
             b"messagehub: the program had not ended after a minute, and was ended"),
            ("error[no-such-name]\nrun=none proved=no\n", 70, b"error[no-such-name]"),
            ("run=ended status=0 proved=no\nrt: killed\n", 70, b"rt: killed"),
            ("", 70, b""),
        ):
            self.rt_says.write_text(said, encoding="utf-8")
            found = self.launch("--unproved", "run")
            self.assertEqual((found.output, found.status), (b"", status), found.errors)
            self.assertTrue(found.errors.startswith(b"messagehub: this program is NOT proved"))
            self.assertIn(words, found.errors)
            is_shown = status == 70 and "checked" in said and LATE not in said
            self.assertEqual(b"checked:" in found.errors, is_shown)
        self.assertEqual(len(self.calls()), 7)
        self.says(7, "runs")

    def test_stopped(self):
        # The crate `high` waits for a file, and Ctrl-C comes before that is there.
        waits = (
            'at=$(dirname "$RT_SAYS")\n[ "${PWD##*/}" != high ] || [ -e "$at/go" ] ||'
            ' { touch "$at/waits"; sleep 30; exit 1; }\n'
        )
        self.write("kit/bin/rt", FAKE_RT.replace("case $1 in", f"{waits}case $1 in"), 0o755)
        words, is_ready = [self.root / "messagehub", "steps"], (self.folder / "waits").exists
        how = {"env": self.settings, "start_new_session": True}
        with support.begun(words, is_ready, **how) as build:
            os.killpg(build.pid, signal.SIGINT)
            output, errors = build.communicate(timeout=60)
        self.assertEqual((output, build.returncode), (b"", 130), errors)
        self.assertIn(b"the next call goes on", errors)
        self.calls()
        (self.folder / "go").touch()
        self.assert_runs(is_built=True)
        self.says(2, "builds")

"""Runs bench/all over programs that only play the benches', and looks at what it makes of them."""

import itertools
import os
import pathlib
import re
import sys
import tempfile
import types

import support
from support import ROOT, outcome_of

sys.path.append(str(ROOT / "bench"))

import measure  # noqa: E402

ALL = ROOT / "bench" / "all"
# What a program of bench/scripts prints, for SHAPE and COUNT: microseconds, and actions.
HEAD = """#!/bin/sh
case $1 in names) actions=$((($2 - 2) / 2)) ;; *) actions=$(($2 - 2)) ;; esac
"""
RIGHT = 'echo "$((10 * $2)) $actions"\n'
# What such a program does instead, what is told of it, and how many figures fail for it.
WRONG = {
    'echo "$((10 * $2)) $actions"; exit 101': ("it ended with status 101", 10),
    "kill -9 $$": ("it ended with signal 9", 10),
    'echo "$((10 * $2)) $((actions + 1))"': ("and not its microseconds and 511", 10),
    'echo "0 $actions"': ("it took no time", 10),
    'echo "$((10 * $2))"': ("and not its microseconds and 511", 10),
    "echo fast": ("it printed 'fast\\n'", 10),
    # One run alone is wrong, and the figures that stand on it.
    'echo "$((10 * $2)) $((actions + ($2 == 4096)))"': ("and not its microseconds and 2047", 4),
}
# What 2,048 lines take where 1,024 take 10,000 microseconds. At most 2.3 times as much is allowed.
BOUNDS = {23_000: True, 23_001: False, 22_999: True, 23_499: False}
LAST_LINES = "left out: {}\n{} passed, {} failed, {} skipped\n"
# The programs of bench/queue: each moves a million messages of seven bytes in 0.1 s.
MAILBOX = '#!/bin/sh\n[ $1 = 0 ] && echo $2 || echo "100000 $(($1 * $2)) $((7 * $1 * $2)) 0"\n'
CHANNEL = '#!/bin/sh\necho "100000 $(($1 * $2)) $((7 * $1 * $2))"\n'
# The crates whose channels it takes, and their packages.
PACKAGES = {
    name: f"librust-{name}-dev" for name in ("crossbeam-channel", "flume", "tokio", "async-channel")
}
# A cargo, and a rustc, whose programs are there beforehand.
CARGO = """#!/bin/sh
name=${PWD##*/}
/bin/mkdir -p out/release && /bin/cp "$BUILT/${name#queue_reference_}" "out/release/$name"
"""
RUSTC = '#!/bin/sh\n/bin/cp "$BUILT/mpsc" "$3"\n'
# What such a program does instead, or that it can't be built, and what is told of it.
WRONG_CHANNELS = {
    'echo "100000 999999 7000000"': "and not its microseconds and 1000000 7000000",
    'echo "100000 1000000 6999993"': "and not its microseconds and 1000000 7000000",
    "exit 101": "it ended with status 101",
    "kill -9 $$": "it ended with signal 9",
    None: "cargo build of queue/reference.rs over flume: it ended with status 1",
}
# How long the library's queue takes beside the 0.1 s of the mailbox, which has a bound with four
# posters: at least 0.9 of its messages.
BOUNDS_OF_QUEUE = {90_001: True, 89_999: False}
# A crate as Debian's packages lay it out, which has what bench/queue takes of flume.
FLUME = {
    "Cargo.toml": '[package]\nname = "flume"\nversion = "0.10.0"\n[features]\nselect = []\n',
    ".cargo-checksum.json": '{"package": "", "files": {}}',
    "src/lib.rs": """#![cfg(feature = "select")]
pub use std::sync::mpsc::{Receiver, Sender};
pub fn unbounded<M>() -> (Sender<M>, Receiver<M>) {
    eprintln!("flume");
    std::sync::mpsc::channel()
}
""",
}


class Benches(support.TestCase):
    def play(self, name, text):
        self.write(f"bench_{name}", text, 0o755)

    def path_with(self, own="path", **programs):
        """A folder for PATH with these programs and Python."""
        for name, text in programs.items():
            self.write(f"{own}/{name}", text, 0o755)
        (self.folder / own).mkdir(exist_ok=True)
        (self.folder / own / "python3").symlink_to(sys.executable)
        return str(self.folder / own)

    def run_all(self, name, *words, **settings):
        words = [ALL, "--built", self.folder, "--turns=2", name, *words]
        return outcome_of(words, env={**os.environ, **settings})

    def assert_ends(self, found, status, left_out, *counts):
        self.assertEqual(found.status, status, found)
        self.assertNotIn(b"Traceback", found.errors)
        wanted = LAST_LINES.format(left_out, *counts)
        self.assertTrue(found.output.decode().endswith(wanted), found.output.decode())

    def test_right(self):
        self.play("scripts", HEAD + RIGHT)
        found = self.run_all("scripts")
        self.assert_ends(found, 0, "nothing", 4, 0, 0)
        self.assertRegex(found.output, rb"names, 4,096 lines, beside half +2 times +best at most 2")
        self.says(10, "figures")

    def test_wrong(self):
        for text, (said, failed) in WRONG.items():
            with self.subTest(program=text):
                self.play("scripts", f"{HEAD}{text}\n")
                found = self.run_all("scripts")
                passed = 4 - failed // 2 if failed < 10 else 0
                self.assert_ends(found, 1, "nothing", passed, failed, 0)
                self.assertIn(said, found.output.decode())
        self.says(len(WRONG), "programs", 7)

    def test_bounds(self):
        """A figure is held to its bound before it is rounded."""
        for micros, is_met in BOUNDS.items():
            with self.subTest(micros=micros):
                times = f"case $2 in 1024) t=10000 ;; 2048) t={micros} ;; *) t=46000 ;; esac\n"
                self.play("scripts", HEAD + times + 'echo "$t $actions"\n')
                found = self.run_all("scripts")
                counts = (4, 0, 0) if is_met else (2, 2, 0)
                self.assert_ends(found, 0 if is_met else 1, "nothing", *counts)
        self.says(len(BOUNDS), "times", 4)

    def test_beside(self):
        """The programs of another commit take turns, and each job is compared with its own."""
        self.play("scripts", HEAD + RIGHT)
        other = self.folder / "other"
        self.write(other / "bench_scripts", HEAD + RIGHT.replace("10", "20"), 0o755)
        found = self.run_all("scripts", "--beside", other)
        self.assert_ends(found, 0, "nothing", 4, 0, 0)
        row = rf"bench_scripts \w+ \d+, beside {re.escape(str(other))} +0\.5 times"
        rows = len(re.findall(row, found.output.decode()))
        self.assertEqual(rows, 6, found.output.decode())
        self.says(rows, "jobs", 6)

    def test_tool_is_missing(self):
        """What needs it is left out by name, and the rest is timed."""
        self.play("gate", '#!/bin/sh\necho "700000 $(($1 * $2)) 0"\n')
        found = self.run_all("gate", PATH=self.path_with())
        self.assert_ends(found, 0, "rustc", 0, 0, 3)
        self.assertIn(b"4 threads, gate", found.output)
        self.says(3, "bounds")

    def run_queue(self, channels, alone=CHANNEL):
        """Runs bench/queue over these programs of crates, with no Node and no GNU time."""
        self.play("queue", MAILBOX)
        self.play("queue_alone", alone)
        own = pathlib.Path(tempfile.mkdtemp(dir=self.folder))
        for crate in ("tokio-macros", *channels):
            self.write(own / "registry" / f"{crate}-1.2.3" / "Cargo.toml", "")
        for crate, text in {"mpsc": CHANNEL, **channels}.items():
            if text:
                self.write(own / "built" / crate, text, 0o755)
        path = self.path_with(own / "path", cargo=CARGO, rustc=RUSTC)
        settings = {"PATH": path, "BUILT": str(own / "built")}
        return self.run_all("queue", "--registry", own / "registry", **settings)

    def test_crate_is_missing(self):
        """Its own rows alone are left out, by the name of its package."""
        rows = list(itertools.product((1, 4), PACKAGES, ("texts", "envelopes")))
        for missing in ([], ["flume"], [*PACKAGES]):
            with self.subTest(missing=missing):
                found = self.run_queue({name: CHANNEL for name in PACKAGES if name not in missing})
                names = [*(PACKAGES[name] for name in missing), "node", "GNU time"]
                self.assert_ends(found, 0, ", ".join(names), 6, 0, 3)
                for posters, name, sent in rows:
                    figure = "-" if name in missing else "10 million"
                    row = f"{posters} to 1, {name} of {sent} +{figure} "
                    self.assertRegex(found.output.decode(), row)
        self.says(3 * len(rows), "rows", 48)

    def test_channel_is_wrong(self):
        """The four rates of a channel that goes wrong, and what stands on them, are failures."""
        for text, said in WRONG_CHANNELS.items():
            with self.subTest(program=text):
                channels = dict.fromkeys(PACKAGES, CHANNEL)
                channels["flume"] = text and f"#!/bin/sh\n{text}\n"
                found = self.run_queue(channels)
                self.assert_ends(found, 1, "node, GNU time", 6, 8, 3)
                self.assertIn(said, found.output.decode())
        self.says(len(WRONG_CHANNELS), "programs", 5)

    def test_bounds_of_queue(self):
        """What the mailbox moves with four posters beside the queue with the gate's additions."""
        for micros, is_met in BOUNDS_OF_QUEUE.items():
            with self.subTest(micros=micros):
                times = f"[ \"$1 $3\" = '4 counted' ] && t={micros} || t=100000\n"
                alone = f'#!/bin/sh\n{times}echo "$t $(($1 * $2)) $((7 * $1 * $2))"\n'
                found = self.run_queue({}, alone)
                names = ", ".join([*PACKAGES.values(), "node", "GNU time"])
                passed, failed = (6, 0) if is_met else (5, 1)
                self.assert_ends(found, failed, names, passed, failed, 3)
        self.says(len(BOUNDS_OF_QUEUE), "times", 2)

    @support.needs("cargo")
    @support.needs("rustc")
    def test_crate_is_built(self):
        """The real cargo builds a peer over a folder of sources, and asks no registry."""
        for name, text in FLUME.items():
            self.write(f"registry/flume-0.10.0/{name}", text)
        options = types.SimpleNamespace(turns=1, registry=self.folder / "registry")
        bench = measure.Bench(types.ModuleType("queue"), options, self.folder, measure.Report())
        peer = bench.rust_over("flume", "queue/reference.rs", ["select"])
        self.assertIsNone(peer.gap)
        for words in (["4", "250"], ["4", "250", "envelope"]):
            found = outcome_of([*peer.words, *words])
            self.assertRegex(found.output, rb"^[1-9]\d* 1000 7000\n$")
            self.assertEqual(found.errors, b"flume\n", "it sends through another channel")
        self.says(2, "runs")

    def test_stopped(self):
        """What it has begun, a build and the toolchain, is stopped too, and it says so."""
        path = self.path_with(rt=f"#!/bin/sh\necho $$ > '{self.folder}/asked'\nexec sleep 300\n")
        settings = {**os.environ, "PATH": f"{path}{os.pathsep}{os.defpath}"}
        settings["TMPDIR"], asked = str(self.folder), self.folder / "asked"
        words = [ALL, "core"]
        with support.begun(words, lambda: support.has_text(asked), env=settings) as process:
            process.terminate()
            output, errors = process.communicate(timeout=60)
        self.assertEqual(process.returncode, 1, errors)
        self.assertIn(b"failed: stopped, not run to the end: core\n", output)
        self.assertTrue(output.endswith(LAST_LINES.format("nothing", 0, 1, 0).encode()), output)
        number = int(asked.read_text("utf-8"))
        # A process that was killed is gone a moment later where the machine is busy.
        support.wait_until(lambda: not support.is_running(number), 10)
        self.assertEqual([it.name for it in self.folder.iterdir() if it.is_dir()], ["path"])
        self.says(1, "signal")

    def test_program_is_missing(self):
        self.assert_refused([ALL, "--built", self.folder, "scripts"], "needs the program")
        self.says(1, "call")

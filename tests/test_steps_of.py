"""Tests of tools/steps-of: step files for the logs of runs, and logs that have none.

The logs are those of the program's runs, of simulated ones, and of programs on Node. What a step
file does is told by the built program where there is one, and else by tools/machine.py, which is
compared with the rows of the program by tests/test_why.py.
"""

import random
import re
import sys

import support
from support import IS_BUILT, MERGE, PROGRAM, ROOT, SIMULATE, TESTS, outcome_of

sys.path.insert(0, str(TESTS / "soak.d"))

import changes
import generator
import hublog
import machine

STEPS_OF = ROOT / "tools" / "steps-of"
SHOP = TESTS / "record" / "shop.mjs"
SCRIPTS = [ROOT / "examples" / f"{name}.script" for name in ("two_windows", "service_worker")]
SEEDS = range(14)
MOST_ENTRIES = 700
GOT = re.compile(r"(?:got|notice) (\d+:\d+) from (\d+)(?: with ([\d,]+))?(?: (.+))?")

# Each of two agents closes its port: both notices were accepted before either port was closed.
CROSSED = """hublog 3
agent 0
put 2 0 0:0 1 1
put 1 0 0:0 notice
closed 0
agent 1
got 2 0 0:0 1 1
adopted 1 1
put 0 0 0:0 notice
closed 1
"""
# The poster of port 2 was inside the first queue of port 1 while that was adopted.
INSIDE = """hublog 3
agent 0
put 4 0 0:0 1 "a port"
got 4 0 0:0 1 "a port"
adopted 1 1
put 1 0 0:0 - "late"
put 1 0 1:0 - "next"
got 1 0 0:0 - "late"
got 1 0 1:0 - "next"
"""
INSIDE_SCRIPT = b"""{"agent":"window","origin":"https://a.example"}
{"channel":["a","b"],"at":0}
{"channel":["c","d"],"at":0}
"""
# A hub without epochs and notices, at whose port "second" comes behind the adoption.
OTHER_HUB = """hublog 3
agent 0
put 1 0 0:0 - "first"
put 2 0 0:0 1 "a port"
got 0 0 0:0 - "back"
put 1 0 0:1 - "second"
closed 0
agent 1
got 2 0 0:0 1 "a port"
adopted 1 1
put 0 0 0:0 - "back"
got 1 0 0:0 - "first"
got 1 0 0:1 - "second"
closed 1
"""


def steps_of(logs, *words):
    return outcome_of([STEPS_OF, *map(str, words)], logs)


def simulated(script, seed):
    found = outcome_of([SIMULATE, "--seed", str(seed), "run"], script)
    return found.output if found.status == 0 else None


def outcomes(steps):
    if IS_BUILT:
        return outcome_of([PROGRAM, "steps"], steps).output.decode().splitlines()
    hub = machine.Machine()
    return [hub.do(line) for line in steps.decode().splitlines()]


def gots(steps):
    """What the step lines deliver: by end and line, names, ports and bodies in order."""
    found = {}
    for line, outcome in zip(steps.decode().splitlines(), outcomes(steps)):
        got = GOT.fullmatch(outcome)
        if line.startswith("take ") and got:
            key = int(line.split(" ")[1]), int(got[2])
            found.setdefault(key, []).append((got[1], got[3] or "-", got[4]))
    return dict(sorted(found.items()))


def deliveries(steps):
    return [
        f"end {end} line {line} {' '.join(name for name, _, _ in it)}"
        for (end, line), it in gots(steps).items()
    ]


class Case(support.TestCase):
    @property
    def path(self):
        return self.folder / "run.script"

    def runs(self, run=simulated):
        """Scripts, of which self.path has the one at a time, and the logs of a run of it."""
        scripts = [path.read_bytes() for path in SCRIPTS] + list(map(generator.make, SEEDS))
        for seed, script in enumerate(scripts):
            logs = run(script, seed)
            if logs is not None and logs.count(b"\n") <= MOST_ENTRIES:
                self.path.write_bytes(script)
                yield logs

    def check_steps(self, logs, *words):
        found = steps_of(logs, *words)
        self.assertEqual(found.status, 0, found.output[-300:])
        wanted = hublog.deliveries(hublog.read_logs(logs))
        self.assertEqual(deliveries(found.output), wanted)
        return found


class Found(Case):
    def check_runs(self, run):
        """Each run has a step file, with its script and without."""
        count = 0
        for logs in self.runs(run):
            with self.subTest(run=count):
                self.check_steps(logs, "--script", self.path)
                self.check_steps(logs)
                count += 1
        self.says(count, "runs", 12)

    def test_simulated(self):
        self.check_runs(simulated)

    def test_program(self):
        self.check_runs(lambda script, _seed: self.ran([PROGRAM, "run"], script))

    def test_maker_without_a_log(self):
        """A queue that comes from an agent that logs nothing is handed on by it."""
        found = steps_of(b"hublog 3\nagent 0\nadopted 0 1\n")
        self.assertEqual(found.output.splitlines()[-3:], [b"client 1", b"hand 0 0", b"adopt 0 0"])
        self.assertEqual(outcomes(found.output)[-2:], ["handed", "adopted 1"])
        self.says(1, "log")

    def test_poster_inside(self):
        """It enters before the port is adopted, and pushes behind that."""
        self.path.write_bytes(INSIDE_SCRIPT)
        found = self.check_steps(INSIDE.encode(), "--script", self.path)
        lines = found.output.decode().splitlines()
        wanted = ["enter 2", "adopt 1 0", 'push 2 - "late"', "leave 2", 'post 2 - "next"']
        self.assertEqual([line for line in lines if line in wanted], wanted)
        self.says(len(wanted), "step lines")

    def test_other_hub(self):
        """The names differ, as the moved port has a second queue, and the rest is the same."""
        found = steps_of(OTHER_HUB.encode())
        self.assertEqual(found.status, 0)
        self.assertEqual(found.errors.count(b"tools/steps-of: the logs have no "), 2, found.errors)
        lines = [line for line in outcomes(found.output) if line.startswith("got ")]
        wanted = [
            'got 0:0 from 0 with 1 "a port"', 'got 0:0 from 0 "back"', 'got 0:0 from 0 "first"',
            'got 1:0 from 0 "second"',
        ]
        self.assertEqual(sorted(lines), sorted(wanted))
        self.says(len(lines), "deliveries")

    @support.needs("node")
    def test_node(self):
        """A recorded program on Node's own channels: ports and bodies are those of its logs."""
        folder = self.folder / "logs"
        self.ran(["node", "--no-warnings", SHOP, folder])
        logs = self.ran([MERGE, folder])
        found = steps_of(logs)
        self.assertEqual(found.status, 0, found.output)
        wanted = {
            key: [(",".join(map(str, it.content[0])) or "-", it.content[1]) for it, _ in entries]
            for key, entries in hublog.got_lists(hublog.read_logs(logs)).items()
        }
        bodies = {key: [it[1:] for it in entries] for key, entries in gots(found.output).items()}
        self.assertEqual(bodies, wanted)
        self.says(sum(map(len, wanted.values())), "deliveries", 10)

    def test_crossed_notices(self):
        """No step lines put two notices that crossed: the second is left out, and that is said."""
        found = steps_of(CROSSED.encode())
        self.assertEqual(found.status, 0, found.output)
        self.assertTrue(found.errors.endswith(b"; left out: line 9\n"), found.errors)
        self.says(1, "run")


class NotFound(Case):
    def test_changed(self):
        draw, count = random.Random(0), 0
        for logs in self.runs():
            changed = changes.change(logs, draw)
            if changed is not None:
                for words in ([], ["--script", self.path]):
                    found = steps_of(changed[0], *words)
                    self.assertEqual(found.output.splitlines()[0], b"none", changed[1])
                    self.assertEqual(found.status, 1)
                    count += 1
        self.says(count, "changed logs", 20)

    def test_beginnings(self):
        """Agent 1 gets "three" where "two" is next; agent 0 does all of its log."""
        found = steps_of((ROOT / "examples" / "fault.log").read_bytes())
        wanted = [
            "none",
            "agent 0: 3 of 3 entries",
            'agent 1: 1 of 3 entries, then line 8: got 1 0 0:2 - "three"',
        ]
        self.assertEqual((found.output.decode().splitlines(), found.status), (wanted, 1))
        self.says(2, "beginnings")

    def test_circle(self):
        """Clean logs in which each agent gets before it puts what the other one gets."""
        logs = (
            "hublog 3\nagent 0\ngot 0 0 0:0 - 1\nput 1 0 0:0 - 2\n"
            "agent 1\ngot 1 0 0:0 - 2\nput 0 0 0:0 - 1\n"
        )
        self.assertEqual(hublog.answer(logs.encode()), ("clean", 0))
        found = steps_of(logs.encode())
        self.assertEqual((found.output.splitlines()[0], found.status), (b"none", 1))
        self.says(1, "circle")

    def test_few_states(self):
        logs = simulated(SCRIPTS[0].read_bytes(), 0)
        found = steps_of(logs, "--states", 5)
        self.assertEqual(found, (b"undecided\n", b"", 3))
        self.says(1, "run")

    def test_refusals(self):
        self.path.write_bytes(b'{"agent":"robot","origin":"https://a.example"}\n')
        words = [STEPS_OF, "--script", self.path]
        self.assert_refused(words, "run.script: line 1: Syntax\n", text=b"hublog 3\n")
        self.says(1, "call")

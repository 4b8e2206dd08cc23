"""Tests of the recorders of record/: on Node's own channels, and those of Python, Rust and C."""

import collections
import importlib.util
import os
import pathlib
import queue
import random
import shutil
import sys

import planted
import support
from support import IS_BUILT, MERGE, PROGRAM, ROOT, TESTS, outcome_of

RECORD = TESTS / "record"
PROGRAMS = 7
SEEDS = range(32)
PARTS = 8
needs_node = support.needs("node")


class Case(support.TestCase):
    def node(self, name, *words):
        return self.ran(["node", "--no-warnings", RECORD / name, *map(str, words)]).decode()

    def merged(self, *words):
        return outcome_of([MERGE, *words])

    def check_report(self, folder, is_cut):
        """Nothing is found but that a log was cut."""
        words = [ROOT / "tools" / "report", "--allow-waiting", folder]
        for word, status in [("--json", 2 if is_cut else 0), ("--allow-cut", 0)]:
            self.ran([*words, word], status=status)

    def says_words(self, logs, floor):
        """Says how many entries of each word all these logs have."""
        lines = (line for text in logs for line in text.decode().splitlines())
        words = collections.Counter(line.partition(" ")[0] for line in lines)
        for word in ("put", "got", "adopted", "closed"):
            self.says(words[word], word, floor)

    def verdict(self, logs):
        """What the second checker says of logs, and the program, where there is one."""
        checkers = [[ROOT / "tools" / "judge"]]
        if IS_BUILT:
            checkers.append([PROGRAM, "check"])
        verdicts = {outcome_of(words, logs).output.decode() for words in checkers}
        self.assertEqual(len(verdicts), 1, verdicts)
        return verdicts.pop().rstrip("\n")


@needs_node
class Node(Case):
    time_limit = 240

    def run_part(self, part):
        seeds = [seed for seed in SEEDS if seed % PARTS == part]
        self.faults = planted.Planted()
        logs = []
        for seed in seeds:
            with self.subTest(seed=seed):
                logs.append(self.run_seed(seed))
        self.says(len(seeds) * PROGRAMS, "programs", 25)
        self.says_words(logs, 20 * len(seeds))
        if not part % 2:
            self.faults.says(self, 1)

    def run_seed(self, seed):
        """The whole logs of the programs of a seed, which are judged, also without what is cut."""
        folder = self.folder / str(seed)
        self.node("random.mjs", folder, seed, PROGRAMS)
        whole, judged = self.merged("--whole", folder), self.merged(folder)
        is_cut = seed % 2 == 1
        self.assertEqual(whole.status, int(is_cut), whole.errors)
        self.assertEqual(b" was cut: " in judged.errors, is_cut, judged.errors)
        self.assertEqual(self.verdict(whole.output), "clean")
        self.assertEqual(self.verdict(judged.output), "clean")
        self.check_report(folder, is_cut)
        if not is_cut:
            self.faults.check(self, whole.output, seed)
        self.check_shorter(folder, random.Random(seed))
        return whole.output

    def check_shorter(self, folder, chance):
        """Where a log is shorter, no fault is told from what it lacks."""
        path = chance.choice(sorted(folder.iterdir()))
        os.truncate(path, chance.randrange(path.stat().st_size))
        found = self.merged(folder)
        self.assertEqual(found.status, 1, found.errors)
        self.assertEqual(self.verdict(found.output), "clean")
        self.check_report(folder, True)


support.add_tests(Node, Node.run_part, {f"part_{part}": part for part in range(PARTS)})


@needs_node
class Wrong(Case):
    # Three messages are posted at an end that is new; before those at a worker comes its data.
    ROUTES = {"port": (17, 0), "worker": (1, 1), "broadcast": (16, 0)}
    # What happens to the second message, at which place that shows, and the kind.
    CHANGES = {
        "drop": (1, "Gap"), "double": (2, "Twice"), "swap": (1, "Gap"), "change": (1, "Changed"),
        "rename": (1, "Foreign"),
    }

    def verdict_of(self, script, *words):
        folder = self.folder / "-".join(words)
        self.node(script, folder, *words)
        return self.verdict(self.ran([MERGE, folder]))

    def test_changes(self):
        for route, (end, first) in self.ROUTES.items():
            self.assertEqual(self.verdict_of("three.mjs", route, "none"), "clean")
            for change, (place, kind) in self.CHANGES.items():
                with self.subTest(route=route, change=change):
                    wanted = f"fault {end} 0 {place + first} {kind}"
                    self.assertEqual(self.verdict_of("three.mjs", route, change), wanted)
        self.says(len(self.ROUTES) * len(self.CHANGES), "changes", 15)

    def test_delivered_after_close(self):
        """Node delivers what waits at a port that its agent has closed."""
        ways = {"listener": "fault 17 0 1 AfterClose", "receive": "fault 17 0 0 AfterClose"}
        for way, wanted in ways.items():
            self.assertEqual(self.verdict_of("late.mjs", way), wanted)
        self.says(len(ways), "ways")


def digest(text):
    """The body in place of a text, by the definition of FNV-1a of 64 bits."""
    data, state = text.encode("utf-8", "surrogatepass"), 14695981039346656037
    for byte in data:
        state = ((state ^ byte) * 1099511628211) & 0xFFFF_FFFF_FFFF_FFFF
    return f'{{"digest":"fnv1a64 {state:016x} of {len(data)} bytes"}}'


@needs_node
class Bodies(Case):
    FIRST = [
        "null",
        '{"b":1,"a":[true,"é\u2028\\n"]}',
        str(2**53 - 1),
        f'"{"x" * 262_142}"',
        "[" * 64 + "]" * 64,
        digest("1.5"),
        digest("-0"),
        digest("!undefined undefined"),
        digest("!Date 0"),
        digest(str(2**53)),
        digest("!bigint 12"),
        digest(f'"{"x" * 262_143}"'),
        digest("[" * 65 + "]" * 65),
        digest('"\\ud800"'),
        digest('!array 3 {"0":1,"2":3}'),
        digest('{"name":"cycle","it":!same 0}'),
        '{"x":1}',
    ]
    COUNT = 27

    def test_bodies(self):
        codes = self.node("bodies.mjs", self.folder / "run").split()
        self.assertEqual(codes, ["NoFolder", "NoAgent", "NoSink", "UnknownPort", "TooDeep"])
        logs = self.merged(self.folder / "run").output
        self.assertEqual(self.verdict(logs), "clean")
        entries = logs.decode().split("\n")
        puts = [entry for entry in entries if entry.startswith("put ")]
        self.assertEqual(len(puts), self.COUNT + 1)
        for at, (body, put) in enumerate(zip(self.FIRST, puts)):
            self.assertEqual(put[:80], f"put 17 0 0:{at} - {body}"[:80])
            self.assertTrue(put == f"put 17 0 0:{at} - {body}", put[:80])
        ends = ",".join(map(str, range(18, 35)))
        body = digest(ends + ' {"first":{"port":0},"last":{"port":16}}')
        self.assertEqual(puts[-1], f"put 17 0 0:{self.COUNT} {ends.rpartition(',')[0]} {body}")
        self.assertEqual(sum(entry.startswith("adopted ") for entry in entries), 17)
        self.says(len(puts), "bodies", 28)

    def test_refusals(self):
        codes = self.node("bodies.mjs", self.folder / "run", 15).split()
        self.assertEqual(codes[-1], "TooManyAgents")
        found = outcome_of(["node", RECORD / "bodies.mjs", self.folder / "run"])
        self.assertEqual(found.status, 1)
        self.assertIn(b"LogExists", found.errors)
        self.says(2, "refusals")


@needs_node
class Broker(Case):
    """A wrong broker in JS: classes in place of Node's test Node, and a Recorder the broker."""

    def test_broker(self):
        ways = {"classes": (0, b"right: "), "recorder": (1, b"wrong: ")}
        for way, (status, said) in ways.items():
            folder = self.folder / way
            folder.mkdir()
            self.node("broker.mjs", folder, way)
            found = self.ran([ROOT / "tools" / "report", folder], status=status)
            self.assertTrue(found.startswith(said), found)
        for said in ("out of order, 0:2 is got nowhere, 0:3 came 1 place later",
                     "passed over, 0:5 is got nowhere"):
            self.assertIn(f": {said}\n".encode(), found)
        self.says(len(ways), "ways")


# Python, Rust and JavaScript

LOG = f"""hublog 3
agent 3
put 1 0 0:0 - {{"count":1}}
put 65535 31 65535:4611686018427387903 0,1,2,3,4,5,6,7,8,9,10,11,12,13,14,65535 null
got 2 0 0:0 5 [true,"a\\nb"]
put 1 0 0:1 - {digest("1.5")}
put 1 0 0:2 - {{"digest":"fnv1a64 85944171f73967e8 of 6 bytes"}}
put 1 0 0:3 notice
got 2 0 0:1 notice
adopted 5 1
closed 2
put 1 0 0:4 - "accepted"
deliveries
"""
REFUSALS = (
    "BadAgent Io BadEnd BadLine BadEpoch BadNumber BadPorts BadPorts BadPorts NotJson BadEnd "
    "BadEpoch BadEnd ClosedTwice BadLine BadEnd PutTwice PutTwice Finished"
).split()


def python_recorder():
    """record/hublog.py as a module, whose name tools/hublog.py has as well."""
    sys.dont_write_bytecode = True
    path = ROOT / "record" / "hublog.py"
    spec = importlib.util.spec_from_file_location("recorder", path)
    module = importlib.util.module_from_spec(spec)
    spec.loader.exec_module(module)
    return module


class Python(Case):
    def setUp(self):
        super().setUp()
        self.recorder = python_recorder()
        self.path = self.folder / "agent 3.log"

    def log_all(self, log):
        log.put(1, 0, 0, 0, [], {"count": 1})
        log.put(65_535, 31, 65_535, 2**62 - 1, [*range(15), 65_535], None)
        log.got(2, 0, 0, 0, [5], (True, "a\nb"))
        log.put(1, 0, 0, 1, [], 1.5)
        log.put(1, 0, 0, 2, [], self.recorder.digest(b"foobar"))
        log.put_notice(1, 0, 0, 3)
        log.got_notice(2, 0, 0, 1)
        log.adopted(5, 1)
        log.closed(2)

    def refusal(self, act, *words):
        try:
            act(*words)
        except self.recorder.Refused as refused:
            return refused.kind
        except OSError:
            return "Io"
        return "nothing"

    def refusals(self, log):
        create = self.recorder.Recorder
        return [
            self.refusal(create, self.path, 16),
            self.refusal(create, self.path, 3),
            self.refusal(log.put, 65_536, 0, 0, 0, [], 1),
            self.refusal(log.put, 1, 32, 0, 0, [], 1),
            self.refusal(log.put, 1, 0, -1, 0, [], 1),
            self.refusal(log.got, 1, 0, 0, 2**62, [], 1),
            self.refusal(log.put, 1, 0, 0, 0, [65_536], 1),
            self.refusal(log.put, 1, 0, 0, 0, [4, 4], 1),
            self.refusal(log.put, 1, 0, 0, 0, range(17), 1),
            self.refusal(log.got, 1, 0, 0, 0, [], {1: 2}),
            self.refusal(log.adopted, 65_536, 0),
            self.refusal(log.adopted, 1, True),
            self.refusal(log.closed, 65_536),
            self.refusal(log.closed, 2),
            self.refusal(log.put_notice, 1, 32, 0, 0),
            self.refusal(log.got_notice, "1", 0, 0, 0),
            self.refusal(log.put, 1, 0, 0, 0, [], 1),
            self.refusal(log.put_notice, 1, 0, 0, 1),
        ]

    def check_putting(self, log):
        """What is refused is taken back, and may be put again; what is logged meanwhile stays."""
        size = self.path.stat().st_size
        with self.assertRaises(queue.Full), log.putting(1, 0, 0, 4, [], "refused"):
            self.assertGreater(self.path.stat().st_size, size)
            raise queue.Full
        self.assertEqual(self.path.stat().st_size, size)
        with log.putting(1, 0, 0, 4, [], "accepted"):
            pass

    def test_log(self):
        with self.recorder.Recorder(self.path, 3) as log:
            self.log_all(log)
            refusals = self.refusals(log)
            self.check_putting(log)
            self.assertEqual(self.path.read_bytes() + b"deliveries\n", LOG.encode())
        log.finish()
        self.assertEqual(refusals + [self.refusal(log.closed, 7)], REFUSALS)
        self.assertEqual(self.path.read_bytes(), LOG.encode())
        self.says(len(REFUSALS), "refusals", 19)

    def test_entry_within_putting(self):
        """Where an entry was written behind a put, the put isn't taken back."""
        with self.recorder.Recorder(self.path, 3) as log:
            with self.assertRaises(queue.Full), log.putting(1, 0, 0, 0, [], 1):
                log.closed(1)
                raise queue.Full
        self.assertEqual(self.path.read_bytes(),
                         b"hublog 3\nagent 3\nput 1 0 0:0 - 1\nclosed 1\ndeliveries\n")
        self.says(1, "log")

    def test_bodies(self):
        """Every body that JSON has is written, and what the reader takes is written as it is."""
        bodies = ["é\u2028", -(2**63), 2**64 - 1, {"b": [], "a": {}}, "x" * 262_142, nested(63)]
        past = [2**64, float("nan"), -0.0, "\udc00", {"\ud800": 1}, "x" * 262_143, nested(64)]
        with self.recorder.Recorder(self.path, 3) as log:
            for number, body in enumerate(bodies + past):
                log.put(1, 0, 0, number, [], body)
                log.got(1, 0, 0, number, [], body)
            for body in [{1}, b"", nested(100_000), {None: 1}]:
                self.assertEqual(self.refusal(log.put, 1, 0, 0, 0, [], body), "NotJson")
        text = self.path.read_bytes()
        self.assertEqual(self.verdict(text), "clean")
        self.assertEqual(text.count(b'{"digest":'), 2 * len(past))
        self.says(len(bodies + past), "bodies", 13)


class Kinds(Case):
    """A small hub in Python, recorded, that goes wrong in all ways for which there is a kind."""

    ONE, TWO, THREE, NOTICE = (0, "one"), (1, "two"), (2, "three"), (3, None)
    # What comes out of the hub, with the place where its agent closes the end, and the verdict.
    WAYS = {
        "right": ([ONE, TWO, THREE, NOTICE], 4, "clean"),
        "drops": ([ONE, THREE, NOTICE], 3, "fault 1 0 1 Gap"),
        "swaps": ([ONE, THREE, TWO, NOTICE], 4, "fault 1 0 1 Gap"),
        "doubles": ([ONE, TWO, TWO, THREE, NOTICE], 5, "fault 1 0 2 Twice"),
        "changes": ([ONE, (1, "two!"), THREE, NOTICE], 4, "fault 1 0 1 Changed"),
        "renames": ([ONE, (7, "two"), THREE, NOTICE], 4, "fault 1 0 1 Foreign"),
        "delivers after the close": ([ONE, TWO, THREE], 2, "fault 1 0 2 AfterClose"),
        "delivers after the notice": ([ONE, TWO, THREE, NOTICE, TWO], 5, "fault 1 0 4 AfterNotice"),
    }

    def test_kinds(self):
        create = python_recorder().Recorder
        for way, (delivered, closed_at, verdict) in self.WAYS.items():
            with self.subTest(way=way):
                folder = self.folder / way
                folder.mkdir()
                with create(folder / "0.log", 0) as sender, create(folder / "1.log", 1) as receiver:
                    for number, body in self.WAYS["right"][0]:
                        self.log(sender.put, sender.put_notice, number, body)
                    for number, body in delivered[:closed_at]:
                        self.log(receiver.got, receiver.got_notice, number, body)
                    receiver.closed(1)
                    for number, body in delivered[closed_at:]:
                        self.log(receiver.got, receiver.got_notice, number, body)
                self.assertEqual(self.verdict(self.ran([MERGE, folder])), verdict)
        kinds = {verdict.rpartition(" ")[2] for _, _, verdict in self.WAYS.values()} - {"clean"}
        self.says(len(kinds), "kinds", 6)

    @staticmethod
    def log(message, notice, number, body):
        if body is None:
            notice(1, 0, 0, number)
        else:
            message(1, 0, 0, number, [], body)


def nested(depth):
    value = []
    for _ in range(depth):
        value = [value]
    return value


@needs_node
class JavaScript(Case):
    def test_log(self):
        path = self.folder / "agent 3.log"
        # All that JavaScript has is a body, or has a digest.
        refusals = [it.replace("Io", "LogExists") for it in REFUSALS[:-1] if it != "NotJson"]
        told = "hublog 3\nagent 4\nact\nput 1 0 0:0 - \"accepted\"\ndeliveries"
        self.assertEqual(
            self.node("plain.mjs", path).splitlines(),
            [*refusals, "full", "handed over", "Finished", "full", "Finished", *told.splitlines()],
        )
        self.assertEqual(path.read_bytes(), LOG.encode())
        self.says(len(refusals), "refusals", 17)


@support.needs("rustc")
class Rust(Case):
    TEXTS = [
        '"\\ud83d\\ude00"', "18446744073709551615", "-9223372036854775808", ' [ {"a" : [ ] } ] ',
        '{"a":1,"b":[true,false,null]}', "[" * 64 + "]" * 64, f'"{"x" * 262_142}"',
    ]
    PAST = [
        "18446744073709551616", "-9223372036854775809", "-0", "1e5", "1.5", '"\\ud800"',
        '"\\udc00"', '"\\ud800\\u0041"', "[" * 65 + "]" * 65, f'"{"x" * 262_143}"',
    ]
    NONE = [
        "", "{", "[1,]", '{"a"}', "tru", "nullx", "01", "1 2", "1.", "-", "+1", '"', '"\t"', "[1}",
        '{"a":1,}', '"\\x"', '"\\u12"', '"\\u12x4"', "]", ",", "[,1]", "{1:2}", "1e", "'a'",
    ]

    def setUp(self):
        super().setUp()
        self.program = self.folder / "fixed"
        words = ["rustc", "--edition", "2021", "-D", "warnings", "-o", self.program]
        self.ran([*words, RECORD / "fixed.rs"])

    def test_log(self):
        path = self.folder / "agent 3.log"
        self.assertEqual(self.ran([self.program, path]).decode().split(), REFUSALS)
        self.assertEqual(path.read_bytes(), LOG.encode())
        self.says(len(REFUSALS), "refusals", 19)

    def test_bodies(self):
        texts = self.TEXTS + self.PAST + self.NONE
        path = self.write("texts", "\n".join([*texts, ""]))
        found = outcome_of([self.program, "texts", path])
        self.assertEqual(found.output.decode().split(), ["NotJson"] * len(self.NONE))
        log = pathlib.Path(f"{path}.log").read_text("utf-8")
        self.assertEqual(self.verdict(log.encode()), "clean")
        wanted = [text.replace(" ", "") for text in self.TEXTS]
        wanted += [digest(text) for text in self.PAST] + ['"none"'] * len(self.NONE)
        found = [entry.partition(" - ")[2] for entry in log.split("\n")[2:-2]]
        for text, one, other in zip(texts, found, wanted):
            self.assertTrue(one == other, (text[:50], one[:90], other[:90]))
        self.assertEqual(len(found), len(wanted))
        self.says(len(texts), "texts", 40)

    def test_after_notice(self):
        found = outcome_of([self.program, "late", self.folder / "logs"])
        self.assertNotEqual(found.status, 0, "it made logs in no folder")
        (self.folder / "logs").mkdir()
        self.ran([self.program, "late", self.folder / "logs"])
        merged = self.ran([MERGE, self.folder / "logs"])
        self.assertEqual(self.verdict(merged), "fault 1 0 2 AfterNotice")
        self.says(3, "deliveries")


# The digests are those of FNV-1a's published test vectors.
LOG_IN_C = """\
hublog 3
agent 15
put 1 0 0:0 - {"digest":"fnv1a64 cbf29ce484222325 of 0 bytes"}
put 1 0 0:1 65535,65534 {"digest":"fnv1a64 85944171f73967e8 of 6 bytes"}
put 1 0 0:2 notice
got 1 0 0:0 - {"digest":"fnv1a64 cbf29ce484222325 of 0 bytes"}
adopted 65535 65535
got 1 0 0:1 65535,65534 {"digest":"fnv1a64 85944171f73967e8 of 6 bytes"}
got 1 0 0:2 notice
closed 1
deliveries
"""
WARNINGS = ["-Wall", "-Wextra", "-Werror", "-pedantic", "-fsanitize=address,undefined"]


class HublogH(Case):
    """record/hublog.h in C and in C++: what it writes, and what it refuses."""

    def test_calls(self):
        compilers = {"gcc": "-std=gnu11", "g++": "-std=c++17"}
        found = {name: word for name, word in compilers.items() if shutil.which(name)}
        if not found:
            self.skipTest("gcc and g++, which are not on the PATH")
        answers = 0
        for compiler, standard in found.items():
            with self.subTest(compiler=compiler):
                logs = self.folder / compiler
                logs.mkdir()
                program = self.folder / "hublog"
                words = [compiler, standard, *WARNINGS, f"-I{ROOT / 'record'}", "-o", program]
                language = "c" if compiler == "gcc" else "c++"
                self.ran([*words, "-x", language, RECORD / "hublog.c"])
                self.assertEqual(self.ran([program, logs]), b"answers: 35\n")
                self.assertEqual((logs / "agent-15.log").read_text(encoding="utf-8"), LOG_IN_C)
                answers += 35
        self.says(answers, "answers", 35)


# Merging

ONE = ["hublog 3", "agent 0", 'put 1 0 0:0 - "one"', 'put 1 0 0:1 - "two"', "deliveries", ""]
OTHER = ["hublog 3", "agent 1", 'got 1 0 0:0 - "one"', 'got 1 0 0:1 - "two"', "deliveries", ""]


class Merge(Case):
    def log(self, number, lines):
        self.write(f"agent-{number}.log", "\n".join(lines))

    def check(self, status, output, *errors):
        found = self.merged(self.folder)
        self.assertEqual((found.output.decode(), found.status), (output, status), found.errors)
        for error in errors:
            self.assertIn(error, found.errors.decode())
        self.assertEqual(bool(errors), bool(found.errors), found.errors)
        self.assertNotIn(b"Traceback", found.errors)

    def test_whole(self):
        self.log(1, OTHER)
        self.log(0, ONE)
        self.write("notes.txt", "no log")
        self.check(0, "\n".join(ONE[:-2] + OTHER[1:-2] + [""]))
        self.says(1, "merge")

    def test_cut(self):
        """What only a log says that was cut is missing, and nothing else is told for a fault."""
        left = "1 entries are left out"
        self.log(1, OTHER)
        self.log(0, ONE[:3] + ['put 1 0 0:1 - "t'])
        wanted = "\n".join(ONE[:3] + OTHER[1:3] + [""])
        self.check(1, wanted, "agent 0 was cut", left)
        self.assertEqual(self.verdict(wanted.encode()), "clean")
        whole = self.merged("--whole", self.folder)
        self.assertEqual(self.verdict(whole.output), "fault 1 0 1 Foreign")
        self.log(0, ONE)
        self.log(1, OTHER[:2] + [""])
        self.log(2, ["hublog 3", "agent 2", "adopted 1 1", OTHER[3], "deliveries", ""])
        wanted = "\n".join(ONE[:-2] + ["agent 1", "agent 2", "adopted 1 1", ""])
        self.check(1, wanted, "agent 1 was cut", left)
        self.says(2, "cut logs")

    def test_missing(self):
        self.log(0, ONE)
        self.log(2, ["hublog 3", "agent 2", "deliveries", ""])
        self.check(1, "\n".join(ONE[:-2] + ["agent 2", ""]), "agent 1 has no log", "0 entries")
        for text in ["", "hub", "hublog 3", "hublog 3\n", "hublog 3\nagent"]:
            self.log(1, [text])
            self.check(1, "\n".join(ONE[:-2] + ["agent 2", ""]), "cut before its first entry")
        self.log(1, OTHER)
        self.log(2, ["hublog 3", "agent 2", "meets 3", "deliveries", ""])
        wanted = "\n".join(ONE[:-2] + OTHER[1:-2] + ["agent 2", ""])
        self.check(1, wanted, "agent 3 has no log", "0 entries")
        self.says(7, "logs")

    def test_bad_input(self):
        rows = [
            (3, "put 1 0 0:0 -", "BadLine"), (4, "closed 5\nclosed 5", "BadLine"),
            (3, "agent 1", "BadLine"), (3, "cast 1 0", "BadLine"), (3, "hears 1 0", "BadLine"),
            (2, "agents 0", "BadLine"), (1, "hublog 2", "BadHeader"), (3, "fly", "BadLine"),
            (3, "got 0 0 0:0 - 1.5", "BadLine"),
        ]
        for number, line, kind in rows:
            lines = ["hublog 3", "agent 0"][: min(2, number - 1)] + [line, *ONE[3:]]
            if number == 1:
                lines[1:1] = ["agent 0"]
            self.log(0, lines)
            self.check(2, "", f"agent-0.log: line {number}: {kind}")
        self.log(0, ONE)
        self.log(1, ONE)
        self.check(2, "", "has a log of agent 0 too")
        self.says(len(rows) + 1, "bad inputs", 9)

    def test_casts(self):
        """A cast is put at each channel that hears it, from the first that it got to the last."""
        self.log(0, [*ONE[:2], *(f"cast 9 {it} {it}" for it in range(4)), *ONE[-2:]])
        self.log(1, [*OTHER[:2], "hears 5 0 9", "got 5 0 0:1 - 1", "hears 6 3 9",
                       "got 5 0 0:2 - 2", "got 6 3 0:3 - 3", *ONE[-2:]])
        puts = ["put 5 0 0:1 - 1", "put 5 0 0:2 - 2", "put 6 3 0:3 - 3"]
        gots = ["got 5 0 0:1 - 1", "got 5 0 0:2 - 2", "got 6 3 0:3 - 3"]
        wanted = "\n".join(["hublog 3", "agent 0", *puts, "agent 1", *gots, ""])
        self.check(0, wanted)
        self.assertEqual(self.verdict(wanted.encode()), "clean")
        self.says(6, "entries")

    def test_words(self):
        """Wrong words, and an empty folder, are told in one line with status 2."""
        settings = {**os.environ, "LC_ALL": "C"}
        for words in [[], ["--fly"], [self.folder], [self.folder / "no folder"]]:
            self.assert_refused([MERGE, *words], "record/merge: ", env=settings)
        self.log(0, ONE[:2] + ONE[2:3] * 100_000 + ONE[-2:])
        pipe = f'"{MERGE}" "{self.folder}" | head -1'
        found = outcome_of(["bash", "-c", pipe])
        self.assertEqual((found.output, found.errors), (b"hublog 3\n", b""))
        self.says(5, "calls")

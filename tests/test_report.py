"""Tests of tools/report and tools/account: logs changed by hand, and what is said of them.

The sentences are written here from the rules of docs/FORMATS.md and of tools/verdict.py.
"""

import concurrent.futures
import json
import os
import pty
import shutil
import subprocess
import sys

import planted
import support
from support import IS_BUILT, MERGE, PROGRAM, REPORT, ROOT, SIMULATE, TESTS, outcome_of

import generator
import hublog
import verdict
import wrong

ACCOUNT = ROOT / "tools" / "account"
# Where the program isn't built, the report judges alone.
CHECKER = ["--program", PROGRAM] if IS_BUILT else []

# How many random runs are right.
RUNS = 200
# The entries stand at the lines 3 to 6 and 8 to 12 of the file.
CLEAN = """hublog 3
agent 0
put 1 0 0:0 - "one"
put 1 0 0:1 - "two"
put 1 0 0:2 - "three"
put 1 0 0:3 notice
agent 2
got 1 0 0:0 - "one"
got 1 0 0:1 - "two"
got 1 0 0:2 - "three"
got 1 0 0:3 notice
closed 1
"""
# Port 17 is sent from agent 0 to agent 1 and on to agent 2. The marks stand where bugs show.
MOVED = """hublog 3
agent 0
put 1 0 0:0 17 "a port"
put 17 0 0:0 - 0
put 17 0 0:1 - 1
put 17 0 0:2 - 2
agent 1
got 1 0 0:0 17 "a port"
adopted 17 1
got 17 0 0:0 - 0
put 2 1 0:0 17 "yours"
~agent 2
got 2 1 0:0 17 "yours"
adopted 17 2
got 17 0 0:1 - 1
got 17 0 0:2 - 2
closed 17
"""
# The commonest bugs of a transfer, each with what it is found as.
TABLE = {
    "the old owner receives": (
        MOVED.replace("~", "got 17 0 0:1 - 1\n").replace("adopted 17 2\ngot 17 0 0:1 - 1\n",
                                                       "adopted 17 2\n"),
        {"NotOwner"}),
    "an agent receives at what it never adopted": (
        'hublog 3\nagent 0\nput 1 0 0:0 17 "a port"\nput 17 0 0:0 - 1\nagent 1\ngot 17 0 0:0 - 1\n',
        {"NotOwner", "Lost"}),
    "got before it was put, in a circle": (
        'hublog 3\nagent 0\ngot 0 0 0:0 - "a"\nput 1 0 0:0 - "q"\n'
        'agent 1\ngot 1 0 0:0 - "q"\nput 0 0 0:0 - "a"\n',
        {"BeforePut"}),
    "lost on transfer, with nothing behind": (
        MOVED.replace("~", "").replace("got 17 0 0:1 - 1\ngot 17 0 0:2 - 2\n", ""), {"Lost"}),
    "one name put twice and got twice": (
        "hublog 3\nagent 0\nput 1 0 0:0 - 1\nput 1 0 0:0 - 1\n"
        "agent 1\ngot 1 0 0:0 - 1\ngot 1 0 0:0 - 1\n",
        {"PutTwice"}),
}


def changed(*changes):
    """The clean logs, in which each text is replaced by the one behind it."""
    text = CLEAN
    for old, new in changes:
        assert text.count(old) == 1, old
        text = text.replace(old, new)
    return text


def swapped(first, second):
    return changed((first, "~"), (second, first), ("~", second))


def report(text, *words, program=True):
    return outcome_of([REPORT, *(CHECKER if program else []), *words], text.encode())


def kinds(text, *words):
    """The kinds of all findings, and the status."""
    found = report(text, "--json", *words)
    return [it["kind"] for it in json.loads(found.output)["findings"]], found.status


class Table(support.TestCase):
    def test_bugs(self):
        self.assertEqual(kinds(MOVED.replace("~", "")), ([], 0))
        for bug, (text, wanted) in TABLE.items():
            with self.subTest(bug=bug):
                self.assertEqual(hublog.answer(text.encode()), ("clean", 0))
                found, status = kinds(text)
                self.assertEqual((set(found), status), (wanted, 1))
        self.says(len(TABLE), "bugs", 5)

    def test_nothing_recorded(self):
        """What a failed recording leaves is no right run: one line says so, with status 2."""
        merge = f'"{MERGE}" "{self.folder}/none" | "{REPORT}"'
        self.write("bad.log", "hublog 3\nagent 0\nput 1 0 0:0 -\ndeliveries\n")
        bad = f'"{MERGE}" "{self.folder}" | "{REPORT}"'
        for command in (merge, bad, f'"{REPORT}" < /dev/null'):
            said = "tools/report: nothing is recorded: <stdin>\n"
            self.assert_refused(["bash", "-c", command], said)
        texts = ["", "hublog 3\n", "hublog 2\n", "hublog 3\nagent 0\n",
                 "hublog 3\nagent 0\ndeliveries\n"]
        for text in texts:
            with self.subTest(text=text):
                path = self.write("empty", text)
                self.assert_refused([REPORT, path], f"nothing is recorded: {path}\n")
        for name, said in [("none", "No such file"), ("bad.log", "line 3: BadLine")]:
            self.assert_refused([REPORT, self.folder / name], said)
        self.says(len(texts) + 5, "inputs", 10)


class Faults(support.TestCase):
    TOLD = [
        (changed(('got 1 0 0:1 - "two"\n', "")), [
            "wrong: 1 finding",
            "1. Gap at end 1, line 0: passed over, 0:1 is got nowhere",
            '   expected  <stdin>:4  agent 0  put 1 0 0:1 - "two"',
            '   came      <stdin>:9  agent 2  got 1 0 0:2 - "three"',
            "   accepted  0:0 [0:1] 0:2 0:3",
            "   got       0:0 [0:2] 0:3"]),
        # Each that was passed over is told with how many places later it came.
        (swapped('got 1 0 0:0 - "one"', 'got 1 0 0:2 - "three"'), [
            "wrong: 1 finding",
            "1. Gap at end 1, line 0: out of order, 0:0 came 2 places later",
            "   accepted  [0:0] 0:1 0:2 0:3",
            "   got       [0:2] 0:1 0:0 0:3"]),
        # Agent 3 adopts the end, and gets again what agent 2 had got. The line goes on behind.
        (changed(('got 1 0 0:1 - "two"', 'agent 3\nadopted 1 1\ngot 1 0 0:0 - "one"')), [
            "wrong: 2 findings",
            "1. Twice at end 1, line 0: 0:0 was got twice",
            '   before  <stdin>:8   agent 2  got 1 0 0:0 - "one"',
            '   came    <stdin>:11  agent 3  got 1 0 0:0 - "one"',
            '   next    <stdin>:4   agent 0  put 1 0 0:1 - "two"',
            "   > adopted by agent 3 (<stdin>:10)",
            "2. Gap at end 1, line 0: passed over, 0:1 is got nowhere"]),
        (changed(('got 1 0 0:2 - "three"', 'got 1 0 0:2 7 "three"')), [
            "1. Changed at end 1, line 0: 0:2 was got with other ports than it was put",
            '   put   <stdin>:5   agent 0  put 1 0 0:2 - "three"',
            '   came  <stdin>:10  agent 2  got 1 0 0:2 7 "three"']),
        (changed(('got 1 0 0:1 - "two"', 'got 1 0 0:7 - "two"')), [
            "wrong: 2 findings",
            "1. Foreign at end 1, line 0: 0:7 was got, and nobody put it there",
            '   came  <stdin>:9  agent 2  got 1 0 0:7 - "two"',
            "   The same was put as 0:1 at end 1, line 0, by agent 0 (<stdin>:4).",
            "2. Gap at end 1, line 0: passed over, 0:1 is got nowhere"]),
        (changed(("put 1 0 0:3 notice", "put 1 0 0:2 notice"), ('put 1 0 0:2 - "three"\n', ""))
         .replace('got 1 0 0:2 - "three"', "got 1 0 0:2 notice")
         .replace("got 1 0 0:3 notice", 'got 1 0 0:3 - "more"'), [
            "1. AfterNotice at end 1, line 0: 0:3 was got after the notice of its line, which is"
            " the last",
            "   notice  <stdin>:9   agent 2  got 1 0 0:2 notice",
            '   came    <stdin>:10  agent 2  got 1 0 0:3 - "more"']),
        # What follows behind one fault, alike, is one finding.
        (swapped('got 1 0 0:2 - "three"', "closed 1"), [
            "wrong: 1 finding",
            "1. AfterClose at end 1, line 0: 2 messages, 0:3 first, were got after the end was"
            " closed",
            "   closed    <stdin>:10  agent 2  closed 1",
            "   came      <stdin>:11  agent 2  got 1 0 0:3 notice",
            '   and last  <stdin>:12  agent 2  got 1 0 0:2 - "three"']),
    ]

    def test_told(self):
        for text, lines in self.TOLD:
            with self.subTest(lines=lines):
                found = report(text)
                self.assertEqual(found.status, 1, found)
                said = found.output.decode().splitlines()
                self.assertEqual([line for line in lines if line not in said], [], said)
        self.says(len(self.TOLD), "faults", 7)
        self.says(sum(len(lines) for _, lines in self.TOLD), "lines", 33)

    def test_rows(self):
        """The first of the faults is the one that `messagehub check` has to name, row by row."""
        rows = [row for row in support.rows("check") if row.status < 2]
        for row in rows:
            with self.subTest(row=row.name):
                entries = verdict.Entries(hublog.read_logs(row.text))
                said = "clean"
                for it in verdict.faults(entries):
                    said = f"fault {it.end} {it.line} {it.place} {it.kind}"
                    break
                self.assertEqual(f"{said}\n".encode(), row.output)
        self.says(len(rows), "rows", 29)

    def test_many(self):
        """Faults of several lines are all told, and counted from the eleventh on."""
        puts = "".join(f"put {end} 0 0:0 - 1\n" for end in range(24))
        gots = "".join(f"got {end} 0 0:{end % 2} - 2\n" for end in range(24))
        text = f"hublog 3\nagent 0\n{puts}agent 1\n{gots}"
        found = report(text).output.decode()
        self.assertIn("wrong: 36 findings\n", found)
        self.assertIn("\n10. Foreign at end 9, line 0: ", found)
        self.assertIn("\nand 26 more: 7 Changed, 7 Foreign, 12 Lost\n", found)
        self.assertEqual(len(kinds(text)[0]), 36)
        self.assertEqual(len(kinds(text, "--most", "3")[0]), 3)
        self.says(36, "findings")


class Rules(support.TestCase):
    def titles(self, text, *words):
        found = report(text, *words).output.decode().splitlines()
        return [line.partition(". ")[2] for line in found if line[:1].isdigit()]

    def check(self, count, rows):
        self.each(rows, "logs", lambda it: self.assertEqual(self.titles(it[0]), it[1]), count)

    def test_not_owner(self):
        """What an agent sent away, what arrived at it and what it adopted, end by end."""
        sent = 'hublog 3\nagent 0\nput 1 0 0:0 17 1\n{}agent 1\ngot 1 0 0:0 17 1\n{}'
        self.check(10, [
            (sent.format("", "adopted 17 1\nclosed 17\n"), []),
            (sent.format("closed 17\n", ""),
             ["NotOwner at end 17: agent 0 closed it after it had sent it away (<stdin>:3)"]),
            (sent.format("", "closed 17\n"),
             ["NotOwner at end 17: agent 1 closed it where it had arrived (<stdin>:5), and was not"
              " adopted"]),
            (sent.format("put 2 0 0:0 17 2\ngot 2 0 0:0 17 2\n", ""),
             ["NotOwner at end 17: agent 0 sent it away after it had sent it away (<stdin>:3)"]),
            (sent.format("put 17 0 0:0 - 1\n", "adopted 17 1\ngot 17 0 0:0 - 1\n"), []),
            (sent.format("put 17 0 0:0 - 1\ngot 17 0 0:0 - 1\n", "adopted 17 1\n"),
             ["NotOwner at end 17: agent 0 got 0:0 there after it had sent it away (<stdin>:3)"]),
            (sent.format("put 17 0 1:0 - 1\nput 17 0 2:0 - 1\n",
                         "adopted 17 1\ngot 17 0 1:0 - 1\ngot 17 0 2:0 - 1\n"),
             ["NotOwner at end 17: agent 1 got 2:0 there from a queue that is newer than its last"
              " adoption of the end"]),
            (sent.format("got 17 0 1:0 - 1\nput 17 0 1:0 - 1\n", "adopted 17 1\n"),
             ["NotOwner at end 17: agent 0 got 1:0 there after it had sent it away (<stdin>:3)",
              "BeforePut at end 17, line 0: 1:0 was got before it was put; 1 agent waits in a"
              " circle"]),
            ("hublog 3\nagent 0\ngot 5 0 1:0 - 1\nagent 1\nput 5 0 1:0 - 1\n",
             ["NotOwner at end 5: agent 0 got 1:0 there from a queue that is newer than its last"
              " adoption of the end"]),
            ("hublog 3\nagent 0\nclosed 2\nclosed 3\nagent 1\nput 1 0 0:0 2 1\ngot 1 0 0:0 2 1\n",
             ["NotOwner at end 2: agent 0 and agent 1 use it without having adopted it, and one"
              " alone can have made it"]),
        ])

    def test_script(self):
        """A script tells who made an end, and whose port a message was posted from."""
        script = self.write("script", '''{"agent":"window","origin":"https://a.example"}
{"agent":"worker","origin":"https://a.example"}
{"channel":["p","q"],"at":0}
{"at":0,"hand":1}
''')
        begin = "hublog 3\nagent 0\nput 1 0 0:0 2 1\n"
        rows = [
            ("put 3 0 0:0 - 1\nagent 1\ngot 1 0 0:0 2 1\nadopted 2 1\n",
             ["NotOwner at p (end 2): agent 0 (window) posted by it, 0:0 at end 3, after it had"
              " sent it away (<stdin>:3)"]),
            ("agent 1\nput 3 0 0:0 - 1\ngot 1 0 0:0 2 1\nadopted 2 1\n",
             ["NotOwner at p (end 2): agent 1 (worker) posted by it, 0:0 at end 3, though it"
              " neither made nor adopted it, as the script says"]),
            ("agent 1\ngot 1 0 0:0 2 1\nadopted 2 1\nput 3 0 0:0 - 1\nput 0 0 0:0 - 1\n", []),
            ("agent 1\ngot 1 0 0:0 2 1\nclosed 3\n",
             ["NotOwner at q (end 3): agent 1 (worker) closed it though it neither made nor adopted"
              " it, as the script says"]),
        ]
        for text, wanted in rows:
            with self.subTest(wanted=wanted):
                found = self.titles(begin + text, "--script", script, "--allow-waiting")
                self.assertEqual(found, wanted)
        left = begin + "agent 1\ngot 1 0 0:0 2 1\nadopted 2 1\nput 0 0 0:0 - 1\n"
        for words, wanted in [([], 1), (["--script", script], 0)]:
            self.assertEqual(report(left, "--allow-left", *words).status, wanted)
            counted = outcome_of([ACCOUNT, "--allow-left", *words], left.encode())
            self.assertEqual(counted.status, wanted, counted)
        bad = self.write("bad", '{"agent":"boss","origin":"x"}\n')
        words = [REPORT, *CHECKER, "--script", bad]
        self.assert_refused(words, "bad: line 1: Syntax", text=left.encode())
        self.says(len(rows) + 3, "logs", 7)

    def test_before_put(self):
        """One circle, of the agents that wait for one another and no other."""
        alone = 'hublog 3\nagent 0\ngot 0 0 0:0 - 1\nput 0 0 0:0 - 1\n'
        three = "".join(
            f"agent {it}\ngot {it} 0 0:0 - 1\nput {(it + 1) % 3} 0 0:0 - 1\n" for it in range(3)
        )
        waiting = "agent 3\ngot 3 0 0:0 - 1\nagent 4\n"
        self.check(3, [
            (alone, ["BeforePut at end 0, line 0: 0:0 was got before it was put; 1 agent waits in a"
                     " circle"]),
            (f"hublog 3\n{three}", ["BeforePut at end 0, line 0: 0:0 was got before it was put;"
                                    " 3 agents wait in a circle"]),
            (f"hublog 3\n{waiting}{three}put 3 0 0:0 - 1\n",
             ["BeforePut at end 0, line 0: 0:0 was got before it was put; 3 agents wait in a"
              " circle"]),
        ])

    def test_put_twice(self):
        """A name that was put three times is one finding, and so is each name."""
        puts = [f"put 1 0 0:{it} - 1\n" for it in (0, 0, 1, 0, 1, 2)]
        gots = [put.replace("put", "got") for put in puts]
        twice = ["PutTwice at end 1, line 0: 0:0 was accepted 3 times",
                 "PutTwice at end 1, line 0: 0:1 was accepted twice"]
        begin = f"hublog 3\nagent 0\n{''.join(puts)}agent 1\n"
        self.check(2, [
            (begin + "".join(sorted(gots)), twice),
            (begin + "".join(gots),
             ["Gap at end 1, line 0: 0:1 came where 0:0 was next",
              "Twice at end 1, line 0: 0:0 was got twice", *twice]),
        ])

    def test_lost(self):
        """What is left where, and what each option lets pass."""
        closed = MOVED.replace("~", "").replace("got 17 0 0:1 - 1\ngot 17 0 0:2 - 2\n", "")
        named = "hublog 3\nagent 0\nput 1 0 0:0 3 1\nput 3 0 0:0 5 2\nput 5 0 0:0 - 3\nclosed 1\n"
        waits = CLEAN.replace('got 1 0 0:2 - "three"\ngot 1 0 0:3 notice\nclosed 1\n', "")
        notice = CLEAN.replace("got 1 0 0:3 notice\n", "")
        rows = [(closed, 1, 0, 0), (named, 1, 0, 0), (waits, 1, 1, 0), (notice, 0, 0, 0),
                (changed(('got 1 0 0:1 - "two"\n', "")), 1, 1, 1)]
        for text, *statuses in rows:
            with self.subTest(text=text):
                for word, status in zip(["--most=1", "--allow-left", "--allow-waiting"], statuses):
                    self.assertEqual(report(text, word).status, status)
                    if word != "--most=1":
                        counted = outcome_of([ACCOUNT, word], text.encode())
                        self.assertEqual(counted.status, status, counted)
        self.assertEqual(
            self.titles(closed),
            ["Lost at end 17, line 0: 2 messages, 0:1 to 0:2, were accepted, and are got nowhere"],
        )
        self.assertIn("   sent away by agent 1 (<stdin>:11), adopted by agent 2 (<stdin>:14)",
                      [line[2:] for line in report(closed).output.decode().splitlines()])
        self.says(3 * len(rows), "verdicts", 15)


class Planted(support.TestCase):
    time_limit = 240

    def test_runs(self):
        """Nothing is found in right runs, and what is planted in some of them is."""
        faults = planted.Planted()
        for seed in range(RUNS):
            script = generator.make(seed)
            run = [PROGRAM, "run"] if IS_BUILT else [SIMULATE, "--seed", str(seed), "run"]
            logs = outcome_of(run, script).output
            self.assertEqual(planted.kinds_of(logs, script), set(), seed)
            if seed % 7 == 0:
                faults.check(self, logs, seed)
        self.says(RUNS, "runs")
        faults.says(self, 5)

    def test_examples(self):
        """Nothing is found in the rows of `run`, by their scripts, nor in the kept runs."""
        rows = [(row.output, row.text) for row in support.rows("run")
                if row.status == 0 and row.output.startswith(b"hublog 3\nagent")]
        rows += [((TESTS / "runs" / f"{name}.out").read_bytes(),
                  (ROOT / "examples" / f"{name}.script").read_bytes())
                 for name in ("two_windows", "service_worker")]
        for logs, script in rows:
            self.assertEqual(planted.kinds_of(logs, script), set(), script[:400])
        self.says(len(rows), "runs", 14)

    def test_wrong_hubs(self):
        """What the logs of the 30 wrong hubs show is found, and nothing in those of the others."""
        names = sorted(wrong.FAULTS)
        commands = [[sys.executable, "-B", TESTS / "planted.py", name] for name in names]
        with concurrent.futures.ThreadPoolExecutor(os.cpu_count()) as pool:
            outputs = list(pool.map(self.ran, commands))
        for name, output in zip(names, outputs):
            with self.subTest(hub=name):
                kinds = output.decode().split()
                if name in planted.SHOWN:
                    self.assertIn(planted.SHOWN[name], kinds)
                else:
                    self.assertEqual(kinds, [])
        self.says(len(names), "wrong hubs", 30)


class Inputs(support.TestCase):
    ADA = 'hublog 3\nagent 0\nput 1 0 0:0 - "one"\nput 1 0 0:1 - "two"\ndeliveries\n'
    BEN = 'hublog 3\nagent 1\ngot 1 0 0:0 - "one"\n{}closed 1\ndeliveries\n'
    RIGHT, WRONG = BEN.format('got 1 0 0:1 - "two"\n'), BEN.format("")

    def report(self, *words):
        return outcome_of([REPORT, *CHECKER, *map(str, words)], cwd=self.folder)

    def test_recorded(self):
        """A folder, its files in any order, and what record/merge makes of them say the same."""
        ada, ben = self.write("ada.log", self.ADA), self.write("ben.log", self.RIGHT)
        (self.folder / "merged").write_bytes(outcome_of([MERGE, self.folder]).output)
        for words in ([self.folder], [ben, ada], ["merged"]):
            found = self.report(*words)
            self.assertEqual((found.errors, found.status), (b"", 0), found)
            self.assertTrue(found.output.startswith(
                b"right: 2 messages accepted and 2 got, by 2 agents at 1 end\n"), found.output)
        self.write("ben.log", self.WRONG)
        said = self.report(".").output.decode().splitlines()
        for line in ["1. Lost at end 1, line 0: 0:1 was accepted, and is got nowhere",
                     '   put     ada.log:4  agent 0 (ada)  put 1 0 0:1 - "two"',
                     "   closed  ben.log:4  agent 1 (ben)  closed 1"]:
            self.assertIn(line, said)
        for words in (["merged", "ada.log"], ["none"], ["merged", "--script", "none"]):
            self.assert_refused([REPORT, *words], cwd=self.folder)
        odd = self.folder / os.fsdecode(b"b\xffr")
        odd.mkdir()
        shutil.copy(ada, odd)
        found = self.report(odd)
        self.assertEqual((found.errors, found.status), (b"", 1))
        self.assertIn(b"/b\\udcffr/ada.log:3", found.output)
        self.says(8, "reports", 8)

    def test_cut(self):
        """What is left is judged, nothing is lost in it, and the agent is named."""
        self.write("ada.log", self.ADA)
        rows = [
            ([], "agent 1 was cut: ben.log", self.RIGHT.removesuffix("deliveries\n")),
            ([], "agent 1 was cut: ben.log", self.RIGHT[:-30]),
            ([], "ben.log was cut before its first entry", "hublog 3\n"),
            ([], "agent 2 has no log", self.RIGHT.replace("closed 1", "meets 2")),
            (["--allow-cut"], "agent 1 was cut: ben.log", self.RIGHT[:-30]),
        ]
        for words, said, ben in rows:
            with self.subTest(said=said, words=words):
                self.write("ben.log", ben)
                found = self.report(".", *words)
                self.assertEqual((found.errors, found.status), (b"", 0 if words else 2), found)
                self.assertIn(f"\n  {said}\n", found.output.decode())
        self.write("ben.log", self.RIGHT.replace("two", "more")[:-12])
        found = self.report(".")
        self.assertEqual(found.status, 1)
        self.assertIn(b"agent 1 was cut", found.output)
        self.assertIn(b"1. Changed at end 1, line 0: 0:1 was got with another body", found.output)
        self.says(len(rows) + 1, "cut logs", 6)

    def test_json(self):
        self.write("ada.log", self.ADA)
        self.write("ben.log", self.WRONG)
        found = json.loads(self.report("--json", ".").output)
        entry = {"role": "first", "agent": 0, "file": "ada.log", "line": 4,
                 "text": 'put 1 0 0:1 - "two"'}
        self.assertEqual(found["findings"][0]["entries"][0], entry)
        self.assertEqual((found["verdict"], found["status"], found["found"]), ("wrong", 1, 1))
        self.says(2, "parts")

    def test_colours(self):
        """They come on a terminal alone, and not where the user wants none."""
        self.write("ada.log", self.ADA)
        self.write("ben.log", self.WRONG)
        self.assertNotIn(b"\033", self.report(".").output)
        rows = [({}, True), ({"NO_COLOR": "1"}, False), ({"TERM": "dumb"}, False)]
        for settings, has_colours in rows:
            reader, writer = pty.openpty()
            words = [REPORT, *CHECKER, self.folder]
            settings = {**os.environ, "TERM": "xterm", **settings}
            subprocess.run(words, env=settings, stdout=writer, check=False)
            self.assertEqual(b"\033[31mwrong" in os.read(reader, 65_536), has_colours)
            os.close(writer)
            os.close(reader)
        self.says(4, "outputs")

    def test_program(self):
        """The program's verdict is told beside, also where it differs, dies or isn't there."""
        rows = [
            ("echo clean", 0, "messagehub check says the same of the faults that it knows: clean"),
            ("echo fault 1 0 2 Gap; exit 1", 1,
             "says otherwise of the faults that it knows: fault 1 0 2 Gap"),
            ("echo out of memory; exit 3", 0, "Judged by tools/report alone"),
            ("kill -9 $$", 0, "Judged by tools/report alone"),
        ]
        for text, status, said in rows:
            with self.subTest(program=text):
                program = self.write("program", f"#!/bin/sh\n{text}\n", 0o755)
                found = outcome_of([REPORT, "--program", program], CLEAN.encode())
                self.assertEqual(found.status, status, found)
                self.assertIn(said, found.output.decode())
                self.assertEqual("ended with status" in found.errors.decode(), "alone" in said)
        self.assert_refused([REPORT, "--program", "/nowhere/at/all"], text=CLEAN.encode())
        shutil.copytree(ROOT / "tools", self.folder / "tools")
        copy = [self.folder / "tools" / "report"]
        self.assertIn(b"Judged by tools/report alone.\n", self.ran(copy, CLEAN.encode()))
        for name in ("embed/out/lib/libvarukoni.so", "embed/python/varukoni.py"):
            self.write(name, "def check(_): return 1, 'fault 1 0 2 Gap\\n'\n")
        self.assertIn(b"the library says otherwise of the faults that it knows: fault 1 0 2 Gap",
                      self.ran(copy, CLEAN.encode(), status=1))
        self.says(len(rows) + 3, "programs", 7)


class Account(support.TestCase):
    WIDE = "end  line  accepted  got  left  when             notice"
    NARROW = "end  line  accepted  got  left  when     notice"
    COUNTED = [
        (changed(('got 1 0 0:2 - "three"\ngot 1 0 0:3 notice\n', ""))
         + "put 20 31 0:0 - 1\nput 20 31 0:1 - 2\ngot 20 31 0:0 - 1\n", 1, [
             WIDE,
             "  1     0         4    2     2  closed, line 10  left",
             " 20    31         2    1     1  waiting          -",
             "",
             "end 1 line 0: 1 message got nowhere, from 0:2 (line 5) on",
             "end 20 line 31: 1 message got nowhere, from 0:1 (line 12) on"]),
        # What was got after the close was left when the end was closed.
        (swapped("got 1 0 0:3 notice", "closed 1") + 'got 1 0 0:3 - "again"\n', 0, [
            WIDE, "  1     0         4    5     1  closed, line 11  left"]),
        # Odd numbers.
        ("hublog 3\nagent 0\n"
         "put 1 0 0:1 - 1\nput 1 0 0:3 - 2\nput 1 0 0:3 - 2\nput 1 0 1:0 - 3\n", 1, [
             NARROW,
             "  1     0         4    0     4  waiting  -",
             "",
             "end 1 line 0: 4 messages got nowhere, from 0:1 (line 3) on",
             "end 1 line 0: its numbers start at 0:1 (line 3), not at 0:0",
             "end 1 line 0: nothing is accepted between 0:1 (line 3) and 0:3 (line 4)",
             "end 1 line 0: 0:3 (line 4) was accepted a second time at line 5"]),
        # Agent 0 made port 5 and sends it; agent 1 adopts it once, and sends it twice.
        ("hublog 3\nagent 0\nput 1 0 0:0 5 1\nagent 1\ngot 1 0 0:0 5 1\nadopted 5 1\n"
         "put 1 0 0:1 5 2\nput 1 0 0:2 5 3\n", 1, [
             NARROW,
             "  1     0         3    1     2  waiting  -",
             "",
             "end 1 line 0: 2 messages got nowhere, from 0:1 (line 7) on",
             "port 5 was sent 2 times, and not adopted between: line 3, line 8"]),
    ]

    def test_counted(self):
        for text, status, lines in self.COUNTED:
            with self.subTest(lines=lines):
                found = self.ran([ACCOUNT], text.encode(), status)
                self.assertEqual(found.decode().splitlines(), lines)
        self.says(len(self.COUNTED), "logs", 4)

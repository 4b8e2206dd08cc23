"""Plays scripts with tools/play: what is wrong with them, where they wait for ever, what came."""

import pathlib
import re
import signal

import support
from support import PROGRAM, ROOT, outcome_of

PLAY = ROOT / "tools" / "play"
WINDOW = '{"agent":"window","origin":"https://a.example"}'
WORKER = '{"agent":"worker","origin":"https://a.example"}'
FRONT = (WINDOW, WORKER, '{"channel":["p","q"],"at":0}')
SENT = '{"at":0,"send":1,"body":1,"transfer":["q"]}'
# What a script has behind FRONT, or whole, and what is told of it.
MISTAKES = [
    (["# two windows", *FRONT], ["line 1: # begins no comment: // does"]),
    ([*FRONT, '{"at":0,"pst":"p","body":1}'],
     ['line 4: "pst" is no action, did you mean "post"?']),
    (['{"agent":"window","orign":"https://a.example"}'],
     ['line 1: unknown field "orign", did you mean "origin"?']),
    ([*FRONT, '{"at":0,"post":"p"}'], ['line 4: "post" needs the field "body"']),
    ([*FRONT, '{"at":0,"post":"p","body":{"x":[1,{"a b":1.50}]}}'],
     ['line 4: body.x[1]["a b"]: 1.50 is no whole number']),
    ([*FRONT, SENT, '{"at":0,"post":"q","body":1}'],
     ['line 5: agent 0 doesn\'t hold "q": sent at line 4']),
    ([*FRONT, '{"at":0,"start":"p"}', WINDOW],
     ['line 5: "agent" stands behind an action, that of line 4: declarations come first']),
    (['{"agent":"iframe","origin":"https://a.example"}'],
     ['line 1: agent: "iframe" is neither "window" nor "worker"']),
    ([*FRONT, '{"at":0,"start":"p",}'],
     ["line 4: column 21: a comma with nothing behind it: a field or } was expected"]),
    ([*FRONT, '{"at":0,"send":7,"body":1}'],
     ["line 4: send: there is no agent 7: agents 0 to 1 are declared"]),
    (["{", '  "agent": "window",', '  "origin": "https://a.example"', "}"],
     ["line 1: the object goes on to line 4: one object a line was expected"]),
    ([*FRONT, '{"at":0,"wait":"1"}'],
     ['line 4: wait: "1" is no whole number from 0 to 4294967295']),
    (['{"agent":"window"}'], ['line 1: "agent" needs the field "origin"']),
    ([*FRONT, '{"at":1,"loaded":"queue"}'],
     ["line 4: loaded: agent 1 is a worker, whose queue is started by itself: a window was "
      "expected"]),
    ([*FRONT, '{"at":0,"start":"p","comment":"begin"}'],
     ['line 4: unknown field "comment": a line with "start" has "start", "at"']),
    ([*FRONT, '{"channel":["p","r"],"at":0}'],
     ['line 4: channel: "p" is declared at line 3: another name was expected']),
    ([*FRONT, '{"at":0,"post":"p","body":1,"transfer":["p"]}'],
     ['line 4: transfer: "p" is the port that posts: others were expected']),
    (['{"agent":"window","origin":"shop.example"}'],
     ['line 1: origin: "shop.example" is no URL: it has no scheme, as "https://shop.example" has']),
    # Several mistakes, and what is meant by a line with one is known behind it.
    (["// comment", '{"agnt":"window","origin":"https://a.example"}', "",
      '{"at":0,"start":"port"}', '{"at":1,"wait":-1,"fro":2}'],
     ['line 2: "agnt" is no action, did you mean "agent"?', 'line 4: start: "port" isn\'t declared',
      'line 5: unknown field "fro": a line with "wait" has "wait", "at"',
      "line 5: wait: -1 is no whole number from 0 to 4294967295",
      "line 5: at: there is no agent 1: agent 0 is declared", "5 mistakes"]),
    (['{"agent":"window","origin":"https://a.example","name":"editor"}',
      '{"at":"edtor","wait":0}', '{"at":"editor","order":3}'],
     ['line 2: at: no agent has the name "edtor", did you mean "editor"?',
      "line 3: order: there is no agent 3: agent 0 is declared", "2 mistakes"]),
]
# What waits for ever behind FRONT, and each line that is told.
RESTS = [
    ([SENT, '{"at":1,"receive":"q"}', '{"at":0,"post":"p","body":1}', '{"at":1,"wait":1}'], [
        "line 7: agent 1 waits for ever for 1 message, in 32 of 32 schedules tried",
        '    "q" was never started; 1 message waits there',
        "    at its queue 1 message was put, 1 came before; who would put more there has ended"]),
    (['{"at":0,"start":"p"}', '{"at":0,"start":"q"}', '{"at":0,"post":"p","body":1}',
      '{"at":0,"wait":2}'], [
        "line 7: agent 0 waits for ever for 2 messages, of which 1 came, in 32 of 32 schedules "
        "tried",
        '    at "q" 1 message was put, 1 came; no line behind puts more there']),
    (['{"at":1,"send":0,"body":1}', '{"at":0,"wait":1}'], [
        "line 5: agent 0 waits for ever for 1 message, in 32 of 32 schedules tried",
        '    its queue was never started: "loaded" or "start" does it; 1 message waits there']),
    (['{"at":0,"wait":1}', SENT, '{"at":0,"loaded":"queue"}', '{"at":1,"receive":"q"}',
      '{"at":1,"send":0,"body":1}', '{"at":1,"fetch":0}'], [
        "line 4: agent 0 waits for ever for 1 message, in 32 of 32 schedules tried",
        "    its queue isn't started before line 6",
        "line 7: agent 1 waits for ever for \"q\", in 32 of 32 schedules tried",
        '    agent 0 has "q", would send it at line 5, and waits at line 4']),
    (['{"at":1,"fetch":0}'], [
        "line 4: agent 1 waits for ever for the queue of agent 0, in 32 of 32 schedules tried",
        "    agent 0 hands its queue on to nobody"]),
]
NOTHING = "right: 0 messages accepted and 0 got, by 2 agents at 1 end"
NOT_RUN = "it wasn't run: --anyway runs it"
TWO = ROOT / "examples" / "two_windows.script"
CAME = """// right: 7 messages accepted and 7 got, by 2 agents at 3 ends
queue of 1:
    {"currency":"EUR","type":"checkout"} with checkout
    {"by":"card","type":"pay"}
    {"type":"focus"}
cart: {"cents":2450,"type":"total"}, {"cents":5650,"type":"total"}
checkout: {"count":1,"item":"teapot","type":"add"}, {"count":4,"item":"cup","type":"add"}
"""
# The same conversation with names, comments and a blank line.
NAMED = """// Two agents with names.
{"agent":"window","origin":"https://a.example","name":"the shop"}
{"agent":"worker","origin":"https://a.example","name":"saver"}

{"channel":["tx","rx"],"at":"the shop"}
  // The port is sent while two messages wait for it.
{"at":"the shop","post":"tx","body":"a"}
{"at":"the shop","post":"tx","body":{"b":-1,"a":"é"}}
{"at":"the shop","send":"saver","body":0,"transfer":["rx"]}
{"at":"saver","receive":"rx"}
{"at":"saver","start":"rx"}
{"at":"saver","wait":2}
"""
# Agent 1 is asked to end, in some schedules before it has sent what agent 0 waits for.
SOMETIMES = [
    WINDOW, WINDOW, '{"at":0,"loaded":"queue"}', '{"at":0,"order":1}', '{"at":0,"wait":1}',
    '{"at":1,"send":0,"body":1}',
]


class Play(support.TestCase):
    def file(self, name, lines, mode=0o644):
        return self.write(name, "".join(f"{line}\n" for line in lines), mode)

    def play(self, script, *words, program=PROGRAM):
        path = script if isinstance(script, pathlib.Path) else self.file("script", script)
        found = outcome_of([PLAY, f"--program={program}", *words, path])
        return found.output.decode(), found.errors.decode().splitlines(), found.status

    def program(self, *lines):
        """A program that checks logs, and runs scripts as the lines say."""
        check = f'[ "$1" = run ] || exec "{PROGRAM}" check'
        return self.file("program", ["#!/bin/sh", check, *lines], 0o755)


class Mistakes(Play):
    def test_mistakes(self):
        self.each(MISTAKES, "scripts",
                  lambda it: self.assertEqual(self.play(it[0]), ("", it[1], 2)), 20)

    def test_strict(self):
        lines = [*FRONT, "", "// more", '{"at":"a","wait":0}']
        wanted = [
            "line 4: the line is empty: one object a line was expected",
            "line 5: a comment: with --strict each line is an object",
            'line 6: at: "a" is no whole number from 0 to 4294967295', "3 mistakes",
        ]
        self.assertEqual(self.play(lines, "--strict"), ("", wanted, 2))
        self.says(len(wanted), "lines")


class Rests(Play):
    def test_rests(self):
        rests = [([*FRONT, *lines], ("", [*told, NOT_RUN], 1)) for lines, told in RESTS]
        self.each(rests, "scripts", lambda it: self.assertEqual(self.play(it[0]), it[1]), 5)

    def test_sometimes(self):
        _, errors, _ = self.play(SOMETIMES, "--timeout=1")
        self.assertEqual(errors[0], "warning: it may wait for ever")
        found = re.search(r"in (\d+) of 32 schedules tried", errors[1])
        self.assertIn(int(found[1]), range(1, 32))
        self.says(int(found[1]), "schedules")

    def test_time_out(self):
        """What runs on is ended, and it is told what each agent had still to do."""
        lines, pid = RESTS[0][0], self.folder / "pid"
        sleeper = self.program(f'echo $$ > "{pid}"', "exec sleep 60")
        cases = [
            ([*FRONT, *lines], ["agent 0 would have ended", "agent 1 would stand at line 7"]),
            ([*FRONT, '{"at":0,"wait":0}'],
             ["none of 32 schedules tried waits for ever; lines that wait are", "agent 0: 4"]),
        ]
        for script, wanted in cases:
            output, errors, status = self.play(script, "--anyway", "--timeout=0.2", program=sleeper)
            at = errors.index("it didn't end within 0.2 s, and was ended; still to do:")
            self.assertEqual(errors[at + 1 :], [f"    {it}" for it in wanted])
            self.assertEqual((output, status), ("", 1))
            self.assertFalse(support.is_running(pid.read_text("utf-8").strip()))
        self.says(len(cases), "runs")

    def test_interrupted(self):
        pid = self.folder / "pid"
        program = self.program(f'echo $$ > "{self.folder}/new"', f'mv "{self.folder}/new" "{pid}"',
                               "exec sleep 60")
        with support.begun([PLAY, f"--program={program}", TWO], pid.exists) as play:
            play.send_signal(signal.SIGINT)
            self.assertEqual((play.communicate()[1], play.returncode), (b"", -signal.SIGINT))
        self.assertFalse(support.is_running(pid.read_text("utf-8").strip()))
        self.says(1, "run")

    def test_hangs(self):
        """The program itself waits for ever where the schedules do."""
        for lines, _ in RESTS:
            _, errors, status = self.play([*FRONT, *lines], "--anyway", "--timeout=0.5")
            self.assertEqual((errors[0], status), ("warning: it may wait for ever", 1))
            self.assertIn("it didn't end within 0.5 s, and was ended; still to do:", errors)
        self.says(len(RESTS), "scripts", 5)


class Runs(Play):
    def test_deliveries(self):
        output, errors, status = self.play(TWO)
        self.assertEqual((output, errors, status), (CAME, [], 0))
        self.says(output.count("\n"), "lines")

    def test_names(self):
        output, errors, status = self.play(self.write("named", NAMED))
        # (Which port is closed first, with a notice to the other, is decided by the threads.)
        head, *lines = output.splitlines()
        self.assertRegex(head, "^// right: 3 messages accepted and 3 got, by 2 agents at [23] end")
        wanted = ["queue of saver: 0 with rx", 'rx: "a", {"a":"é","b":-1}']
        self.assertEqual((lines, errors, status), (wanted, [], 0))
        self.says(2, "ends")

    def test_nothing_to_do(self):
        """Lines that end in CR LF, and declarations alone."""
        for ending in ("", "\r"):
            found = self.play([line + ending for line in FRONT])
            self.assertEqual(found, (f"// {NOTHING}\n", [], 0))
        self.assertEqual(self.play([]), ("", ["the script has no agents"], 0))
        self.says(3, "scripts")

    def test_expect(self):
        """Each line of what is expected, and what is told where it doesn't come."""
        rows = [
            ([CAME], []),
            (["cart: *", "queue of 1: *, {\"type\": \"focus\"}", "queue of 0:", "checkout:",
              "  *", '  {"type":"add","item":"cup","count":4}'], []),
            (['cart: {"cents":2450,"type":"total"}'],
             ['cart: expected {"cents":2450,"type":"total"}',
              '      and got {"cents":2450,"type":"total"}, {"cents":5650,"type":"total"}']),
            (["queue of 0: 1, *"], ["queue of 0: expected 1, *", "            and got nothing"]),
        ]
        for lines, wanted in rows:
            path = self.file("wanted", ["// what comes", *lines])
            _, errors, status = self.play(TWO, f"--expect={path}")
            self.assertEqual((errors, status), (wanted, 1 if wanted else 0))
        self.says(len(rows), "files")

    def test_bad_expectations(self):
        rows = [
            ("carts: 1", 'the script has no carts, did you mean "cart"?'),
            ("cart: 1.5", "1.5 is no message: JSON or * was expected"),
            ("cart: 1 2", "a comma was expected before 2"),
            ("cart: 1 with desk", "the script has no desk"),
            ("  1", 'a name and a colon were expected, as in `rx: "a", "b"`'),
        ]
        for line, why in rows:
            path = self.file("wanted", [line])
            found = self.play(TWO, f"--expect={path}")
            self.assertEqual(found, ("", [f"{path}: line 1: {why}"], 2))
        self.says(len(rows), "lines")

    def test_repeat(self):
        """Two programs that take turns: each outcome is told once, and how often it came."""
        outs = []
        for at, body in enumerate(["1", "2"]):
            logs = ["hublog 3", "agent 0", f"put 1 0 0:0 - {body}", "agent 1",
                    f"got 1 0 0:0 - {body}", "deliveries", "end 1 line 0 0:0", "clean"]
            outs.append(self.file(f"out{at}", logs))
        count = self.folder / "count"
        turns = self.program(
            f'echo x >> "{count}"', f'n=$(wc -l < "{count}")',
            f'[ $((n % 3)) != 0 ] || exec cat "{outs[1]}"', f'exec cat "{outs[0]}"',
        )
        output, errors, status = self.play(list(FRONT), "--repeat=6", program=turns)
        wanted = ["// right: 1 message accepted and 1 got, by 2 agents at 1 end",
                  "// 6 runs, 2 outcomes", "queue of 1: 1", "// in 2 of 6 runs", "queue of 1: 2"]
        self.assertEqual((output.splitlines(), errors, status), (wanted, [], 0))
        self.says(6, "runs")

    def test_what_the_program_says(self):
        """A refusal stands at the file's line; any other status ends the command."""
        rows = [
            (["echo line 3: Syntax", "exit 2"], ["line 4: the program refuses it: Syntax"], 2),
            (["echo out of memory", "exit 3"], ["the program ended with 3: out of memory"], 3),
            (["echo hublog 9"], ["the logs of the run can't be read: line 1: BadHeader"], 1),
        ]
        for lines, wanted, status in rows:
            found = self.play(["// a comment", *FRONT], program=self.program(*lines))
            self.assertEqual(found, ("", wanted, status))
        self.says(len(rows), "programs")

    def test_report(self):
        """What tools/report finds in the logs of a run is told, with its status."""
        rows = [
            (["got 1 0 0:0 - 1", "agent 0", "closed 0"], 1, "1. Foreign at queue of agent 1"),
            (["got 2 0 0:0 - 1", "agent 0", "put 2 0 0:0 - 1"], 0, "1. NotOwner at p (end 2)"),
        ]
        for entries, status, title in rows:
            bad = self.file("bad", ["hublog 3", "agent 1", *entries, "deliveries", "-"])
            program = self.program(f'cat "{bad}"', f"exit {status}")
            output, errors, status = self.play(list(FRONT), program=program)
            self.assertEqual((output, status), ("", 1))
            self.assertTrue(any(line.startswith(title) for line in errors), errors)
        self.says(len(rows), "findings")

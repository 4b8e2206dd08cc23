"""Runs whose threads can't be made, and runs that wait for ever.

A library, made with cc from refuse.c, refuses the Nth thread of a run. All agents are ordered to
end then, and `out of memory` is printed alone. A run that waits for what nobody sends takes no
processor time, is ended by SIGINT and SIGTERM at once, and prints nothing.
"""

import contextlib
import os
import signal
import subprocess
import time
from pathlib import Path

import support
from support import PROGRAM, Outcome

# An agent that waits for a message of which there is none, and one that waits for its port.
WAITING = b"""{"agent":"window","origin":"https://a.test"}
{"agent":"worker","origin":"https://a.test"}
{"channel":["p","q"],"at":0}
{"at":0,"post":"p","body":1}
{"at":0,"wait":1}
{"at":1,"receive":"q"}
"""
# How many threads it has once both agents wait.
THREADS = 3
SECONDS = 20
# What it may take to end.
MOST_DELAY = 2
# Which part of the time that passes it may take of a processor while it waits.
MOST_BUSY = 0.1


class Refused(support.RefusingCase):
    def test_threads(self):
        row = support.row("run", "ring-of-sixteen")
        refused = 0
        for number in range(1, 100):
            with self.subTest(thread=number):
                found, was_refused = self.refuser.outcome(
                    [PROGRAM, "run"], row.text, "REFUSED_THREAD", number
                )
                wanted = Outcome(b"out of memory\n", b"", 3) if was_refused else row.wanted()
                self.assert_outcome(found, wanted)
            refused += was_refused
            if not was_refused:
                break
        self.says(refused, "threads", 16)


class Waiting(support.TestCase):
    @contextlib.contextmanager
    def waiting(self):
        with support.begun([PROGRAM, "run"], lambda: True, stdin=subprocess.PIPE) as run:
            run.stdin.write(WAITING)
            run.stdin.close()
            run.stdin = None
            tasks = Path(f"/proc/{run.pid}/task")
            support.wait_until(lambda: len(list(tasks.iterdir())) >= THREADS, SECONDS)
            # A run that would end by itself would have ended by now.
            time.sleep(0.5)
            self.assertIsNone(run.poll())
            yield run

    def end(self, number):
        """Ends a run that waits, and tells what it printed, its status and how long it took."""
        with self.waiting() as run:
            begun = time.monotonic()
            run.send_signal(number)
            output, errors = run.communicate(timeout=SECONDS)
            return Outcome(output, errors, run.returncode), time.monotonic() - begun

    def test_signals(self):
        signals = [signal.SIGINT, signal.SIGTERM]
        for number in signals:
            with self.subTest(signal=number.name):
                found, seconds = self.end(number)
                self.assert_outcome(found, Outcome(b"", b"", -number))
                self.assertLess(seconds, MOST_DELAY)
        self.says(len(signals), "signals", 2)

    def test_sleep(self):
        with self.waiting() as run:
            begun, used = time.monotonic(), processor_seconds(run.pid)
            time.sleep(1)
            passed = time.monotonic() - begun
            self.assertLess(processor_seconds(run.pid) - used, MOST_BUSY * passed)
        self.says(THREADS, "threads", 3)


def processor_seconds(process):
    """What the threads of a process have taken of processors so far."""
    fields = Path(f"/proc/{process}/stat").read_text(encoding="utf-8").rpartition(")")[2].split()
    # Behind the name come the state and the fields from the fourth on; these are 14 and 15.
    return (int(fields[11]) + int(fields[12])) / os.sysconf("SC_CLK_TCK")

"""Fails each read and each write of the program in turn, over a row with every step line.

A library, made with cc from refuse.c, gives standard input and takes standard output one byte a
call, and fails the Nth read or write. After a failed read nothing may be written; after a failed
write what went out is as many bytes as were taken before. Either way standard error has the one
line that says so, and the status is 4. Where no call is reached that fails, the answer is the whole
one.
"""

import functools

import support
from support import PROGRAM, Outcome

MESSAGE = b"input or output failed\n"


class Streams(support.RefusingCase):
    shows = frozenset({"status 4", "input or output failed"})
    time_limit = 300

    @functools.cached_property
    def row(self):
        return support.row("steps", "every")

    def fail_in_turn(self, setting, output_after, calls):
        """Fails so many calls in turn, and then none."""
        for number in range(1, calls + 2):
            found, has_failed = self.refuser.outcome(
                [PROGRAM, self.row.mode], self.row.text, setting, number
            )
            with self.subTest(call=number):
                self.assertEqual(has_failed, number <= calls)
                wanted = Outcome(output_after(number), MESSAGE, 4)
                self.assert_outcome(found, wanted if has_failed else self.row.wanted())
        self.says(calls, "calls", 100)

    def test_reads(self):
        """There is one read for each byte, and one that finds the end."""
        self.fail_in_turn("REFUSED_READ", lambda number: b"", len(self.row.text) + 1)

    def test_writes(self):
        output = self.row.output
        self.fail_in_turn("REFUSED_WRITE", lambda number: output[: number - 1], len(output))

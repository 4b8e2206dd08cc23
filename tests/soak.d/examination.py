"""Examines one run of a script: every check that tests/soak makes of it."""

import collections
import random

import changes
import fates
import hublog
import hubscript
import verdict

# A program's answer: its standard output, and its status, which is None where its time was over.
Answer = collections.namedtuple("Answer", "output status")


class Examination:
    """One script, the answer of `run`, and what was found, as pairs of a check and a complaint."""

    def __init__(self, data, run, check):
        self.data, self.script = data, hubscript.read(data)
        self.answer, self.check = run(data), check
        self.found = []
        # The logs, once they were read.
        self.logs = None

    def complain(self, check, text):
        self.found.append((check, text))

    def examine(self):
        """Later checks rest on those before, so the first that finds something is the last."""
        checks = (
            self.test_end, self.test_judge, self.test_fates, self.test_check, self.test_report,
        )
        for check in checks:
            check()
            if self.found:
                break

    def test_report(self):
        """What was left is allowed where the script, or a close, leaves it."""
        entries = verdict.Entries(self.logs)
        known = verdict.known_of(self.data)
        kinds = {it.kind for it in verdict.verdict(entries, known, allow_left=True)}
        if kinds:
            self.complain("report", f"tools/report finds {', '.join(sorted(kinds))}")

    def test_end(self):
        status, last = self.answer.status, self.answer.output.decode(errors="replace")[-80:]
        if status is None:
            self.complain("time", "it didn't end within its time")
        elif status != 0 or not last.endswith("\nclean\n"):
            self.complain("status", f"status {status}, the last line is {last.splitlines()[-1:]}")

    def test_judge(self):
        try:
            self.logs = hublog.read_logs(self.answer.output)
        except hublog.BadInput as bad:
            self.complain("judge", f"tools/judge can't read the logs: {bad}")
            return
        judged = hublog.judge(self.logs)
        if judged != "clean":
            self.complain("judge", f"tools/judge says {judged}")
        _, mark, tail = self.answer.output.partition(b"\ndeliveries\n")
        if not mark or tail.decode().split("\n")[:-2] != hublog.deliveries(self.logs):
            self.complain("deliveries", "the deliveries aren't those of the logs")

    def test_fates(self):
        found = fates.complaints(self.script, self.logs)
        if found:
            self.complain("fates", "; ".join(found[:3]))

    def test_check(self):
        answer = self.check(self.answer.output)
        if answer != (b"clean\n", 0):
            self.complain("check", f"check says {answer.output} with status {answer.status}")

    def test_changed(self, seed):
        """Changes the logs, and compares what `check` and tools/judge say of that.

        Answers the name of the change, or None where nothing was got, and there is nothing to
        change.
        """
        changed = changes.change(self.answer.output, random.Random(seed))
        if changed is None:
            return None
        output, name = changed
        answer = self.check(output)
        said, status = hublog.answer(output)
        if status != 1:
            self.complain("changed", f"tools/judge says {said} of {name}")
        if answer != (f"{said}\n".encode(), status):
            self.complain("changed", f"check says {answer} of {name}, and tools/judge {said}")
        return name

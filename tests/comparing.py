"""What a program gave: its output, errors and status, and how two of these are compared."""

import re
import subprocess
import typing


class Outcome(typing.NamedTuple):
    """What a program gave: standard output, standard error and exit status."""

    output: bytes
    errors: bytes
    status: int

    def settled(self):
        """The same of a run, without the order that a schedule changes."""
        return self._replace(output=settled(self.output))


def outcome_of(words, text=b"", seconds=60, **options):
    """Runs a program on a text, or on the `stdin` of the options where the text is None."""
    if text is not None:
        options["input"] = text
    run = subprocess.run(
        words, stdout=subprocess.PIPE, stderr=subprocess.PIPE, timeout=seconds, **options
    )
    return Outcome(run.stdout, run.stderr, run.returncode)


def first_difference(found, wanted):
    """The first line in which two texts differ, or None."""
    found, wanted = found.split(b"\n"), wanted.split(b"\n")
    if found == wanted:
        return None
    pairs = enumerate(zip(found, wanted), 1)
    least = min(len(found), len(wanted)) + 1
    at = next((at for at, (one, other) in pairs if one != other), least)
    one, other = ((lines[at - 1 : at] or [b"(nothing)"])[0][:200] for lines in (found, wanted))
    return f"line {at}: {one} in place of {other}"


def settled(output):
    """What a run printed, with the entries of each log in an order that no schedule changes.

    Two threads decide at which place of its log an agent gets an envelope. Fixed is the order in
    which it puts and closes, and the order of what it gets on one line, each with the adoptions
    behind it: so what it gets is moved to the end of its log, line by line.
    """
    logs, mark, rest = output.partition(b"deliveries\n")
    moved = []
    for log in re.split(rb"^(?=agent )", logs, flags=re.MULTILINE):
        own, got, block, due = [], {}, [], ()
        for entry in log.splitlines(keepends=True):
            words = entry.split()
            if words[:1] == [b"got"]:
                block = got.setdefault(tuple(words[1:3]), [])
                block.append(entry)
                due = b"".join(words[4:5]).split(b",")
            elif words[:1] == [b"adopted"] and words[1] in due:
                block.append(entry)
            else:
                own.append(entry)
        moved += own + [entry for line in sorted(got) for entry in got[line]]
    return b"".join(moved) + mark + rest

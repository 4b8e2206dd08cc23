"""Reads the rows: whole inputs of a mode, with the output and the status that each has to give.

They stand in the files tests/rows/MODE/SUBJECT.rows, whose form CONTRIBUTING.md shows.
"""

import dataclasses
import itertools
import pathlib
import re

from comparing import Outcome

ROWS = pathlib.Path(__file__).resolve().parent / "rows"
# The modes of the program that have rows, and `turns`, which `hub_player loops` plays.
FOLDERS = ("steps", "run", "check", "turns")
ORIGINS = ("given", "derived")

HEAD = re.compile(r"=== ([\w.-]+) \((%s)\)" % "|".join(ORIGINS))
WHOLE = re.compile(r"--- status (\d+)")
EACH = re.compile(r"--- each, status (\d+)")
# What stands between the output of the common front and the lines of a table.
TABLE = "---"
# The parts of a line that stand for other text.
TURNS = re.compile(r"(\d+) times: (.*)")
COUNTER = re.compile(r"\{(\d+)\+(\d+)\}")
REPEATED = re.compile(r"\{(\d+)\*([^{}]+?)\}")
BYTE = re.compile(rb"\{byte ([0-9A-F]{2})\}")
CHOICE = re.compile(r"\{(\w+(?:\|\w+)+)\}")
NO_LAST_LF = b"{no LF}\n"


class BadRows(Exception):
    """A file of rows is not in the form of one."""


@dataclasses.dataclass(frozen=True)
class Row:
    """A whole input of a mode, with what it has to give and the reason why it stands there."""

    mode: str
    name: str
    text: bytes
    output: bytes
    status: int
    origin: str = "derived"
    shows: str = ""

    def wanted(self):
        return Outcome(self.output, b"", self.status)


def made_by(lines):
    """The bytes that the lines of a file stand for."""
    made = []
    for line in lines:
        turns = TURNS.fullmatch(line)
        if not turns:
            made.append(line)
            continue
        for turn in range(int(turns[1])):
            made += [COUNTER.sub(lambda it: str(int(it[1]) + turn * int(it[2])), part)
                     for part in turns[2].split("; ")]
    text = "".join(REPEATED.sub(lambda it: it[2] * int(it[1]), line) + "\n" for line in made)
    bytes_ = BYTE.sub(lambda it: bytes([int(it[1], 16)]), text.encode())
    return bytes_.replace(NO_LAST_LF, b"")


def chosen(lines):
    """The lines once for each way to choose from what stands as {1|2|3} in them."""
    text = "\n".join(lines)
    parts = CHOICE.split(text)
    for choice in itertools.product(*(part.split("|") for part in parts[1::2])):
        whole = [*itertools.chain.from_iterable(zip(parts[::2], choice)), parts[-1]]
        yield "".join(whole).split("\n")


def table(front, given, lines):
    """The inputs and outputs of a table: each of its lines behind the same front."""
    for line in lines:
        asked, arrow, told = line.rpartition(" -> ")
        if not arrow:
            raise BadRows(f"no arrow in the line: {line}")
        told = told.split("; ") if told else []
        for text in chosen([*front, *asked.split("; ")]):
            yield text, given + told


def rows_in(mode, head, lines):
    name, origin = head
    shows = list(itertools.takewhile(lambda it: it.startswith("// "), lines))
    rest = lines[len(shows):]
    at = next((at for at, line in enumerate(rest) if line.startswith("--- ")), None)
    if at is None or not shows:
        raise BadRows(f"{name}: no line tells what it shows, or none its status")
    shown = " ".join(line.removeprefix("// ") for line in shows)
    front, behind = rest[:at], rest[at + 1:]
    whole, each = WHOLE.fullmatch(rest[at]), EACH.fullmatch(rest[at])
    if whole:
        yield Row(mode, name, made_by(front), made_by(behind), int(whole[1]), origin, shown)
    elif each:
        cut = behind.index(TABLE) + 1 if TABLE in behind else 0
        given = behind[:max(0, cut - 1)]
        for number, (text, told) in enumerate(table(front, given, behind[cut:]), 1):
            text, told = made_by(text), made_by(told)
            yield Row(mode, f"{name}/{number}", text, told, int(each[1]), origin, shown)
    else:
        raise BadRows(f"{name}: {rest[at]}")


def read(path):
    mode, found = path.parent.name, []
    parts = re.split(r"^(=== .*)\n", path.read_text(encoding="utf-8"), flags=re.MULTILINE)
    if any(line and not line.startswith("// ") for line in parts[0].split("\n")):
        raise BadRows(f"{path.name}: something stands before the first row")
    for head, text in zip(parts[1::2], parts[2::2]):
        words = HEAD.fullmatch(head)
        if not words:
            raise BadRows(f"{path.name}: {head}")
        # An empty line stands between two rows.
        is_last = text is parts[-1]
        if not text.endswith("\n" if is_last else "\n\n"):
            raise BadRows(f"{path.name}: no empty line behind {words[1]}")
        found += rows_in(mode, words.groups(), text[:-1 if is_last else -2].split("\n"))
    return found


def rows(mode):
    found = [row for path in sorted((ROWS / mode).glob("*.rows")) for row in read(path)]
    return sorted(found, key=lambda row: row.name)


def row(mode, name):
    return next(row for row in rows(mode) if row.name == name)

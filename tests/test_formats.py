"""Looks that something shows each word of docs/FORMATS.md: outcomes, refusals, verdicts, statuses.

Rows show nearly all of them. What no input can show, such as a write that fails, is shown by the
tests that say so (`shows`). A word that is added to the tables of the page fails here until a row
has it.
"""

import re
import unittest

import support
from support import MODES, ROOT, TESTS

FORMATS = ROOT / "docs" / "FORMATS.md"

# What stands for each word in capital letters of an outcome.
PLACES = {
    "LIST": r"[\d,]+",
    "BODY": r".+",
    "STATE": r"[a-z]+",
    **dict.fromkeys(["EP", "A", "E", "F", "L", "N"], r"\d+"),
}
PLACE = re.compile("|".join(PLACES))
DIGITS = re.compile(r"\d+")


def section(name):
    text = FORMATS.read_text(encoding="utf-8")
    return text.partition(f"\n## {name}\n")[2].partition("\n## ")[0]


def tables(text):
    """The tables of a text: the cells of the head, and those of each line."""
    for block in re.findall(r"(?:^\|.*\n)+", text, re.MULTILINE):
        lines = [
            [cell.strip() for cell in re.split(r"(?<!\\)\|", line)[1:-1]]
            for line in block.splitlines()
        ]
        yield lines[0], lines[2:]


def column(name, head, place):
    found = [lines for cells, lines in tables(section(name)) if cells == head]
    return [line[place] for lines in found for line in lines]


def quoted(text):
    return re.findall(r"`([^`]+)`", text)


def list_behind(mark, text):
    """The words of a list such as 'X is `one`, `two` or `three`'."""
    found = re.search(mark + r" is ((?:`[a-z]+`(?:, | or )?)+)", text)
    return quoted(found[1]) if found else []


def pattern_of(outcome):
    """A form such as `got EP:N from L BODY`, as the pattern of the lines that have it."""
    words = outcome.removesuffix(" ..")
    tail = ".*" if words != outcome else ""
    return PLACE.sub(lambda it: PLACES[it[0]], re.escape(words).replace(r"\ ", " ")) + tail


def outcomes():
    head = ["Step line", "What it does", "Outcomes besides `not-now`"]
    forms = {"not-now"}
    for cell in column("Step lines", head, 2):
        forms.update(quoted(re.sub(r"as `\w+`,?", "", cell)))
    for cell in column("Step lines", ["Outcome", "Meaning", "Example"], 0):
        forms.update(quoted(cell))
    patterns = {}
    for form in forms:
        if form.startswith("cast E "):
            # What each destination answers.
            for answer in re.split(r" [EFG] ", form)[1:]:
                patterns[f"cast .. {answer}"] = r"cast .*\d+ " + pattern_of(answer) + ".*"
        elif form == "state STATE":
            for state in list_behind("`STATE`", section("Step lines")):
                patterns[f"state {state}"] = f"state {state}"
        else:
            patterns[form] = pattern_of(form)
    return patterns


def lines_of(mode):
    """The lines of all outputs of a mode. Of lines that differ in numbers alone one is enough."""
    found = set()
    for row in support.rows(mode):
        found.update(DIGITS.sub("0", line) for line in row.output.decode().split("\n"))
    return found


def words_of_inputs(mode):
    """The words of all inputs of a mode, those of bad ones too."""
    found = set()
    for row in support.rows(mode):
        found.update(re.findall(r"[a-z]+", row.text.decode(errors="replace")))
    return found


def shown_by_tests():
    """What tests show that compare no rows."""
    found, suites = set(), [unittest.TestLoader().discover(str(TESTS), "test_*.py")]
    while suites:
        it = suites.pop()
        if isinstance(it, unittest.TestSuite):
            suites += it
        else:
            found |= getattr(it, "shows", frozenset())
    return found


class Words(support.TestCase):
    def find(self, wanted, is_shown, things, floor):
        missing = sorted(word for word in wanted if not is_shown(word))
        self.assertEqual(missing, [], f"{things} that nothing shows")
        self.says(len(wanted), things, floor)

    def test_outcomes(self):
        patterns, lines = outcomes(), lines_of("steps")
        self.find(
            patterns,
            lambda form: any(re.fullmatch(patterns[form], line) for line in lines),
            "outcomes",
            55,
        )

    def test_refusals(self):
        for mode, name, head, place, floor in [
            ("steps", "Bad input", ["Kind", "Meaning", "Example"], 0, 12),
            ("run", "Scripts", ["", "Kind", "Meaning", "Example"], 1, 7),
        ]:
            kinds = {word for cell in column(name, head, place) for word in quoted(cell)}
            shown = {line.removeprefix("line 0: ") for line in lines_of(mode)}
            kinds = {DIGITS.sub("0", kind) for kind in kinds}
            self.find(kinds, shown.__contains__, f"refusals of {mode}", floor)

    def test_verdicts(self):
        words = {
            word
            for cell in column("Logs", ["Kind", "Meaning", "Example"], 0)
            for word in quoted(cell)
        }
        lines = lines_of("check") | {"clean"}
        shown = {line.split(" ")[-1] for line in lines if line.startswith(("line 0: ", "fault "))}
        self.assertIn("clean", lines_of("check"))
        self.find(words, shown.__contains__, "verdicts", 8)

    def test_statuses(self):
        statuses = column("Exit statuses", ["Status", "When"], 0)
        shown = {str(row.status) for mode in MODES for row in support.rows(mode)}
        shown |= {it.removeprefix("status ") for it in shown_by_tests()}
        self.find(statuses, shown.__contains__, "statuses", 6)

    def test_messages(self):
        """What is printed beside a status, such as `out of memory`."""
        cells = column("Exit statuses", ["Status", "When"], 1)
        words = {word.replace("\\|", "|") for cell in cells for word in quoted(cell)}
        messages = {word for word in words if " " in word}
        shown = shown_by_tests()
        if any(line.startswith("line 0: ") for line in lines_of("steps")):
            shown.add("line N: KIND")
        self.find(messages, shown.__contains__, "messages", 4)

    def test_inputs(self):
        head = ["Step line", "What it does", "Outcomes besides `not-now`"]
        steps = {quoted(cell)[0].split(" ")[0] for cell in column("Step lines", head, 0)}
        events = set(list_behind("`WORD`", section("Step lines")))
        shown = words_of_inputs("steps")
        self.find(steps | events, shown.__contains__, "words of step lines", 30)
        fields = set()
        for cell in column("Scripts", ["Script line", "Meaning"], 0):
            fields.update(re.findall(r'"(\w+)":', quoted(cell)[0]))
        shown = words_of_inputs("run")
        self.find(fields, shown.__contains__, "fields of script lines", 18)
        entries = {
            word.split(" ")[0]
            for cell in column("Logs", ["Entry", "What it says"], 0)
            for word in quoted(cell)
        }
        shown = words_of_inputs("check")
        self.find(entries, shown.__contains__, "entries of logs", 4)

"""Counts the names that two library crates share, and the short files of the crates' sources, and
draws functions for a reader.

Whoever meets a name has to ask which crate's it is where two have it. So the types of `src/` that
two share, and the words that `specs/` defines, are few and stand below, each with the reason. Who
adds one renames it, or says here why both have that name.
"""

import collections
import random
import re
import subprocess
import unittest

import support
from support import ROOT

import cratelist

TYPE = re.compile(r"^(?:pub(?:\(\w+\))? )?(?:struct|enum|trait|type) (\w+)", re.MULTILINE)
# A definition may take arguments in front of its colon: `pub record IsNext (..) : Type 0 where`.
WORD = re.compile(r"^(?:\w+ )*pub (?:(?:data|record) )?(?!mod |use )(\S+)", re.MULTILINE)

# A function, and what it is written for; a method is known by that one's name, or by its trait's
# where it is written for a type parameter.
FUNCTION = re.compile(r"^(?:impl\b(?P<impl>[^{]*)|\s*(?:pub(?:\(\w+\))? )?fn (?P<name>\w+))")

PARAMETER = re.compile(r"[A-Z]")

# Each name that two crates share, with the reason.
TYPES = {
    "Action": "what a step of the machine does; an action of a script is a few of these",
    "Agent": "the machine's agent, and the one that acts it out on a thread",
    "Roster": "the members in the machine, and those of a run",
}
WORDS = {
    "InOrder": "what is asked or taken comes in the order that the word's arguments give",
    "accepted": "the accepted list of a line, of a history and of logs",
    "looked": "what is so after a look: of a taker at its end, and of a listener at its names",
    "◌>>=◌": "one reading or computation after the other, as the sign says",
}

MOST_TYPES, MOST_WORDS = 3, 20
FEWEST_LINES, MOST_SHORT_FILES = 50, 60
DRAWN = 20


def library_crates():
    """The crates but for those that docs/ARCHITECTURE.md lists as examples or tests."""
    page = (ROOT / "docs" / "ARCHITECTURE.md").read_text("utf-8")
    rows = re.findall(r"^\| (?:examples|tests) \| (.*) \|$", page, re.MULTILINE)
    others = set(re.findall(r"`(\w+)`", " ".join(rows)))
    return [name for name in cratelist.lines() if name not in others]


def names_in(part, pattern):
    """The names that the pattern finds in that folder of library crates: files, by crate."""
    names = collections.defaultdict(lambda: collections.defaultdict(set))
    for crate in library_crates():
        for path in sorted((ROOT / "crates" / crate).glob(part)):
            for name in pattern.findall(path.read_text("utf-8")):
                names[name][crate].add(str(path.relative_to(ROOT)))
    return names


class Names(support.TestCase):
    def check(self, names, what, allowed, most, floor):
        """Those that two crates share have to be the allowed ones, and no more than so many."""
        shared = {name: crates for name, crates in sorted(names.items()) if len(crates) > 1}
        self.says(len(names), f"{what}, {len(shared)} of them in two crates", floor)
        wrong = [f"{name}: {', '.join(sorted(set().union(*crates.values())))}"
                 for name, crates in shared.items() if name not in allowed]
        wrong += [f"{name}: it is listed here, and no two crates have it"
                  for name in allowed if name not in shared]
        if wrong:
            self.fail("\n".join([f"{len(wrong)} {what} are to be renamed or listed:", *wrong]))
        self.assertLessEqual(len(shared), most)

    def test_types(self):
        self.check(names_in("src/**/*.rt", TYPE), "types", TYPES, MOST_TYPES, 200)

    def test_words(self):
        names = names_in("specs/**/*.antt", WORD)
        self.check(names, "words of definitions", WORDS, MOST_WORDS, 1_000)


class Files(support.TestCase):
    def test_short_files(self):
        """A reader opens a file for more than a few lines, mostly."""
        counts = {str(path.relative_to(ROOT)): path.read_text("utf-8").count("\n")
                  for path in sorted((ROOT / "crates").glob("*/src/**/*.rt"))}
        short = [f"{name}: {count}" for name, count in counts.items() if count < FEWEST_LINES]
        self.says(len(counts), f"files, {len(short)} of them below {FEWEST_LINES} lines", 250)
        self.assertLessEqual(len(short), MOST_SHORT_FILES, "\n".join(["", *short]))


def functions_of(path):
    """The functions of a file, each with the name of the type that it is written for."""
    owner = ""
    for line in path.read_text("utf-8").splitlines():
        found = FUNCTION.match(line)
        if line.startswith("}"):
            owner = ""
        elif found and found["name"]:
            yield f"{owner}{found['name']}"
        elif found:
            plain = re.sub(r"<[^<>]*>", "", re.sub(r"<[^<>]*>", "", found["impl"])).split()
            owner = plain[0 if PARAMETER.fullmatch(plain[-1]) else -1] + "::"


@support.needs("git")
class Draw(support.TestCase):
    @unittest.skipUnless((ROOT / ".git").exists(), "a checkout, of which git names the commit")
    def test_functions(self):
        """Draws functions by the commit's name: whoever sees name and path alone should know of
        most what they do."""
        words = ["git", "-C", ROOT, "rev-parse", "--short=8", "HEAD"]
        commit = subprocess.run(words, stdout=subprocess.PIPE, text=True, check=True).stdout.strip()
        found = [f"{name} in {path.relative_to(ROOT / 'crates')}"
                 for crate in library_crates()
                 for path in sorted((ROOT / "crates" / crate).glob("src/**/*.rt"))
                 for name in functions_of(path)]
        drawn = random.Random(commit).sample(sorted(found), DRAWN)
        self.says(len(found), f"functions, for a reader at {commit}: {', '.join(drawn)}", 1_000)

"""What agents and ends are called, and how texts are shown to people."""

import json
import unicodedata

import hubscript

# Letters that show nothing, or turn the text round them about.
HIDDEN = frozenset(["Cc", "Cf", "Cn", "Co", "Cs", "Zl", "Zp"])
WIDE = frozenset("WF")
NAME_COLUMNS = 64


class Names:
    """What agents and ends are called: by a script or a recorder, else by number alone."""

    def __init__(self, agents=None, ends=()):
        self.agents, self.ends = dict(agents or {}), list(ends)

    def agent(self, number):
        return ", ".join(filter(None, [f"agent {number}", self.agents.get(number)]))

    def agent_told(self, number):
        """The same within a sentence."""
        name = self.agents.get(number)
        return f"agent {number}{f' ({name})' if name else ''}"

    def end(self, number):
        return self.ends[number] if number < len(self.ends) else f"end {number}"

    def end_in_full(self, number):
        """The name with the number by which logs know the end."""
        name = self.end(number)
        return f"{name} (end {number})" if number < len(self.ends) else name


def names_of(data, agents=None):
    """The names that a script declares, and those of agents where a recorder gave them.

    hubscript.BadScript tells the first bad line.
    """
    found = hubscript.read(data)
    queues = [f"queue of agent {number}" for number in range(len(found.agents))]
    ends = [short(name, NAME_COLUMNS) for name in found.end_names()]
    kinds = {agent: it.kind for agent, it in enumerate(found.agents)}
    return Names({**kinds, **(agents or {})}, queues + ends)


def plural(count, word):
    if count == 1:
        return f"1 {word}"
    return f"{count:,} {word[:-1]}ies" if word.endswith("ry") else f"{count:,} {word}s"


def aligned(rows, numbers=0):
    """Rows of texts as lines, each column as wide as its widest text, the first so many at its
    right side."""
    widths = [max(map(len, column)) for column in zip(*rows)]
    for row in rows:
        cells = [
            cell.rjust(width) if at < numbers else cell.ljust(width)
            for at, (cell, width) in enumerate(zip(row, widths))
        ]
        yield "  ".join(cells).rstrip()


def visible(text):
    """The text with what can't be seen, or turns text about, as JSON escapes it."""
    if text.isascii() and text.isprintable():
        return text
    return "".join(map(visible_letter, text))


def visible_letter(letter):
    if unicodedata.category(letter) not in HIDDEN:
        return letter
    return json.dumps(letter)[1:-1] if letter != "\x7f" else "\\u007f"


def columns_of(text):
    """How many letters of a monospaced font the text is wide."""
    if text.isascii():
        return len(text)
    return sum(1 + (unicodedata.east_asian_width(letter) in WIDE) for letter in text)


def short(text, columns):
    """The text, or its beginning with `…` behind it, of at most so many columns."""
    # Nothing is read of a long text but what may be shown.
    beginning = visible(text[: columns + 1])
    if columns_of(beginning) <= columns:
        return beginning
    kept, width = [], 1
    for letter in beginning:
        width += columns_of(letter)
        if width > columns:
            break
        kept.append(letter)
    return "".join(kept) + "…"

"""What recorders wrote, or record/merge joined: it is read, and joined to the logs of one run.

`read` takes files and folders, and standard input where none is named. A folder has a file *.log of
each agent, as a recorder wrote it, whose last line is `deliveries`: a log without that line was
cut. A file that is named has such a log too, or logs of several agents as record/merge joins them,
or `messagehub run` prints them; a file that is named alone, has whole lines and no last line is one
of those. `cast` and `hears` entries become `put` entries (see record/hublog.mjs).

Where a log was cut or is missing, no fault is to be told from what isn't there: `unjudged` names
the `got` entries that can't be judged without it, those whose `put` no log has, and those of an end
behind its first `adopted`.
"""

import bisect
import collections
import dataclasses
import functools
import pathlib
import re

import command
import hublog
from naming import short, visible

HEADER = b"hublog 3"
LAST_LINE = b"deliveries"
STANDARD_INPUT = "<stdin>"
AGENT = re.compile(rb"agent (0|[1-9][0-9]*)")
CAST = re.compile(rb"cast ([0-9]{1,5}) ([0-9]{1,19}) (.+)")
HEARS = re.compile(rb"hears ([0-9]{1,5}) ([0-9]{1,2}) ([0-9]{1,5})")
MEETS = re.compile(rb"meets ([0-9]|1[0-5])")
GOT = re.compile(rb"got ([0-9]{1,5}) ([0-9]{1,2}) 0:([0-9]{1,19}) ")
# What only a recorder writes.
RECORDED = (b"\ncast ", b"\nhears ", b"\nmeets ")
# A file's name that says no more than the number of its agent. Another one is the agent's name.
NUMBERED = re.compile(r"(?:agent)?[-_ ]?[0-9]+")
MOST_LETTERS = 24


class Refused(Exception):
    """What can't be read or joined, as one line."""


@dataclasses.dataclass
class Source:
    """The log of one agent, or logs that were joined: their lines, each with its line in the file.

    Where it is the log of one agent it is `recorded`, and may have been cut.
    """

    path: str
    # The first line, or None where there is none.
    header: bytes | None
    lines: list
    numbers: list | range
    is_recorded: bool
    is_cut: bool = False

    def agents(self):
        found = [AGENT.fullmatch(line) for line in self.lines if line.startswith(b"agent ")]
        return list(dict.fromkeys(int(it[1]) for it in found if it))

    def entries(self):
        return zip(self.numbers, self.lines)


@dataclasses.dataclass
class Heard:
    """What one end got of the casts of one channel: its line, and the numbers."""

    end: int
    line: int
    numbers: list = dataclasses.field(default_factory=list)

    def got(self, number):
        """Whether the cast lies between the first one that came here and the last."""
        return bool(self.numbers) and min(self.numbers) <= number <= max(self.numbers)


class Recording:
    """The logs of one run. `missing` has what isn't there, as texts, and `lines` the joined text.

    `names` has what the files of agents are called, where that says more than a number.
    """

    def __init__(self, sources, missing, titles):
        self.missing, self.paths = missing, [source.path for source in sources]
        # What people call it: the folders and files.
        self.titles = titles
        self.names = names_of(sources)
        self.lines = [sources[0].header] if sources else []
        # Where the lines of each source begin, counted from 1, as log entries count them.
        self.starts, self.sources = [], sources
        for source in sources:
            self.starts.append(len(self.lines) + 1)
            self.lines += source.lines
        try:
            self.logs = hublog.logs_of(self.lines)
        except hublog.BadInput as bad:
            path, line = self.origin(bad.line)
            raise Refused(f"{path}: line {line}: {bad.kind}") from None

    def origin(self, at):
        """The file of a joined line, and the line there."""
        which = bisect.bisect_right(self.starts, at) - 1
        if which < 0:
            return self.sources[0].path, 1
        return self.sources[which].path, self.sources[which].numbers[at - self.starts[which]]

    def place(self, at):
        path, line = self.origin(at)
        return f"{path}:{line}"

    def short_place(self, at):
        """The same, without the file where there is one alone."""
        return self.place(at) if len(self.paths) > 1 else f"line {self.origin(at)[1]}"

    def is_empty(self):
        return not any(log.entries for log in self.logs)

    def text(self, without=frozenset()):
        """The text of the logs, without the entries at some of its lines."""
        kept = (line for at, line in enumerate(self.lines, 1) if at not in without)
        return b"".join(line + b"\n" for line in kept)

    @functools.cached_property
    def unjudged(self):
        """At which lines `got` entries stand that can't be judged, since a log is missing."""
        if not self.missing:
            return frozenset()
        accepted = {said.key() for log in self.logs for word, said in log.entries if word == "put"}
        return frozenset(at for log in self.logs for at in unjudged_of(log, accepted))

    def judged_logs(self):
        """The logs without what can't be judged, or None where nothing is missing."""
        if not self.missing:
            return None
        return [log.without(self.unjudged) for log in self.logs]


def unjudged_of(log, accepted):
    moved = set()
    for (word, said), at in zip(log.entries, log.places):
        if word == "adopted":
            moved.add(said[0])
        elif word == "got":
            if said.end in moved or said.key() not in accepted:
                yield at


def names_of(sources):
    """By agent, what the file that its recorder wrote is called."""
    named = {}
    for source in sources:
        stem = pathlib.PurePath(source.path).stem
        if source.is_recorded and not NUMBERED.fullmatch(stem):
            named.update((agent, short(stem, MOST_LETTERS)) for agent in source.agents())
    return named


# Reading


def add_paths(parser):
    parser.add_argument("paths", nargs="*", metavar="FILE or FOLDER",
                        help="the logs; standard input where none is named")


def read_for(parser, names, is_recorded=False):
    """The recording that the words of a command name. It ends where that can't be read."""
    try:
        return read(names, is_recorded)
    except OSError as error:
        parser.error(str(error))
    except Refused as refused:
        parser.refuse(refused)


def of_command(parser, names):
    """The same. It ends where nothing is recorded, too."""
    recording = read_for(parser, names)
    if recording.is_empty():
        read_from = " ".join(names) or STANDARD_INPUT
        parser.refuse("\n  ".join([f"nothing is recorded: {read_from}", *recording.missing]))
    return recording


def read(names, is_recorded=False):
    """The recording of files and folders. Where `is_recorded`, each file has the log of one agent.

    Refused says what can't be read; OSError comes from a file that can't be.
    """
    sources, missing = [], []
    paths = paths_of(names) or [(None, False)]
    for path, is_in_folder in paths:
        data = command.bytes_of(path)
        is_one = is_recorded or is_in_folder or len(paths) > 1
        name = STANDARD_INPUT if path is None else visible(str(path))
        source = source_of(name, data, is_one, is_recorded)
        if source is None:
            missing.append((name, f"{name} was cut before its first entry"))
        else:
            sources.append(source)
    titles = [pathlib.PurePath(name).name or str(name) for name in names] or [STANDARD_INPUT]
    return joined(sources, missing, titles, is_recorded)


def paths_of(names):
    """The files that are named, and those named *.log of folders; each with whether it is such."""
    paths = []
    for name in map(pathlib.Path, names):
        is_folder = name.is_dir()
        found = sorted(name.glob("*.log")) if is_folder else [name]
        if not found:
            raise Refused(f"{name}: no logs (*.log) are in this folder")
        paths += [(path, is_folder) for path in found]
    return paths


def source_of(path, data, is_one, is_strict):
    """What a file has, or None where it was cut before its first entry could come.

    `is_one` where the log of one agent is expected, and `is_strict` where nothing else may stand.
    """
    lines = data.split(b"\n")
    # Behind the last LF stands nothing, or the half of a line.
    half = lines.pop()
    is_whole = LAST_LINE in lines
    if is_whole:
        lines = lines[: lines.index(LAST_LINE)]
    # A file that is named alone has the log of one agent where only a recorder leaves it so.
    is_left = is_whole or (half and path != STANDARD_INPUT) or any(it in data for it in RECORDED)
    count = data.count(b"\nagent ")
    is_recorded = count <= 1 and (is_one or (count == 1 and is_left))
    if is_strict or is_recorded:
        return recorded_source(path, lines, not is_whole)
    lines += [half] if half and not is_whole else []
    return Source(path, lines[0] if lines else None, lines[1:], range(2, len(lines) + 1), False)


def recorded_source(path, lines, is_cut):
    if lines in ([], [HEADER]):
        return None
    if lines[0] != HEADER:
        raise Refused(f"{path}: line 1: BadHeader")
    if not AGENT.fullmatch(lines[1]):
        raise Refused(f"{path}: line 2: BadLine")
    for number, line in enumerate(lines[2:], 3):
        if line.startswith(b"agent "):
            raise Refused(f"{path}: line {number}: BadLine")
    return Source(path, HEADER, lines[1:], range(2, len(lines) + 1), True, is_cut)


def joined(sources, missing, titles, needs_logs):
    refuse_double(sources)
    recorded = sorted((it for it in sources if it.is_recorded), key=lambda it: it.agents())
    others = [it for it in sources if not it.is_recorded and it.header is not None]
    if needs_logs and not recorded:
        raise Refused(f"{missing[0][0]}: no log of an agent")
    texts = [text for _, text in missing]
    texts += [f"agent {it.agents()[0]} was cut: {it.path}" for it in recorded if it.is_cut]
    if recorded:
        there = {agent for source in sources for agent in source.agents()}
        most = max(agent for source in recorded for agent in met_by(source))
        texts += [f"agent {it} has no log" for it in range(most + 1) if it not in there]
    spread_casts(recorded)
    return Recording(recorded + others, texts, titles)


def refuse_double(sources):
    """Refuses what doesn't go together: two logs of an agent, or different headers."""
    first = {}
    for source in sources:
        for agent in source.agents():
            if agent in first:
                raise Refused(f"{source.path}: {first[agent]} has a log of agent {agent} too")
        first.update((agent, source.path) for agent in source.agents())
        if len(sources) > 1 and source.header != sources[0].header:
            raise Refused(f"{source.path}: {sources[0].path} has another first line")


def met_by(source):
    met = (MEETS.fullmatch(line) for line in source.lines if line.startswith(b"meets "))
    return [*source.agents(), *(int(it[1]) for it in met if it)]


def heard_casts(sources):
    """By channel that casts: what each end got of its casts."""
    hearers = {}
    for source in sources:
        for line in source.lines:
            hears = HEARS.fullmatch(line) if line.startswith(b"hears ") else None
            if hears:
                end, at, sender = map(int, hears.groups())
                hearers[end, at] = (sender, Heard(end, at))
            got = GOT.match(line) if hearers else None
            if got and (int(got[1]), int(got[2])) in hearers:
                hearers[int(got[1]), int(got[2])][1].numbers.append(int(got[3]))
    found = collections.defaultdict(list)
    for sender, heard in hearers.values():
        found[sender].append(heard)
    return found


def plain_entries(entry, heard):
    """The entry as docs/FORMATS.md has it: of a cast, one `put` for each end that heard it."""
    cast = CAST.fullmatch(entry)
    if not cast:
        return [] if HEARS.fullmatch(entry) or MEETS.fullmatch(entry) else [entry]
    number = int(cast[2])
    return [
        b"put %d %d 0:%d - %b" % (it.end, it.line, number, cast[3])
        for it in heard[int(cast[1])]
        if it.got(number)
    ]


def spread_casts(sources):
    heard = heard_casts(sources)
    for source in sources:
        spread = [(at, plain) for at, entry in source.entries()
                  for plain in plain_entries(entry, heard)]
        source.numbers = [at for at, _ in spread]
        source.lines = [plain for _, plain in spread]

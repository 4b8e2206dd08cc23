"""How every bench of this folder measures: in turns, each run checked, with medians and spreads.

A bench is a module bench/NAME/bench.py with a function `run(bench)`, where `bench` is a `Bench`. It
describes jobs, lets them take turns, and reports figures of what they took, with or without a
bound. A run counts only where its status and what it printed are right. Where one isn't, its
whole series is a failure, and with it each figure that stands on the series; where a tool is
missing, they are left out. So a figure is never made of the runs that happened to go well.
"""

import contextlib
import dataclasses
import functools
import json
import os
import pathlib
import resource
import shutil
import signal
import statistics
import subprocess
import sys
import tempfile
import time
from collections.abc import Callable
from typing import NamedTuple

HERE = pathlib.Path(__file__).resolve().parent
MEMORY_FOLDER = "/dev/shm"
TURNS = 5
# A run that takes longer hangs.
MOST_SECONDS = 900
# A number that a program prints and that isn't compared, such as how often it parked.
ANY = None
# Where Debian's packages put the sources of crates.
REGISTRY = pathlib.Path("/usr/share/cargo/registry")
# A Cargo project of one source over one crate. It is built with whatever version is there.
MANIFEST = """[package]
name = {name}
version = "0.0.0"
edition = "2021"

[[bin]]
name = {name}
path = {source}

[dependencies]
{crate} = {{ version = "*", features = {features}, optional = true }}
{beside}

[features]
default = [{crate}]

[lints.rust]
unexpected_cfgs = "allow"

[workspace]
"""
# With these Cargo takes every crate from a folder of sources.
CARGO_SETTINGS = """[source.crates-io]
replace-with = "folder"

[source.folder]
directory = {registry}
"""


class Failure(Exception):
    """What is wrong with a run, which is no measurement."""


@dataclasses.dataclass(frozen=True)
class Gap:
    """Why there is no figure: something failed, or a tool of this name is missing."""

    reason: str
    is_failure: bool = True


def gap_of(*parts):
    """The gap of these parts: a failure before a missing tool, or None where there is neither."""
    gaps = [part.gap for part in parts if part.gap]
    return next((gap for gap in gaps if gap.is_failure), gaps[0] if gaps else None)


# What programs print


def tells(*wanted):
    """A check that a program printed its microseconds, and behind them these numbers alone."""

    def check(output):
        text = output.read_text(encoding="utf-8", errors="replace")
        try:
            numbers = [int(word) for word in text.split()]
        except ValueError:
            numbers = []
        if len(numbers) != 1 + len(wanted) or any(
            right not in (ANY, number) for right, number in zip(wanted, numbers[1:])
        ):
            right = " ".join("N" if number is ANY else str(number) for number in wanted)
            raise Failure(f"it printed {text[:200]!r}, and not its microseconds and {right}")
        if numbers[0] <= 0:
            raise Failure("it took no time")
        return numbers

    return check


def prints(wanted):
    """A check that a program printed these bytes."""

    def check(output):
        found = output.read_bytes()
        if found != wanted:
            raise Failure(difference(found, wanted))
        return []

    return check


def difference(found, wanted):
    """Where the bytes that a program printed leave the right ones."""
    at = len(os.path.commonprefix([found, wanted]))
    line = found.count(b"\n", 0, at) + 1
    return f"in line {line} it printed {found[at:at + 40]} where {wanted[at:at + 40]} is right"


# What runs take


@dataclasses.dataclass(frozen=True)
class Program:
    """The words that start a program, or why it can't be started."""

    words: tuple = ()
    gap: Gap | None = None

    def job(self, *arguments, told, held=False):
        """A run that times itself, and prints `told` behind its microseconds."""
        return Job(self, arguments, tells(*told), held=held, has_own_clock=True)

    def whole(self, *arguments, check, source=None, with_memory=False, status=0):
        """A run that is timed from the start of the process to its end, with this status."""
        return Job(
            self, arguments, check, source=source, with_memory=with_memory, status=status
        )


@dataclasses.dataclass(frozen=True)
class Job:
    """A program with its arguments, and a check that reads the file that it printed to.

    The check returns the numbers that the program told, and raises Failure. `held` is a run on two
    processors alone, `source` the file that it reads, and `status` the one that it ends with.
    """

    program: Program
    arguments: tuple
    check: Callable[[pathlib.Path], list]
    source: pathlib.Path | None = None
    held: bool = False
    has_own_clock: bool = False
    with_memory: bool = False
    status: int = 0

    def words(self):
        return [str(word) for word in (*self.program.words, *self.arguments)]

    def __str__(self):
        name, *words = self.words()
        source = ["<", self.source.name] if self.source else []
        return " ".join([pathlib.Path(name).name, *words, *source])

    def after(self, trial):
        """This job, which isn't run where a trial of it failed."""
        return dataclasses.replace(self, program=Program(self.program.words, trial.gap))


@dataclasses.dataclass(frozen=True)
class Run:
    """What one run took: seconds, seconds of processors, of these in the kernel, bytes at most; and
    what it told.
    """

    seconds: float
    processor: float
    kernel: float
    memory: float
    told: list


@dataclasses.dataclass(frozen=True)
class Values:
    """One number of each turn, or why there is none."""

    numbers: list
    gap: Gap | None


@dataclasses.dataclass
class Series:
    """The runs of one job, one of each turn, or why there is no figure of them."""

    gap: Gap | None
    memory_gap: Gap | None
    runs: list = dataclasses.field(default_factory=list)

    @property
    def seconds(self):
        return Values([run.seconds for run in self.runs], self.gap)

    @property
    def processor(self):
        return Values([run.processor for run in self.runs], self.gap)

    @property
    def kernel(self):
        return Values([run.kernel for run in self.runs], self.gap)

    @property
    def memory(self):
        return Values([run.memory for run in self.runs], self.gap or self.memory_gap)

    def told(self, at):
        """The numbers that stand in this place of what the program printed."""
        return Values([run.told[at] for run in self.runs], self.gap)


@dataclasses.dataclass(frozen=True)
class Figure:
    """A figure of the best runs and of the median ones, with the lowest and highest of a turn."""

    best: float = 0.0
    median: float = 0.0
    lowest: float = 0.0
    highest: float = 0.0
    gap: Gap | None = None

    def show(self):
        if self.lowest == self.highest:
            return shown(self.median)
        spread = f"{shown(self.lowest)} to {shown(self.highest)}"
        return f"{shown(self.median)} ({spread}), best {shown(self.best)}"


def shown(number):
    return f"{number:,.0f}" if abs(number) >= 1000 else f"{number:.4g}"


def figure_of(values, make):
    """A figure that `make` gives for a number of each turn, of which the least is the best."""
    if values.gap:
        return Figure(gap=values.gap)
    singles = [make(number) for number in values.numbers]
    best, median = min(values.numbers), statistics.median(values.numbers)
    return Figure(make(best), make(median), min(singles), max(singles))


def scaled(values, scale=1.0):
    return figure_of(values, lambda number: number * scale)


def rate(values, count):
    """How many of so many things are done in a second."""
    return figure_of(values, lambda seconds: count / seconds)


def ratio(over, under, scale=1.0):
    """The ratio of the best, of the medians, and of the runs of each turn."""
    if gap := gap_of(over, under):
        return Figure(gap=gap)

    def of(statistic):
        return scale * statistic(over.numbers) / statistic(under.numbers)

    singles = [scale * one / other for one, other in zip(over.numbers, under.numbers)]
    return Figure(of(min), of(statistics.median), min(singles), max(singles))


class Row(NamedTuple):
    figure: str
    value: str
    bound: str
    met: str


class Report:
    def __init__(self):
        self.rows = []
        # Both as keys, so that each stands there once.
        self.failures = {}
        self.left_out = {}

    def add(self, name, figure, unit="", bound="-", met="-"):
        value = f"{figure.show()} {unit}".rstrip()
        if figure.gap:
            value, met = "-", "failed" if figure.gap.is_failure else "left out"
            reasons = self.failures if figure.gap.is_failure else self.left_out
            reasons[figure.gap.reason] = True
        self.rows.append(Row(name, value, bound, met))
        print(f"  {name}: {value}; bound: {bound}; met: {met}", file=sys.stderr)

    def fail(self, name, reason):
        self.add(name, Figure(gap=Gap(reason)))

    def show(self):
        """Prints the table, what failed and was left out, and the counts of bounds.

        Returns how many failed; a run that failed is counted where its figure has no bound too.
        """
        head = Row("figure", "median (lowest to highest), best", "bound", "met")
        rows = [head, *self.rows]
        widths = [max(map(len, column)) for column in zip(*rows)]
        for row in rows:
            print("  ".join(cell.ljust(width) for cell, width in zip(row, widths)).rstrip())
        for reason in self.failures:
            print(f"failed: {reason}")
        print(f"left out: {', '.join(self.left_out) or 'nothing'}")
        passed = sum(row.met == "yes" for row in self.rows)
        failed = sum(row.met in ("no", "failed") for row in self.rows)
        skipped = sum(row.met == "left out" and row.bound != "-" for row in self.rows)
        print(f"{passed} passed, {failed} failed, {skipped} skipped")
        return failed


# Running


def found_tool(name):
    path = shutil.which(name)
    return Program((path,)) if path else Program(gap=Gap(name, is_failure=False))


@functools.cache
def gnu_time():
    """GNU's time, which tells how much memory a process had.

    Linux counts the memory of whoever forks to the program that comes after it, so that something
    smaller than Python has to.
    """
    tool = found_tool("time")
    if not tool.gap:
        words = [*tool.words, "--version"]
        said = subprocess.run(words, capture_output=True, text=True, errors="replace")
        if "GNU" in said.stdout + said.stderr:
            return tool
    return Program(gap=Gap("GNU time", is_failure=False))


def make_project(folder, beside="", **values):
    """Makes a Cargo project of these values; a string or a list of them is in TOML as in JSON."""
    words = {name: json.dumps(value, ensure_ascii=False) for name, value in values.items()}
    (folder / ".cargo").mkdir(parents=True)
    for name, text in (("Cargo.toml", MANIFEST), (".cargo/config.toml", CARGO_SETTINGS)):
        text = text.format(beside=beside, **words)
        (folder / name).write_text(text, "utf-8", "surrogateescape")


def hold_to_two():
    os.sched_setaffinity(0, sorted(os.sched_getaffinity(0))[:2])


def answer_of(words, **options):
    """The status of a program and what it printed. What stops this process stops it too."""
    process = subprocess.Popen(
        words, stdout=subprocess.PIPE, text=True, errors="replace", **options
    )
    try:
        output, _ = process.communicate()
    except BaseException:
        process.terminate()
        process.communicate()
        raise
    return process.returncode, output


def compiled(compiler, words, made, what, **options):
    """The program that a compiler makes, or why there is none."""
    if compiler.gap:
        return compiler
    words = [*compiler.words, *words]
    process = subprocess.Popen(words, stdout=sys.stderr, start_new_session=True, **options)
    try:
        if (status := status_of(process)) != 0:
            raise Failure(described(status, ""))
    except Failure as failure:
        return Program(gap=Gap(f"{what}: {failure}"))
    return Program((made,))


def status_of(process):
    """Waits for a process that leads a group, and stops the group where it takes too long."""
    try:
        return process.wait(MOST_SECONDS)
    except subprocess.TimeoutExpired:
        raise Failure(f"it didn't end within {MOST_SECONDS} s") from None
    finally:
        if process.returncode is None:
            os.killpg(process.pid, signal.SIGKILL)
            process.wait()


def described(status, errors):
    """Says how a process ended, with the end of what it wrote to its standard error."""
    how = f"signal {-status}" if status < 0 else f"status {status}"
    return ": ".join([f"it ended with {how}", *errors.splitlines()[-3:]])


@contextlib.contextmanager
def files_in_memory(room):
    """A folder for so many bytes: in memory, so that no disk is timed, where there is room."""
    in_memory = os.access(MEMORY_FOLDER, os.W_OK) and shutil.disk_usage(MEMORY_FOLDER).free > room
    if not in_memory:
        print(f"  no room in {MEMORY_FOLDER}: files are on disk", file=sys.stderr)
    with tempfile.TemporaryDirectory(dir=MEMORY_FOLDER if in_memory else None) as folder:
        yield pathlib.Path(folder)


class Bench:
    def __init__(self, module, options, folder, report):
        self.name = module.__name__
        self.builds = getattr(module, "BUILDS", {})
        self.turns = options.turns or getattr(module, "TURNS", TURNS)
        self.options = options
        self.folder = folder
        self.report = report

    # Programs

    @property
    def messagehub(self):
        return Program((self.options.program,))

    def built(self, name):
        """The program of bench/NAME, over the crates that BUILDS names for it."""
        if self.options.built:
            return Program((self.options.built / f"bench_{name}",))
        source = HERE / name / "main.rt.txt"
        jobs = [f"--jobs={self.options.jobs}"] if self.options.jobs else []
        words = [HERE / "build", *jobs, self.folder / name, f"bench_{name}", source]
        words += self.builds[name]
        status, output = answer_of(words)
        if status != 0:
            return Program(gap=Gap(f"bench/build {name} ended with status {status}"))
        return Program((output.rstrip("\n"),))

    def rust(self, source):
        """The program of a source in Rust, from its path in bench/."""
        target = self.folder / source.replace("/", "_").removesuffix(".rs")
        words = ["-O", "-o", target, HERE / source]
        return compiled(found_tool("rustc"), words, target, f"rustc {source}")

    def rust_over(self, crate, source, features=(), beside=""):
        """The program of a source in Rust over a crate of Debian's, which is a feature of it.

        `beside` is a line of Cargo.toml for one more crate.
        """
        cargo, compiler = found_tool("cargo"), found_tool("rustc")
        if gap := gap_of(cargo, compiler):
            return Program(gap=gap)
        found = [it.parent.name for it in self.options.registry.glob(f"{crate}-[0-9]*/Cargo.toml")]
        if not found:
            return Program(gap=Gap(f"librust-{crate}-dev", is_failure=False))
        print(f"  building {source} over {', '.join(found)}", file=sys.stderr)
        name = f"{source.replace('/', '_').removesuffix('.rs')}_{crate}"
        folder = self.folder / name
        make_project(
            folder, beside, name=name, source=str(HERE / source), crate=crate,
            features=list(features), registry=str(self.options.registry),
        )
        words = ["build", "--quiet", "--release", "--offline", "--target-dir", "out"]
        made = folder / "out" / "release" / name
        return compiled(cargo, words, made, f"cargo build of {source} over {crate}", cwd=folder)

    def channels(self, source, crates):
        """The programs of a source over the channels of Rust's library, and of each of the crates,
        which have the features that they need beside the default ones."""
        others = {it: self.rust_over(it, source, features) for it, features in crates.items()}
        return {"mpsc": self.rust(source), **others}

    @functools.cached_property
    def library(self):
        """The folder that embed/build makes, and why there is none, or None."""
        folder = self.folder / "varukoni"
        status, _ = answer_of([HERE.parent / "embed" / "build", "--to", folder])
        return folder, Gap(f"embed/build ended with status {status}") if status else None

    def c_over(self, library, source):
        """The program of a source in C over a library of embed/build, from its path in bench/."""
        compiler = found_tool("gcc")
        if compiler.gap:
            return compiler
        folder, gap = self.library
        target = self.folder / source.replace("/", "_").removesuffix(".c")
        words = ["-std=gnu11", "-O2", f"-I{folder / 'include'}", "-o", target, HERE / source,
                 folder / "lib" / f"lib{library}.a", "-pthread"]
        return Program(gap=gap) if gap else compiled(compiler, words, target, f"gcc {source}")

    def node(self, source):
        """Node with a source, from its path in bench/."""
        tool = found_tool("node")
        return tool if tool.gap else Program((*tool.words, HERE / source))

    # Runs

    def run_once(self, job):
        """What a run of a job takes. Raises Failure where it doesn't do all that it should."""
        folder = job.source.parent if job.source else self.folder
        output, errors, memory = (folder / name for name in ("output", "errors", "memory"))
        words, has_memory = job.words(), job.with_memory and not gnu_time().gap
        if has_memory:
            words = [*gnu_time().words, "-f", "%M", "-o", memory, *words]
        before, begin = resource.getrusage(resource.RUSAGE_CHILDREN), time.perf_counter()
        status = self.status_of(words, job, output, errors)
        wall, after = time.perf_counter() - begin, resource.getrusage(resource.RUSAGE_CHILDREN)
        if status != job.status:
            raise Failure(described(status, errors.read_text("utf-8", "replace")))
        told = job.check(output)
        return Run(
            told[0] / 1e6 if job.has_own_clock else wall,
            after.ru_utime + after.ru_stime - before.ru_utime - before.ru_stime,
            after.ru_stime - before.ru_stime,
            1024 * int(memory.read_text()) if has_memory else 0,
            told,
        )

    def status_of(self, words, job, output, errors):
        """Runs a program over files. One locale, so that nothing depends on the caller's."""
        settings = {**os.environ, "LC_ALL": "C"}
        hold = hold_to_two if job.held else None
        with open(job.source or os.devnull, "rb") as reader, open(output, "wb") as writer:
            with open(errors, "wb") as complaints:
                try:
                    process = subprocess.Popen(
                        words, stdin=reader, stdout=writer, stderr=complaints, env=settings,
                        start_new_session=True, preexec_fn=hold,
                    )
                except OSError as error:
                    raise Failure(str(error)) from None
                return status_of(process)

    def in_turns(self, jobs, turns=None):
        """Runs each job of a dict once a turn, so that what else runs meets all of them alike.

        Returns a series for each; one whose run fails isn't run again. With --beside the programs
        of another commit take turns with these, and how the two compare is shown.
        """
        twins = {name: twin for name, job in jobs.items() if (twin := self.twin(job))}
        every = {**jobs, **{(name, "beside"): twin for name, twin in twins.items()}}
        series = {name: Series(job.program.gap, gnu_time().gap) for name, job in every.items()}
        for _ in range(turns or self.turns):
            for name, job in every.items():
                if series[name].gap:
                    continue
                try:
                    series[name].runs.append(self.run_once(job))
                except Failure as failure:
                    series[name].gap = Gap(f"{job}: {failure}")
        for name in twins:
            beside = ratio(series[name].seconds, series[name, "beside"].seconds)
            self.shows(f"{jobs[name]}, beside {self.options.beside}", beside, "times")
        return {name: series[name] for name in jobs}

    def twin(self, job):
        """The same job of another commit's program, where --beside has one."""
        if self.options.beside is None or not job.program.words:
            return None
        program = self.options.beside / pathlib.Path(job.program.words[0]).name
        words = (program, *job.program.words[1:])
        return dataclasses.replace(job, program=Program(words)) if program.is_file() else None

    # Figures

    def shows(self, name, figure, unit=""):
        """A figure without a bound."""
        self.report.add(f"{self.name}, {name}", figure, unit)

    def at_most(self, bound, name, figure, unit="", on="best"):
        """A figure of which the best, the median or the highest may be so much at most."""
        met = "yes" if getattr(figure, on) <= bound else "no"
        self.report.add(f"{self.name}, {name}", figure, unit, f"{on} at most {bound}", met)

    def beside_half(self, bound, name, whole, half):
        """How much longer so much takes than half of it, where that was timed too."""
        if half:
            beside = ratio(whole.seconds, half.seconds)
            self.at_most(bound, f"{name}, beside half", beside, "times")

    def at_least(self, bound, name, figure, unit="", on="best"):
        """A figure of which the best or the median has to be so much at least."""
        met = "yes" if getattr(figure, on) >= bound else "no"
        self.report.add(f"{self.name}, {name}", figure, unit, f"{on} at least {bound}", met)

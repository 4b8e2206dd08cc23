"""Times the library's line calls from C, Rust, Node and Python beside `messagehub steps`.

The programs read the same 1,000,003 step lines, give them one by one, and print the outcome
lines, which have to be the same; each is timed as a process, so the start of Node and Python
counts. Besides there are calls that are refused at once, opening and closing, the stack that
calls take, and the sizes of what is built. embed/build makes the library first. The bound is on
the best runs.
"""

import sys

from measure import HERE, Gap, Program, Values, compiled, files_in_memory, found_tool, ratio, scaled
from steps.bench import SHAPES, step_file

TURNS = 5
POSTS = 500_000
LINES = 2 * POSTS + 3
# Calls that are timed alone, with how many of each.
CALLS = {"closed": 20_000_000, "bad": 2_000_000, "not-now": 2_000_000, "open": 2_000_000}
NAMES = {
    "closed": "a call of a closed hub", "bad": "a line that names no step",
    "not-now": "a take where there is no end", "open": "open and close",
}
SIZES = {"archive": "lib/libvarukoni.a", "shared object": "lib/libvarukoni.so",
         "addon of Node": "node/varukoni.node"}


def run(bench):
    folder, gap = bench.library
    programs = {
        "program": (bench.messagehub, "steps"),
        "C": (bench.c_over("varukoni", "embed/lines.c"),),
        "Rust": (built_in_rust(bench, folder, gap),),
        "Node": (found("node", gap), HERE / "embed" / "lines.mjs", folder),
        "Python": (Program((sys.executable, "-B"), gap), HERE / "embed" / "lines.py", folder),
    }
    for name, shape in SHAPES.items():
        with files_in_memory(room=200 * LINES) as place:
            report(bench, name, bench.in_turns(jobs_of(place, programs, shape)))
    time_calls(bench, bench.c_over("varukoni", "embed/calls.c"))
    for name, path in SIZES.items():
        there = not gap and (folder / path).is_file()
        why = gap or Gap(f"the {name}", is_failure=False)
        sizes = Values([(folder / path).stat().st_size] if there else [], None if there else why)
        bench.shows(f"size of the {name}", scaled(sizes), "bytes")


def found(tool, gap):
    return Program(gap=gap) if gap else found_tool(tool)


def built_in_rust(bench, folder, gap):
    target = bench.folder / "embed_rust"
    words = ["build", "--release", "--offline", "--quiet", "--example", "lines",
             "--target-dir", target]
    made = target / "release" / "examples" / "lines"
    return compiled(found("cargo", gap), words, made, "cargo build", cwd=folder / "rust")


def jobs_of(place, programs, shape):
    source = place / "lines"
    check = step_file(source, shape, POSTS)
    return {
        name: program.whole(*words, source=source, check=check)
        for name, (program, *words) in programs.items()
    }


def report(bench, shape, runs):
    for name, series in runs.items():
        bench.shows(f"{shape}, {name}", scaled(series.seconds, 1e9 / LINES), "ns a line")
    own = runs["program"].seconds
    bench.at_most(1.2, f"{shape}, C beside the program", ratio(runs["C"].seconds, own), "times")


def time_calls(bench, program):
    jobs = {name: program.job(name, count, told=[count]) for name, count in CALLS.items()}
    for name, series in bench.in_turns(jobs).items():
        bench.shows(NAMES[name], scaled(series.seconds, 1e9 / CALLS[name]), "ns")
    (stack,) = bench.in_turns({"stack": program.job("stack", told=[None])}, turns=1).values()
    bench.at_most(262_144, "stack", scaled(stack.told(1)), "bytes")

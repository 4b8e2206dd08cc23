"""Times a script runtime over the hub, `varukoni-js`, beside Node's worker_threads.

300,000 small objects flood a worker; 30,000 go to a worker and back, one at a time; 20,000 channels
are made, and one port of each is sent to a worker, which posts at it. The time is by the clock,
from the first post to the last message; and that of the processors is shown, of the whole process.
Besides, how long it takes until a worker that never ends was terminated. The bounds are on the best
runs.
"""

from measure import HERE, Program, compiled, found_tool, ratio, scaled

MESSAGES, TRIPS, CHANNELS, TERMINATED = 300_000, 30_000, 20_000, 20
# What each job counts, what it prints, and how many times as fast as Node it is at least.
JOBS = {
    "flood": ("message", MESSAGES, MESSAGES, 2),
    "trip": ("round trip", TRIPS, TRIPS, 2),
    "ports": ("port", CHANNELS, CHANNELS * (CHANNELS - 1) // 2, 2),
}
MOST_MILLISECONDS = 100


def run(bench):
    runtime, node = built(bench), bench.node("runtime/reference.mjs")
    for name, (what, count, told, bound) in JOBS.items():
        runs = bench.in_turns({
            "varukoni-js": runtime.job(HERE / "runtime" / f"{name}.js", told=[told]),
            "Node": node.job(name, told=[told]),
        })
        for whose, series in runs.items():
            bench.shows(f"{name}, {whose}", scaled(series.seconds, 1e9 / count), f"ns a {what}")
        node_runs, own_runs = runs["Node"], runs["varukoni-js"]
        beside = ratio(node_runs.seconds, own_runs.seconds)
        bench.at_least(bound, f"{name}, as fast as Node", beside, "times")
        bench.shows(f"{name}, Node's processor time by its own",
                    ratio(node_runs.processor, own_runs.processor), "times")
    ends = bench.in_turns({"ends": runtime.job(HERE / "runtime" / "ends.js", told=[TERMINATED])})
    bench.at_most(MOST_MILLISECONDS, "until the slowest of 20 workers was terminated",
                  scaled(ends["ends"].seconds, 1e3), "ms", on="highest")


def built(bench):
    """varukoni-js, over what embed/build makes."""
    compiler = found_tool("g++")
    if compiler.gap:
        return compiler
    library, gap = bench.library
    if gap:
        return Program(gap=gap)
    build, target = HERE.parent / "embed" / "runtime" / "build", bench.folder / "varukoni-js"
    words = ["--library", library, "--to", target]
    return compiled(Program((build,)), words, target, "embed/runtime/build")

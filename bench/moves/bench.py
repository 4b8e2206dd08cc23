"""Times hub_core where ports move and close.

There are adoptions of one port of which nothing is taken, an envelope in each queue; a million
Looks, Takes and Sweeps over that chain, and over one where the poster is inside the first queue all
the while, so that each is answered Busy; 10,000 ports, each sent up to 100 times, none drained; a
million steps at one end of two, at one end of 65,536, and at 65,536 ends in turn; and a million
steps of posts and takes at one queue, by one line and by 32 lines of 16 agents in turn. Each run is
a process of its own and prints how much its answers told of. The bounds are on the best runs.
"""

from measure import rate, ratio, scaled

BUILDS = {"moves": ["hub_core", "hub_envelope"]}
STEPS = 1_000_000
MOST = 65_535
ENDS = 65_536
# How much the answers tell of where each end in turn is one of a few, and where it is one of all.
TOLD_OVER = {
    "pass": (500_000, 500_000), "post": (250_000, 250_000), "look": (1, ENDS), "take": (0, 0),
    "close": (1, ENDS), "sweep": (0, 0),
}


def run(bench):
    program = bench.built("moves")
    time_sizes(
        bench, "{:,} adoptions of a port", steps_each=9,
        jobs={n: program.job("adoptions", "-", n, 0, told=[n]) for n in (16_384, 32_768, MOST)},
    )
    time_sizes(
        bench, "10,000 ports, each sent {} times", steps_each=50_000,
        jobs={n: program.job("sends", "-", 10_000, n, told=[10_000 * n]) for n in (25, 50, 100)},
    )
    for kind in ("look", "take", "sweep"):
        name = f"{kind} over 65,535 adoptions"
        # Each of the queues has an envelope, of which one answer tells.
        time_chain(bench, name, lambda n: program.job("chain", kind, n, 0, told=[n + 1]))
        time_chain(bench, f"{name}, busy",
                   lambda n: program.job("asleep", kind, n, 0, told=[STEPS]))
    for kind in TOLD_OVER:
        time_ends(bench, program, kind)
    time_lines(bench, program)


def time_sizes(bench, form, steps_each, jobs):
    """Sizes that are each twice the one before."""
    runs = bench.in_turns(jobs)
    half = None
    for size, series in runs.items():
        name = form.format(size)
        figure = rate(series.seconds, steps_each * size / 1e6)
        bench.at_least(10, name, figure, "million steps a second")
        bench.beside_half(2.3, name, series, half)
        half = series


def time_chain(bench, name, job_of):
    """A million steps over a chain of 65,535 adoptions, beside a chain of one."""
    runs = bench.in_turns({adoptions: job_of(adoptions) for adoptions in (1, MOST)})
    bench.at_least(10, name, rate(runs[MOST].seconds, STEPS / 1e6), "million steps a second")
    beside = ratio(runs[MOST].seconds, runs[1].seconds)
    bench.shows(f"{name}, beside one adoption", beside, "times")


def time_ends(bench, program, kind):
    """A million steps at one end of two, at one end of 65,536, and at all of these in turn."""
    told_of_one, told_of_all = TOLD_OVER[kind]
    runs = bench.in_turns({
        "one": program.job("over", kind, 2, 1, told=[told_of_one]),
        "one of 65,536": program.job("over", kind, ENDS, 1, told=[told_of_one]),
        "65,536 in turn": program.job("over", kind, ENDS, ENDS, told=[told_of_all]),
    })
    one = runs.pop("one").seconds
    bench.shows(f"{kind} at one end of two", scaled(one, 1e9 / STEPS), "ns a step")
    for name, series in runs.items():
        bench.at_most(3, f"{kind} at {name}, beside one", ratio(series.seconds, one), "times")


def time_lines(bench, program):
    """Posts and takes by 32 lines of 16 agents, beside one line."""
    runs = bench.in_turns({
        lines: program.job("lines", "-", lines, 0, told=[STEPS // 4]) for lines in (1, 32)
    })
    bench.shows("posts by one line", scaled(runs[1].seconds, 1e9 / STEPS), "ns a step")
    beside = ratio(runs[32].seconds, runs[1].seconds)
    bench.at_most(3, "posts by 32 lines of 16 agents, beside one", beside, "times")

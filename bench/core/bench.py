"""Times hub_core's run: posts and takes in turn, and all posts before all takes.

A post is three steps, to enter, push and leave, so that 2,000,000 steps are 500,000 posts and as
many takes. Each run is a process of its own, so that each pays for its memory. The bounds are on
the best runs.
"""

from measure import rate

BUILDS = {"core": ["hub_core", "hub_envelope"]}
COUNTS = [250_000, 500_000, 1_000_000, 2_000_000]


def run(bench):
    program = bench.built("core")
    for order in ("in-turn", "posts-first"):
        jobs = {count: program.job(order, count, told=[count // 4]) for count in COUNTS}
        runs = bench.in_turns(jobs)
        for count in COUNTS:
            name, whole = f"{order}, {count:,} steps", runs[count]
            bench.at_least(10, name, rate(whole.seconds, count / 1e6), "million a second")
            bench.beside_half(2.3, name, whole, runs.get(count // 2))

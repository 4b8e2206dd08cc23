"""Times hub_script's reading of scripts: half of the lines channels, and posts alone.

Two of the lines are the agents. Of the others one half is channels and the other half posts that
each transfer a port of one, or all of them are posts. The bounds are on the best runs.
"""

from measure import scaled

BUILDS = {"scripts": ["hub_script"]}
COUNTS = [1024, 2048, 4096]


def run(bench):
    program = bench.built("scripts")
    for shape, actions_of in (
        ("names", lambda count: (count - 2) // 2), ("actions", lambda count: count - 2)
    ):
        runs = bench.in_turns({
            count: program.job(shape, count, told=[actions_of(count)]) for count in COUNTS
        })
        for count in COUNTS:
            name, whole = f"{shape}, {count:,} lines", runs[count]
            bench.shows(name, scaled(whole.seconds, 1e6), "us")
            bench.beside_half(2.3, name, whole, runs.get(count // 2))

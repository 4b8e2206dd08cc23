"""Times hub_core where broadcast channels join, cast and part, and where an agent sees its order.

There are casts of one channel among 100 and among 10,000 of one name, with the posts and takes at
all destinations; channels of one name that join and part again, to 40,000; and a million Sees of a
running agent beside two ends and beside 65,536. Each is compared by the time of one thing. The
bounds are on the best runs.
"""

from measure import ratio, scaled

BUILDS = {"roster": ["hub_core", "hub_envelope"]}
SEES = 1_000_000
# The words of each run, and how much its answers have to tell of.
RUNS = {
    ("cast", 100, 10_000): 990_000, ("cast", 10_000, 100): 999_900,
    **{("join", count, 0): count for count in (10_000, 20_000, 40_000)},
    ("see", 2, 0): SEES, ("see", 65_536, 0): SEES,
}


def run(bench):
    program = bench.built("roster")
    runs = bench.in_turns({words: program.job(*words, told=[told]) for words, told in RUNS.items()})

    def compare(bound, name, unit, words, other):
        count, other_count = RUNS[words], RUNS[other]
        bench.shows(name, scaled(runs[words].seconds, 1e9 / count), f"ns a {unit}")
        beside = ratio(runs[words].seconds, runs[other].seconds, scale=other_count / count)
        bench.at_most(bound, f"{name}, beside {other[1]:,}", beside, "times")

    compare(3, "casts among 10,000 channels", "destination",
            ("cast", 10_000, 100), ("cast", 100, 10_000))
    for channels in (20_000, 40_000):
        compare(1.15, f"{channels:,} channels join and part", "channel",
                ("join", channels, 0), ("join", channels // 2, 0))
    compare(1.5, "Sees beside 65,536 ends", "See", ("see", 65_536, 0), ("see", 2, 0))

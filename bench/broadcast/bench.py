"""Times casts of a body of seven bytes to 1, 10, 100 and 1,000 members of one origin and name.

There are 1,000,000 posts in all at each size. A cast clones the body for each destination, posts
there, rings the bell, and answers the list of outcomes; what came is taken between the casts and
not timed. There is no bound.
"""

from measure import scaled

BUILDS = {
    "broadcast": ["hub_broadcast", "hub_depot", "hub_envelope", "hub_queue", "hub_test_parts"],
}
POSTS = 1_000_000
SIZES = [1, 10, 100, 1000]


def run(bench):
    program = bench.built("broadcast")
    runs = bench.in_turns({
        members: program.job(members, POSTS // members, told=[POSTS]) for members in SIZES
    })
    for members in SIZES:
        figure = scaled(runs[members].seconds, 1e6 / POSTS)
        bench.shows(f"a cast to {members:,}", figure, "us a destination")

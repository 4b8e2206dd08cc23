"""Times numbers over the ports and queues of embed/rust-ports, beside channels of Rust.

1,000,000 numbers of 64 bits go from one sender, and from four, to one taker, on threads beside
crossbeam-channel's unbounded channel and in tasks beside tokio's; 100,000 go there and back between
two threads that sleep. Both sides are one program over one crate, each where Debian's package of it
is installed. The figures are processor time of the whole process, but for the round trips, which
are by the clock. The bounds are on the best runs.
"""

from measure import Program, ratio, scaled

NUMBERS, ROUNDS = 1_000_000, 100_000
SOURCE = "rust_ports/reference.rs"
# What runs over which crate: how many send, how many numbers there are, and the least ratio.
RUNS = {
    ("crossbeam-channel", "flood", 1): (NUMBERS, 1),
    ("crossbeam-channel", "flood", 4): (NUMBERS, 1.2),
    ("crossbeam-channel", "round", 1): (ROUNDS, 1),
    ("tokio", "tasks", 1): (NUMBERS, 1),
    ("tokio", "tasks", 4): (NUMBERS, 1),
}
FEATURES = {"tokio": ["sync", "rt-multi-thread"]}


def run(bench):
    programs = {crate: built(bench, crate) for crate in {crate for crate, *_ in RUNS}}
    for (crate, what, senders), (numbers, bound) in RUNS.items():
        each = numbers // senders
        told = [numbers, senders * each * (each - 1) // 2]
        series = bench.in_turns({
            side: programs[crate].job(side, what, senders, each, told=told)
            for side in ("ports", "channels")
        })
        by_clock = what == "round"
        times = {side: it.seconds if by_clock else it.processor for side, it in series.items()}
        title, unit = f"{what}, {senders} to 1", "ns by the clock" if by_clock else "ns"
        for side, name in (("ports", "varukoni-ports"), ("channels", crate)):
            bench.shows(f"{title}, {name}", scaled(times[side], 1e9 / numbers), unit)
        beside = ratio(times["channels"], times["ports"])
        bench.at_least(bound, f"{title}, as fast as {crate}", beside, "times")


def built(bench, crate):
    """The program over a crate of Debian's and the one of embed/rust-ports."""
    folder, gap = bench.library
    if gap:
        return Program(gap=gap)
    beside = f'varukoni-ports = {{ path = "{folder / "rust-ports"}" }}'
    return bench.rust_over(crate, SOURCE, FEATURES.get(crate, []), beside)

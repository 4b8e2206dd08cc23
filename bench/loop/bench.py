"""Times the event loop: its deliveries, its turns in which no end has anything, and round trips.

The loop holds 1, 10, 100, 1,000 and 10,000 enabled ports, of which one is busy, and 10,000 of which
10, 100 and 1,000 are. Messages are posted 1,000 at a time and then delivered in as many turns,
which are timed. Beside it Node's MessagePorts in a Worker that listens at as many; it sleeps while
the messages are posted, and is timed from there to the last of them. A turn in which no end has
anything asks every enabled end once. Messages there and back go between two loops on two threads,
which park where they have nothing to deliver; one holds a single port, and the other one or 10,000.

Beside it too the channels of Rust's library in one thread, with no loop: what their takes cost more
where 1,000 of them are busy, or all are asked in vain, is what memory costs that is seldom reached.

The bounds are on the best runs: what one delivery takes more with many ports than with one, and how
much longer Node takes.
"""

from measure import ratio, scaled

BUILDS = {
    "loop": ["hub_envelope", "hub_life", "hub_loop", "hub_ports", "hub_queue", "hub_test_parts"],
}
SIZES = [1, 10, 100, 1_000, 10_000]
BUSY = [10, 100, 1_000]
MESSAGES = 200_000
MESSAGES_OF_NODE = 50_000
TRIPS = 100_000
# With how many ports turns are timed in which no end has anything, and how many of them.
IDLE = {1: 1_000_000, 100: 100_000, 10_000: 1_000}
MOST_BESIDE_ONE = 1.5
MOST_TRIP_BESIDE_ONE = 4
LEAST_BESIDE_NODE = 2
MOST_NANOSECONDS_AN_IDLE_END = 30


def run(bench):
    runs = bench.in_turns(jobs_of(bench))
    one = runs["deliveries 1 1"].seconds
    for ports, busy in shapes():
        name = named(ports, busy)
        seconds = runs[f"deliveries {ports} {busy}"].seconds
        bench.shows(f"deliveries, {name}", scaled(seconds, 1e6 / MESSAGES), "us")
        if ports > 1:
            beside = ratio(seconds, one)
            bench.at_most(MOST_BESIDE_ONE, f"deliveries, {name}, beside 1 port", beside, "times")
        if busy > 1:
            continue
        node = runs[f"Node {ports}"].seconds
        bench.shows(f"deliveries, {name}, Node", scaled(node, 1e6 / MESSAGES_OF_NODE), "us")
        beside = ratio(node, seconds, scale=MESSAGES / MESSAGES_OF_NODE)
        bench.at_least(LEAST_BESIDE_NODE, f"deliveries, {name}, beside Node", beside, "times")
    one = runs["channels 1 1"].seconds
    for ports, busy in shapes():
        beside = ratio(runs[f"channels {ports} {busy}"].seconds, one)
        bench.shows(f"channels of Rust, {named(ports, busy)}, beside 1 port", beside, "times")
    for ports, turns in IDLE.items():
        an_end = scaled(runs[f"idle channels {ports}"].seconds, 1e9 / turns / ports)
        bench.shows(f"channels of Rust, idle, {ports:,} ports, an end", an_end, "ns")
        an_end = scaled(runs[f"idle {ports}"].seconds, 1e9 / turns / ports)
        name = f"idle, {ports:,} ports, an end"
        if ports == max(IDLE):
            bench.at_most(MOST_NANOSECONDS_AN_IDLE_END, name, an_end, "ns")
        else:
            bench.shows(name, an_end, "ns")
    for ports in (1, max(SIZES)):
        trips = scaled(runs[f"trips {ports}"].seconds, 1e6 / TRIPS)
        bench.shows(f"there and back, {ports:,} ports", trips, "us")
    beside = ratio(runs[f"trips {max(SIZES)}"].seconds, runs["trips 1"].seconds)
    name = f"there and back, {max(SIZES):,} ports, beside 1 port"
    bench.at_most(MOST_TRIP_BESIDE_ONE, name, beside, "times")


def shapes():
    """How many ports the loop holds, and how many are busy."""
    return [*((ports, 1) for ports in SIZES), *((max(SIZES), busy) for busy in BUSY)]


def named(ports, busy):
    of_many = f", {busy:,} busy" if busy > 1 else ""
    return f"{ports:,} port{'s' if ports > 1 else ''}{of_many}"


def jobs_of(bench):
    program, node = bench.built("loop"), bench.node("loop/reference.mjs")
    channels = bench.rust("loop/reference.rs")
    jobs = {}
    for ports, busy in shapes():
        for name, own in (("deliveries", program), ("channels", channels)):
            words = "deliveries", ports, busy, MESSAGES
            jobs[f"{name} {ports} {busy}"] = own.job(*words, told=[MESSAGES])
        if busy == 1:
            words = ports, busy, MESSAGES_OF_NODE
            jobs[f"Node {ports}"] = node.job(*words, told=[MESSAGES_OF_NODE])
    for ports, turns in IDLE.items():
        jobs[f"idle {ports}"] = program.job("idle", ports, 1, turns, told=[turns])
        jobs[f"idle channels {ports}"] = channels.job("idle", ports, 1, turns, told=[turns])
    for ports in (1, max(SIZES)):
        jobs[f"trips {ports}"] = program.job("trips", ports, 1, TRIPS, told=[TRIPS])
    return jobs

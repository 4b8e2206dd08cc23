"""Times messages through one mailbox with its bell, beside Rust's channels and Node.

1,000,000 messages of a small body go from one poster, and from four, to one taker. The channels of
Rust have as many senders: std::sync::mpsc, and those of crossbeam-channel, flume, tokio and
async-channel, each where Debian's package of the crate is installed. All are without a limit, and
none runs in an async runtime. Node's MessageChannel goes to a Worker. The body has seven bytes, and
is made once and cloned for each message. The channels send clones of a String, which the receiver
drops; and in runs of their own structs with such a String and all else that an envelope carries,
since the mailbox moves that too. The text of a Body of at most 24 bytes lies in the body itself, so
that its clone takes no memory, as that of a String does; longer ones aren't timed here. Node sends
the text, and in runs of its own the JSON value that the text stands for. Posters are threads of
their own, and the taker is the first thread. Where it finds nothing it looks away for about a tenth
of a millisecond, since a taker that looks on slows the poster down, and parks once it has found
nothing ten times; the channels' receivers wait by themselves. With one poster the programs but Node
are held to two processors: else the one that the system happens to place well is faster threefold.
A run is timed from the first post to the last take.

The same envelopes go through the library's queue alone, with no gate and no bell; and again with
two additions to one word that all senders share, one before each push and one behind it, as a post
enters and leaves its gate (bench/queue_alone). What the mailbox moves beside that tells what all
the rest of a post and a take costs. In runs of its own with one poster the end is adopted 1,000
times on the way, to and fro between two loops in threads of their own. Last comes how much memory a
process has at most that adopts ends 1,000 and 1,000,000 times, with a post and takes until there is
nothing between.

The bounds are on the best runs, and on the medians for the queue with additions and the memory. A
run of mpsc in which the sender stays ahead of the receiver takes a third of the time of others, so
that the best ones alone say little.
"""

from measure import ANY, prints, rate, ratio, scaled

BUILDS = {
    "queue": ["hub_depot", "hub_envelope", "hub_queue", "hub_test_parts"],
    "queue_alone": ["crossbeam_queue", "crossbeam_utils", "hub_envelope"],
}
MESSAGES = 1_000_000
RIGHT = [MESSAGES, 7 * MESSAGES]
# The crates whose channels are peers, with the features that those need beside the default ones.
CRATES = {"crossbeam-channel": [], "flume": [], "tokio": ["sync"], "async-channel": []}
COUNTED = "the library's queue with two additions"
# How many messages go through the mailbox at least for one of these, and on which runs that is.
BOUNDS = {
    "mpsc of texts": (0.7, "best"), "mpsc of envelopes": (0.7, "best"),
    "Node, texts": (5, "best"), "Node, values": (5, "best"),
}
BOUNDS_OF_FOUR = {**BOUNDS, COUNTED: (0.9, "median")}


def run(bench):
    mailbox, alone = bench.built("queue"), bench.built("queue_alone")
    channels = bench.channels("queue/reference.rs", CRATES)
    report(bench, "1 to 1", BOUNDS, bench.in_turns({
        **jobs_of(mailbox, channels, alone, posters=1),
        **jobs_of_one(mailbox, bench.node("ports/reference.mjs")),
    }))
    four = bench.in_turns(jobs_of(mailbox, channels, alone, posters=4))
    report(bench, "4 to 1", BOUNDS_OF_FOUR, four)
    measure_memory(bench, mailbox)


def jobs_of(mailbox, channels, alone, posters):
    each, held = MESSAGES // posters, posters == 1
    jobs = {"mailbox": mailbox.job(posters, each, told=[*RIGHT, ANY], held=held)}
    for name, channel in channels.items():
        jobs[f"{name} of texts"] = channel.job(posters, each, told=RIGHT, held=held)
        jobs[f"{name} of envelopes"] = channel.job(posters, each, "envelope", told=RIGHT, held=held)
    jobs["the library's queue"] = alone.job(posters, each, told=RIGHT, held=held)
    jobs[COUNTED] = alone.job(posters, each, "counted", told=RIGHT, held=held)
    return jobs


def jobs_of_one(mailbox, node):
    """What is timed with one poster only."""
    return {
        "adopted 1,000 times": mailbox.job(1, MESSAGES, 1000, told=[*RIGHT, ANY], held=True),
        "Node, texts": node.job("texts", MESSAGES, told=RIGHT),
        "Node, values": node.job("values", MESSAGES, told=RIGHT),
    }


def report(bench, title, bounds, runs):
    mailbox = runs["mailbox"]
    bench.shows(f"{title}, parks", scaled(mailbox.told(3)))
    for name, series in runs.items():
        figure = rate(series.seconds, MESSAGES / 1e6)
        bench.shows(f"{title}, {name}", figure, "million messages a second")
        if name == "adopted 1,000 times":
            beside = ratio(mailbox.seconds, series.seconds)
            bench.at_least(0.5, f"{title}, {name}, beside never", beside, "times")
        elif series is not mailbox:
            beside = ratio(series.seconds, mailbox.seconds)
            report_beside(bench, f"{title}, mailbox beside {name}", beside, bounds.get(name))


def report_beside(bench, name, beside, bound):
    if bound:
        least, on = bound
        bench.at_least(least, name, beside, "times", on=on)
    else:
        bench.shows(name, beside, "times")


def measure_memory(bench, mailbox):
    runs = bench.in_turns({
        adoptions: mailbox.whole(0, adoptions, check=prints(b"%d\n" % adoptions), with_memory=True)
        for adoptions in (1000, 1_000_000)
    })
    for adoptions, series in runs.items():
        bench.shows(f"memory of {adoptions:,} adoptions", scaled(series.memory, 1 / 1024), "KB")
    beside = ratio(runs[1_000_000].memory, runs[1000].memory)
    name = "memory of 1,000,000 adoptions, beside 1,000"
    bench.at_most(1.1, name, beside, "times", on="median")

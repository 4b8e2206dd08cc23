"""Times messages over the ports and fans of `varukoni_ports.h`, beside channels of Rust.

1,000,000 messages go from one sender, and from four, to one taker, over a port for each or at one
fan: three words each, or a copy of 64 bytes; so they do over a ring in C. A taker with 10,000
ports, of which one is busy, finds that by its token, beside a taker with one port. The channels of
Rust are std::sync::mpsc and those of crossbeam-channel, flume and tokio, each where Debian's
package of the crate is installed; all are without a limit, and carry the same three words, or a
Vec of 64 bytes. The ring in C has room for 1,024 messages, and parks and wakes as the ports do.
Senders are threads of their own, and the taker is the first thread. The figures are processor time
of the whole process, a message, since the time by the clock tells more of how the threads were
placed. The bounds are on the best runs.
"""

from measure import ratio, scaled

MESSAGES = 1_000_000
CRATES = {"crossbeam-channel": [], "flume": [], "tokio": ["sync"]}
SENDERS = (1, 4)
OURS = ("port", "fan")
# How much of a peer's processor time a message takes at most: over a port from one sender, and at a
# fan from four. What else is timed has no bound.
BOUNDS = {
    ("port", 1): {
        "mpsc": 0.85, "crossbeam-channel": 0.75, "flume": 1, "tokio": 1, "ring in C": 2,
    },
    ("fan", 4): {"mpsc": 0.75, "crossbeam-channel": 0.75, "flume": 1, "tokio": 1},
}
IDLE = 10_000


def run(bench):
    ports = bench.c_over("varukoni_ports", "lines/lines.c")
    channels = bench.channels("lines/reference.rs", CRATES)
    for senders in SENDERS:
        for what in ("words", "bytes"):
            jobs = jobs_of(ports, channels, senders, what)
            report(bench, senders, what, bench.in_turns(jobs))
    told = [MESSAGES, MESSAGES * (MESSAGES - 1) // 2]
    one, many = bench.in_turns({
        count: ports.job(count, MESSAGES, "tokens", told=told) for count in (1, IDLE)
    }).values()
    bench.shows("1 port, by its token", scaled(one.processor, 1e9 / MESSAGES), "ns a message")
    title = f"{IDLE:,} ports of which one is busy, beside one"
    bench.shows(title, ratio(many.seconds, one.seconds), "times by the clock")


def jobs_of(ports, channels, senders, what):
    each = MESSAGES // senders
    told = [MESSAGES, senders * each * (each - 1) // 2]
    programs = {
        "port": (ports, what), "fan": (ports, word_of("fan", what)),
        "ring in C": (ports, word_of("ring", what)),
    }
    programs |= {name: (channel, what) for name, channel in channels.items()}
    return {
        name: program.job(senders, each, word, told=told)
        for name, (program, word) in programs.items()
    }


def word_of(kind, what):
    return kind if what == "words" else f"{kind}-{what}"


def report(bench, senders, what, runs):
    title = f"{senders} to 1, {what}"
    for name, series in runs.items():
        figure = scaled(series.processor, 1e9 / MESSAGES)
        bench.shows(f"{title}, {name}", figure, "ns of processors a message")
        if name in OURS:
            continue
        for our in OURS:
            bound = BOUNDS.get((our, senders), {}).get(name) if what == "words" else None
            beside = ratio(runs[our].processor, series.processor)
            if bound:
                bench.at_most(bound, f"{title}, {our} beside {name}", beside, "times")
            else:
                bench.shows(f"{title}, {our} beside {name}", beside, "times")

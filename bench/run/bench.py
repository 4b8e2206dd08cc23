"""Times runs of scripts: two windows that write to each other, and 4 and 16 windows in a ring.

Each of the two windows enables its queue, sends 2,000 messages to that of the other one and waits
for 2,000: 50 runs, so 100,000 messages each way. A script has at most 4,096 lines. Each of the 16
windows sends a message to the next one and waits for one, 127 times: 50 runs, so 101,600 messages.
Each of the 4 does so 508 times, which is as many messages.
The body of a message has seven bytes. What is timed is `run_agents`: for each run the agents and
their threads are made, and the threads have ended. The script is read once, before. The same runs
without messages tell what of that is the making and the ending.

Beside it the same messages go between Node's Workers, over a MessageChannel from each to the next
one, as JSON values and as texts. What differs is in Node's favour: the Workers and the channels are
made once and kept; one run is made before, which isn't timed; a run begins when its first Worker
begins; and an entry of a Worker's log is a plain object that holds the message and no copy of it.
The same is timed without those logs too. The hub can't be run without its logs.

Logging is timed for itself: as many threads as there are agents each make the calls that log the
messages of one agent's run, and read the clock round them. Their one body stays in the caches, and
those of a run come from other threads, so that it is rather too little. It has two shares: the time
of one such thread as a share of the time of a run, and the time of all as a share of the processor
time of the process that makes the runs, which also reads the script once and drops the logs.

There is no bound.
"""

from measure import rate, ratio, scaled

BUILDS = {"run": ["hub_envelope", "hub_run", "hub_script", "hub_trace"]}
RUNS = 50
# How many agents there are, how many rounds, and how many messages one sends in a round.
SHAPES = {
    "two agents": (2, 1, 2000),
    "4 agents in a ring": (4, 508, 1),
    "16 agents in a ring": (16, 127, 1),
}
PEERS = [(kind, keeping) for kind in ("values", "texts") for keeping in ("logged", "bare")]


def run(bench):
    program, node = bench.built("run"), bench.node("run/reference.mjs")
    for name, shape in SHAPES.items():
        runs = bench.in_turns(jobs_of(program, node, *shape))
        report(bench, name, *shape, runs)


def jobs_of(program, node, agents, rounds, messages):
    shape, told = (agents, rounds, messages, RUNS), [agents * rounds * messages * RUNS]
    return {
        "run": program.job("run", *shape, told=told),
        "log": program.job("log", *shape, told=told),
        "empty": program.job("run", agents, 0, 0, RUNS, told=[0]),
        **{peer: node.job(*shape, *peer, told=told) for peer in PEERS},
    }


def report(bench, name, agents, rounds, messages, runs):
    thousands = agents * rounds * messages * RUNS / 1000
    own, logging = runs["run"], runs["log"].seconds
    bench.shows(name, rate(own.seconds, thousands), "thousand messages a second")
    for peer in PEERS:
        seconds, title = runs[peer].seconds, f"{name}, Node, {', '.join(peer)}"
        bench.shows(title, rate(seconds, thousands), "thousand messages a second")
        bench.shows(f"{title}, beside it", ratio(seconds, own.seconds), "times")
    share = ratio(logging, own.seconds, scale=100 / agents)
    bench.shows(f"{name}, logging, of the time", share, "%")
    share = ratio(logging, own.processor, scale=100)
    bench.shows(f"{name}, logging, of processor time", share, "%")
    share = ratio(own.kernel, own.processor, scale=100)
    bench.shows(f"{name}, the kernel, of processor time", share, "%")
    empty = scaled(runs["empty"].seconds, 1e6 / RUNS)
    bench.shows(f"{name}, a run without messages", empty, "us")

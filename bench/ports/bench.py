"""Times messages through ports between threads, beside std::sync::mpsc and Node's MessageChannel.

Where a thread finds nothing it backs off for some microseconds and then parks, as the receivers of
mpsc do. The threads share one hub each time, and have no lock of their own before it.

- 1,000,000 posts of a small body from one thread to another. The body has seven bytes, and is made
  once and cloned for each post. A run is timed from the first post to the last take. mpsc sends
  clones of a String, which the receiver drops, and in runs of their own structs with all that an
  envelope carries (the text of so short a Body lies in the body itself, and its clone takes no
  memory); Node sends texts to a Worker, and in runs of their own the JSON values that they stand
  for. These programs are those of bench/queue.
- 100,000 messages there and back over one channel, beside two of mpsc, and Node's.
- 100,000 posts with one port each, made before, which the other thread adopts and closes: 25,000 at
  a time, each time with a new hub, since a hub has numbers for 65,536 ends. Beside it 25,000 of
  Node's, made before too.
- A port that is sent 100,000 times, to and fro between two threads, and is adopted and started each
  time, while a third thread posts at its peer without a stop. Whoever has the port takes at most 64
  times before it sends it on. What is left is taken once the third thread has ended, and the
  program fails unless all that was posted was taken then. A port may move 65,535 times, so a new
  hub with a new channel takes over after 65,534.

The bounds are on the medians.
"""

from measure import ANY, rate, ratio, scaled

BUILDS = {"ports": ["crossbeam_utils", "hub_envelope", "hub_ports", "hub_queue", "hub_test_parts"]}
BYTES = 7
MESSAGES = 1_000_000
TRIPS = 100_000
SENT = 100_000
SENT_BY_NODE = 25_000
MOVES = 100_000
# The peers of the posts, with how many messages go through the ports at least for one of theirs.
BOUNDS = {"mpsc of texts": 0.5, "mpsc of envelopes": 0.5, "Node, texts": 4, "Node, values": 4}


def run(bench):
    runs = bench.in_turns(jobs_of(bench))
    posts = runs["posts"].seconds
    bench.shows("posts", rate(posts, MESSAGES / 1e6), "million messages a second")
    bench.shows("posts, parks", scaled(runs["posts"].told(3)))
    for peer, bound in BOUNDS.items():
        seconds = runs[peer].seconds
        bench.shows(peer, rate(seconds, MESSAGES / 1e6), "million messages a second")
        bench.at_least(bound, f"posts beside {peer}", ratio(seconds, posts), "times", on="median")
    report_each(bench, runs, "a message there and back", "trips", TRIPS,
                {"mpsc": TRIPS, "Node": TRIPS})
    report_each(bench, runs, "a post with a port", "ports", SENT, {"Node": SENT_BY_NODE})
    report_each(bench, runs, "a move while another posts", "moves", MOVES, {})
    messages = scaled(runs["moves"].told(2), 1 / BYTES / MOVES)
    bench.shows("messages of the third thread a move", messages)


def report_each(bench, runs, title, name, count, peers):
    """What one thing takes of so many, beside that of the peers."""
    own = runs[name].seconds
    bench.shows(title, scaled(own, 1e6 / count), "us")
    for peer, peer_count in peers.items():
        seconds = runs[f"{name}, {peer}"].seconds
        bench.shows(f"{title}, {peer}", scaled(seconds, 1e6 / peer_count), "us")
        beside = ratio(seconds, own, scale=count / peer_count)
        bench.shows(f"{title}, beside {peer}", beside, "times")


def jobs_of(bench):
    ports, mpsc = bench.built("ports"), bench.rust("queue/reference.rs")
    mpsc_trips = bench.rust("ports/reference.rs")
    node = bench.node("ports/reference.mjs")

    def right(count):
        return [count, count * BYTES]

    return {
        "posts": ports.job("posts", MESSAGES, told=[*right(MESSAGES), ANY]),
        "mpsc of texts": mpsc.job(1, MESSAGES, told=right(MESSAGES)),
        "mpsc of envelopes": mpsc.job(1, MESSAGES, "envelope", told=right(MESSAGES)),
        "Node, texts": node.job("texts", MESSAGES, told=right(MESSAGES)),
        "Node, values": node.job("values", MESSAGES, told=right(MESSAGES)),
        "trips": ports.job("trips", TRIPS, told=[*right(TRIPS), ANY]),
        "trips, mpsc": mpsc_trips.job(TRIPS, told=right(TRIPS)),
        "trips, Node": node.job("trips", TRIPS, told=right(TRIPS)),
        "ports": ports.job("ports", SENT, told=[*right(SENT), ANY]),
        "ports, Node": node.job("ports", SENT_BY_NODE, told=right(SENT_BY_NODE)),
        "moves": ports.job("moves", MOVES, told=[MOVES, ANY, ANY]),
    }

"""Times tools/view on logs of 10,000 entries, and a browser that loads its page and scrolls it.

The logs are of 16 agents that put and get 5,000 messages at 50 ends. The page is loaded by a
headless Chromium from a file, from the begin of the navigation to the end of the load event and the
first frame behind it; then it is scrolled by 400 pixels in each of 120 frames. A frame is due every
16.7 ms. The bounds are on the best runs. Without a Chromium the page alone is made.
"""

import collections
import pathlib
import random
import sys

from measure import ANY, HERE, Failure, Program, files_in_memory, found_tool, scaled

TURNS = 3
MESSAGES = 5_000
AGENTS = 16
ENDS = 50
# How many messages an agent gets late.
LATE = 6


def run(bench):
    view = Program((sys.executable, "-B", HERE.parent / "tools" / "view"))
    chromium = found_tool("chromium")
    browser = Program((sys.executable, "-B", HERE / "view" / "load.py"), chromium.gap)
    with files_in_memory(room=100_000_000) as folder:
        source, page = folder / "logs", folder / "run.html"
        source.write_bytes(logs())
        runs = bench.in_turns({
            "make": view.whole(source=source, check=kept(page), with_memory=True),
            "load": browser.job(page, told=[MESSAGES, ANY, ANY]),
        })
    make, load, name = runs["make"], runs["load"], f"{2 * MESSAGES:,} entries"
    bench.shows(f"{name}, make the page", scaled(make.seconds), "s")
    bench.shows(f"{name}, the page", scaled(make.told(0), 1e-6), "MB")
    bench.shows(f"{name}, make the page, memory", scaled(make.memory, 1e-6), "MB")
    bench.at_most(2, f"{name}, load the page", scaled(load.seconds), "s")
    bench.at_most(20, f"{name}, scroll, median frame", scaled(load.told(2), 1e-3), "ms")
    bench.shows(f"{name}, scroll, longest frame", scaled(load.told(3), 1e-3), "ms")


def kept(page):
    """A check that the page has an arrow for each delivery, which keeps it, and tells its size."""

    def check(output):
        text = output.read_bytes()
        count = text.count(b'class="delivery ')
        if count != MESSAGES:
            raise Failure(f"the page has {count} arrows, and not {MESSAGES}")
        pathlib.Path(page).write_bytes(text)
        return [len(text)]

    return check


def logs():
    """The logs of agents that get what the next agent puts, a few messages late."""
    chance, posted = random.Random(7), collections.Counter()
    entries, waiting = [[] for _ in range(AGENTS)], collections.deque()
    for number in range(MESSAGES):
        end = chance.randrange(ENDS)
        entry = f'{end} 0 0:{posted[end]} - {{"number":{number},"text":"message {number}"}}\n'
        posted[end] += 1
        entries[(end + 1) % AGENTS].append(f"put {entry}")
        waiting.append((end % AGENTS, f"got {entry}"))
        if len(waiting) > LATE:
            agent, got = waiting.popleft()
            entries[agent].append(got)
    for agent, got in waiting:
        entries[agent].append(got)
    agents = (f"agent {agent}\n{''.join(lines)}" for agent, lines in enumerate(entries))
    return f"hublog 3\n{''.join(agents)}".encode()

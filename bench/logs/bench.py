"""Times `messagehub check` beside `sort` on the same logs, in clean order.

There are 250,000, 500,000 and 1,000,000 entries of 16 agents at 1,000 ends, half of them put and
half of them got, with bodies as logs write them, that is compact. The bounds are on the best runs
by wall time, and on the highest for memory. Processor time stands beside it, since a busy machine
lengthens the first, and sort works on several processors.
"""

import collections
import random

from measure import files_in_memory, found_tool, prints, ratio, scaled

COUNTS = [250_000, 500_000, 1_000_000]
AGENTS = 16
ENDS = 1000


def run(bench):
    sort = found_tool("sort")
    with files_in_memory(room=100 * sum(COUNTS)) as folder:
        jobs = {}
        for count in COUNTS:
            source, text = folder / str(count), log_of(count)
            source.write_bytes(text)
            jobs["check", count] = bench.messagehub.whole(
                "check", source=source, check=prints(b"clean\n"), with_memory=True
            )
            lines = sorted(text.splitlines(keepends=True))
            jobs["sort", count] = sort.whole(source=source, check=prints(b"".join(lines)))
        runs = bench.in_turns(jobs)
    for count in COUNTS:
        half = runs.get(("check", count // 2))
        report(bench, f"{count:,} entries", count, runs["check", count], runs["sort", count], half)


def report(bench, name, count, check, sort, half):
    for program, series in (("check", check), ("sort", sort)):
        bench.shows(f"{name}, {program}", scaled(series.seconds), "s")
        bench.shows(f"{name}, {program}, processor", scaled(series.processor), "s")
    bench.at_most(3, f"{name}, beside sort", ratio(check.seconds, sort.seconds), "times")
    bench.beside_half(2.6, name, check, half)
    memory = scaled(check.memory, 1 / count)
    bench.at_most(400, f"{name}, memory", memory, "bytes an entry", on="highest")


def log_of(entries):
    """The text of a log. Each end has two lines; the agents that post and take there differ."""
    chance = random.Random(7)
    posted = collections.Counter()
    puts, gots = ([[] for _ in range(AGENTS)] for _ in range(2))
    for number in range(entries // 2):
        end, line = chance.randrange(ENDS), chance.randrange(2)
        name = f"{end} {line} 0:{posted[end, line]}"
        posted[end, line] += 1
        entry = f'{name} - {{"from":{line},"text":"message {number}"}}\n'
        puts[(2 * end + line) % AGENTS].append(f"put {entry}")
        gots[(end + 5) % AGENTS].append(f"got {entry}")
    agents = [
        f"agent {agent}\n{''.join(puts[agent])}{''.join(gots[agent])}" for agent in range(AGENTS)
    ]
    return f"hublog 3\n{''.join(agents)}".encode()

"""Times tools/report beside tools/judge on the same logs, those of bench/logs: 1,000,000 entries.

Both read standard input, and the report judges alone. It may take 3 times as long, and 60 s on an
idle machine; beside it stands half as many entries. The bounds are on the best runs.
"""

import sys

from measure import HERE, Failure, Program, files_in_memory, prints, ratio, scaled

from logs.bench import log_of

COUNTS = [500_000, 1_000_000]
TOOLS = HERE.parent / "tools"


def run(bench):
    judge = Program((sys.executable, "-B", TOOLS / "judge"))
    with files_in_memory(room=100 * sum(COUNTS)) as folder:
        # It stands in for the program, so that the report is timed alone.
        content = folder / "content"
        content.write_text("#!/bin/sh\necho clean\n", "utf-8")
        content.chmod(0o755)
        report = Program((sys.executable, "-B", TOOLS / "report", "--program", content))
        jobs = {}
        for count in COUNTS:
            source = folder / str(count)
            source.write_bytes(log_of(count))
            jobs["judge", count] = judge.whole(source=source, check=prints(b"clean\n"))
            jobs["report", count] = report.whole(source=source, check=is_right, with_memory=True)
        runs = bench.in_turns(jobs)
    for count in COUNTS:
        found, other = runs["report", count], runs["judge", count]
        bench.shows(f"{count:,} entries, judge", scaled(other.seconds), "s")
        bench.at_most(60, f"{count:,} entries, report", scaled(found.seconds), "s")
        bench.at_most(3, f"{count:,} entries, beside judge", ratio(found.seconds, other.seconds),
                      "times")
        bench.shows(f"{count:,} entries, memory", scaled(found.memory, 1 / count), "bytes an entry")
    half, whole = (runs["report", count] for count in COUNTS)
    bench.beside_half(2.3, "1,000,000 entries", whole, half)


def is_right(output):
    with open(output, "rb") as file:
        if not file.readline().startswith(b"right: "):
            raise Failure("the report isn't that all is right")
    return []

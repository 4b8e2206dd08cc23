"""Times `messagehub run` as a whole process on 25 scripts of 4,096 lines: reading, and running.

What is read alone ends in a line that is refused, so that nothing of it is run. One shape has sends
with bodies, the other channels and sends that each transfer a port of one. The processes of the
program, each from its start to its end, may take together twice the time that Python's `json.loads`
takes for the same lines, which stand as texts in its memory before. The bound is on the medians.

What is run has two windows, each of which starts its queue, sends 2,045 messages to the other one
and waits for as many. Beside it a Node process reads the same script, and posts the bodies as JSON
values over a MessageChannel between two Workers. Logged, it prints an entry for each message that
was posted and for each that came, as the program does; bare, it prints how many came. The program
has no bare run, and prints what was delivered and its verdict besides. There is no bound.
"""

from measure import (
    Failure, Values, files_in_memory, found_tool, gap_of, prints, ratio, scaled, tells,
)

SCRIPTS = 25
LINES = 4096
SENDS = (LINES - 6) // 2
CHANNELS = (LINES - 4) // 2
BAD_INPUT = 2
WINDOW = '{"agent":"window","origin":"https://a.test"}'
UNKNOWN_AGENT = '{"at":0,"send":2,"body":null}'
TIME_JSON = """
import json, sys, time
lines = sys.stdin.read().splitlines()
begin = time.perf_counter_ns()
for line in lines:
    json.loads(line)
print((time.perf_counter_ns() - begin) // 1000, len(lines))
"""


def run(bench):
    python, node = found_tool("python3"), bench.node("run_scripts/reference.mjs")
    for name, lines_of in (("sends", sends), ("channels and transfers", transfers)):
        with files_in_memory(room=SCRIPTS * LINES * 100) as folder:
            jobs = {}
            for number in range(SCRIPTS):
                source = written(folder, number, [*lines_of(number), UNKNOWN_AGENT])
                jobs["messagehub", number] = bench.messagehub.whole(
                    "run", source=source, check=prints(b"line %d: UnknownName\n" % LINES),
                    status=BAD_INPUT,
                )
                jobs["json", number] = python.whole(
                    "-c", TIME_JSON, source=source, check=tells(LINES)
                )
            report_reading(bench, f"reading, {name}", bench.in_turns(jobs))
    with files_in_memory(room=SCRIPTS * LINES * 300) as folder:
        jobs = {}
        for number in range(SCRIPTS):
            source = written(folder, number, exchange(number))
            jobs["messagehub", number] = bench.messagehub.whole("run", source=source, check=logged)
            jobs["Node, logged", number] = node.whole("logged", source=source, check=logged)
            jobs["Node, bare", number] = node.whole(
                "bare", source=source, check=prints(b"%d\n" % (2 * SENDS))
            )
        report_running(bench, bench.in_turns(jobs))


def report_reading(bench, name, runs):
    own = total(runs["messagehub", number].seconds for number in range(SCRIPTS))
    parsing = total(runs["json", number].told(0) for number in range(SCRIPTS))
    bench.shows(f"{name}, messagehub", scaled(own), "s")
    bench.shows(f"{name}, Python's json", scaled(parsing, 1e-6), "s")
    beside = ratio(own, parsing, scale=1e6)
    bench.at_most(2, f"{name}, beside Python's json", beside, "times", on="median")


def report_running(bench, runs):
    names = dict.fromkeys(name for name, _ in runs)
    seconds = {
        name: total(runs[name, number].seconds for number in range(SCRIPTS)) for name in names
    }
    own = seconds["messagehub"]
    for name in names:
        bench.shows(f"running, {name}", scaled(seconds[name]), "s")
    for name in ("Node, logged", "Node, bare"):
        bench.shows(f"running, {name}, beside it", ratio(seconds[name], own), "times")


def total(parts):
    """The sum of these in each turn."""
    parts = list(parts)
    return Values([sum(turn) for turn in zip(*(part.numbers for part in parts))], gap_of(*parts))


def written(folder, number, lines):
    source = folder / f"script{number}"
    source.write_text("".join(f"{line}\n" for line in lines), encoding="ascii")
    return source


def body(number):
    return f'{{"n":{number},"s":"abcde"}}'


def sends(seed):
    lines = (f'{{"at":0,"send":1,"body":{body(seed + number)}}}' for number in range(LINES - 3))
    return [WINDOW, WINDOW, *lines]


def transfers(seed):
    channels = (f'{{"channel":["a{port}","b{port}"],"at":0}}' for port in range(CHANNELS))
    lines = (
        f'{{"at":0,"send":1,"body":{body(seed + port)},"transfer":["b{port}"]}}'
        for port in range(CHANNELS)
    )
    return [WINDOW, WINDOW, *channels, '{"at":0,"start":"queue"}', *lines]


def exchange(seed):
    lines = [WINDOW, WINDOW]
    for at in range(2):
        lines.append(f'{{"at":{at},"start":"queue"}}')
        lines += (
            f'{{"at":{at},"send":{1 - at},"body":{body(seed + number)}}}'
            for number in range(SENDS)
        )
        lines.append(f'{{"at":{at},"wait":{SENDS}}}')
    return lines


def logged(output):
    """A check that each message was put and got, and that the logs of the program are clean."""
    lines = output.read_bytes().splitlines()
    for kind in (b"put ", b"got "):
        if (count := sum(line.startswith(kind) for line in lines)) != 2 * SENDS:
            raise Failure(f"it printed {count} entries {kind.decode()}, not {2 * SENDS}")
    if b"deliveries" in lines and lines[-1] != b"clean":
        raise Failure(f"it printed {lines[-1][:60]!r} last, and not clean")
    return []

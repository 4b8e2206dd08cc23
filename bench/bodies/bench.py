"""Times the reading and writing of message bodies, beside Node's JSON.parse and JSON.stringify.

There are 100,000 bodies of 100 bytes, 100 of 60,000 and 25 of 250,000, each set in one file of step
lines. `messagehub steps` reads, checks, posts and takes each of them and prints its compact text.
A Node process reads the same file and does both calls on each body. The whole process of the
program, from its start to its end, may take twice what these two calls take within Node's; the
bound is on the medians.
"""

from measure import Failure, difference, files_in_memory, prints, ratio, scaled

SETS = [(100_000, 100), (100, 60_000), (25, 250_000)]


def run(bench):
    node = bench.node("bodies/reference.mjs")
    for count, size in SETS:
        with files_in_memory(room=3 * count * (size + 40)) as folder:
            bodies = [body(size, number) for number in range(count)]
            source = folder / "input"
            source.write_text(steps(bodies), encoding="ascii")
            runs = bench.in_turns({
                "messagehub": bench.messagehub.whole(
                    "steps", source=source, check=prints(outcomes(bodies).encode())
                ),
                "Node": node.whole(source=source, check=parsed(bodies)),
            })
        report(bench, f"{count:,} of {size:,} bytes", runs["messagehub"], runs["Node"])


def report(bench, name, own, node):
    bench.shows(f"{name}, messagehub", scaled(own.seconds), "s")
    bench.shows(f"{name}, Node", scaled(node.seconds), "s")
    bench.shows(f"{name}, the calls in Node", scaled(node.told(0), 1e-6), "s")
    beside = ratio(own.seconds, node.told(0), scale=1e6)
    bench.at_most(2, f"{name}, beside the calls", beside, "times", on="median")


def body(size, seed):
    """A JSON text of so many bytes: an object of small members, and one that fills it up.

    Keys stand in byte order, so that the compact text of a body is the body.
    """
    start, end = f'{{"id":{seed},"items":[', '],"kind":"note","rest":"'
    items, length = [], len(start) + len(end) + 2
    while True:
        number = len(items)
        is_on = "true" if number % 2 == 0 else "false"
        item = f'{{"at":{(seed * 31 + number * 7) % 100_000},"on":{is_on}}}'
        length += len(item) + (number > 0)
        if length > size:
            break
        items.append(item)
    text = start + ",".join(items) + end
    return text + "x" * (size - len(text) - 2) + '"}'


def steps(bodies):
    posts = "".join(f"post 0 - {body}\n" for body in bodies)
    return "agent -\nchannel 0\nstart 1\n" + posts + "take 1\n" * len(bodies)


def outcomes(bodies):
    accepted = "".join(f"accepted 0:{number}\n" for number in range(len(bodies)))
    got = "".join(f"got 0:{number} from 0 {body}\n" for number, body in enumerate(bodies))
    return "agent 0\nends 0 1\nstarted\n" + accepted + got


def parsed(bodies):
    """A check that Node printed the microseconds of its calls, and then the bodies."""
    right = "".join(f"{body}\n" for body in bodies).encode()

    def check(output):
        micros, _, found = output.read_bytes().partition(b"\n")
        if found != right:
            raise Failure(difference(found, right))
        if not micros.isdigit() or int(micros) == 0:
            raise Failure(f"its calls took {micros[:60]} microseconds")
        return [int(micros)]

    return check

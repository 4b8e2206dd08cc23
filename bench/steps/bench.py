"""Times `messagehub steps` beside a Node program and a plain Rust program of the same job.

There are two shapes, each with 1,000,000 and 2,000,000 lines of `post` and `take` with bodies of
about 20 bytes: takes that follow their posts, and all the posts before all the takes. The programs
read the same files, and all have to write the same outcome lines. The bounds are on the best of
three runs by wall time, and on the highest for memory.
"""

from measure import files_in_memory, prints, ratio, scaled

TURNS = 3
COUNTS = [1_000_000, 2_000_000]


def run(bench):
    programs = {
        "messagehub": (bench.messagehub, "steps"),
        "Node": (bench.node("steps/reference.mjs"),),
        "Rust": (bench.rust("steps/reference.rs"),),
    }
    for shape_name, shape in SHAPES.items():
        with files_in_memory(room=50 * sum(COUNTS)) as folder:
            runs = bench.in_turns(jobs_of(folder, programs, shape))
        half = None
        for count in COUNTS:
            of_count = {program: runs[program, count] for program in programs}
            report(bench, f"{shape_name}, {count:,} lines", count, of_count, half)
            half = of_count["messagehub"]


def jobs_of(folder, programs, shape):
    """Each program on each file. All of them take turns, since a file is compared with its half."""
    jobs = {}
    for count in COUNTS:
        source = folder / str(count)
        check = step_file(source, shape, count // 2)
        for name, (program, *words) in programs.items():
            jobs[name, count] = program.whole(*words, source=source, check=check, with_memory=True)
    return jobs


def report(bench, name, count, runs, half):
    own = runs["messagehub"]
    for program, series in runs.items():
        bench.shows(f"{name}, {program}", scaled(series.seconds), "s")
        bench.shows(f"{name}, {program}, processor", scaled(series.processor), "s")
    bench.at_most(0.25, f"{name}, beside Node", ratio(own.seconds, runs["Node"].seconds), "times")
    bench.at_most(1.4, f"{name}, beside Rust", ratio(own.seconds, runs["Rust"].seconds), "times")
    memory = scaled(own.memory, 1 / count)
    bench.at_most(120, f"{name}, memory", memory, "bytes a line", on="highest")
    for program in ("Node", "Rust"):
        memory = scaled(runs[program].memory, 1 / count)
        bench.shows(f"{name}, memory of {program}", memory, "bytes a line")
    bench.beside_half(2.3, name, own, half)


def body(number):
    return b'{"n":%d,"s":"abcde"}' % (number % 1_000_000)


def in_turn(posts):
    """So many posts, each with its take behind it, and their outcome lines."""
    lines = b"".join(b"post 0 - %s\ntake 1\n" % body(number) for number in range(posts))
    outcomes = b"".join(
        b"accepted 0:%d\ngot 0:%d from 0 %s\n" % (number, number, body(number))
        for number in range(posts)
    )
    return lines, outcomes


def posts_first(posts):
    """So many posts and then their takes, and their outcome lines."""
    lines = b"".join(b"post 0 - %s\n" % body(number) for number in range(posts))
    accepted = b"".join(b"accepted 0:%d\n" % number for number in range(posts))
    got = b"".join(b"got 0:%d from 0 %s\n" % (number, body(number)) for number in range(posts))
    return lines + b"take 1\n" * posts, accepted + got


SHAPES = {"in turn": in_turn, "posts first": posts_first}


def step_file(path, shape, posts):
    """Writes a file of so many posts and takes, and gives the check of what is printed for it."""
    lines, outcomes = shape(posts)
    path.write_bytes(b"agent -\nchannel 0\nstart 1\n" + lines)
    return prints(b"agent 0\nends 0 1\nstarted\n" + outcomes)

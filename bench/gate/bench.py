"""Times enter and leave pairs at a gate of four lines, by 1, 2 and 4 threads.

Beside it stand a fetch_add and a fetch_sub on an AtomicU64 in the same pattern. In both programs
the word lies on the heap behind an Arc, the results of both fetches are used, and threads are made
alike: each cut leaves one half of the jobs in the caller's thread, so a single job needs no thread.
Each thread reads the clock round its pairs alone. A run has so many pairs that the faster program
takes over 0.6 s. The same AtomicU64 with a slot a line beside it, from which each pair takes a
value and puts it back, says what slots cost without the gate. The bounds are on the best runs.
"""

from measure import rate, ratio

BUILDS = {"gate": ["hub_gate"]}
LEAST_SECONDS = 0.6
MOST_PAIRS = 1_000_000_000


def run(bench):
    gate, bare = bench.built("gate"), bench.rust("gate/reference.rs")
    for threads in (1, 2, 4):
        pairs, jobs = long_enough(bench, gate, bare, threads)
        runs = bench.in_turns(jobs)
        for name, series in runs.items():
            figure = rate(series.seconds, threads * pairs / 1e6)
            bench.shows(f"{threads} threads, {name}", figure, "million pairs a second")
        bare_seconds = runs["AtomicU64"].seconds
        beside = {name: ratio(series.seconds, bare_seconds) for name, series in runs.items()}
        bench.at_most(3, f"{threads} threads, beside AtomicU64", beside["gate"], "times")
        bench.shows(f"{threads} threads, slots beside none", beside["slots"], "times")


def long_enough(bench, gate, bare, threads):
    """So many pairs that the faster program takes long enough, and the jobs that make them."""
    pairs = 1_000_000
    while True:
        # Each entry has to be let in, and no leave may find ENABLED.
        right = [threads * pairs, 0]
        jobs = {
            "gate": gate.job(threads, pairs, told=right),
            "AtomicU64": bare.job(threads, pairs, told=right),
        }
        trials = bench.in_turns(jobs, turns=1)
        seconds = [number for trial in trials.values() for number in trial.seconds.numbers]
        if min(seconds, default=LEAST_SECONDS) >= LEAST_SECONDS or pairs >= MOST_PAIRS:
            break
        pairs *= 2
    jobs = {name: job.after(trials[name]) for name, job in jobs.items()}
    return pairs, {**jobs, "slots": bare.job(threads, pairs, "slots", told=right)}

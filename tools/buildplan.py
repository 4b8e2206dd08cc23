"""In which order the crates of a build are proved, with how many processors, and how long it takes.

A `Plan` knows what is done and what is at work, and nothing of processes and clocks: tools/build
tells it what happened when. It foresees the rest of a build by playing it, with the processor time
that each crate took before, and corrects that by how fast the build was until now.
"""

import copy
import dataclasses
import math

# Processor seconds that the proof of a crate took on the machine of docs/MEASURED.md. Only the
# estimate of the time that is left, and which crate is begun first, rest on them.
SECONDS = {
    "hub_core": 300, "hub_steps": 340, "hub_agent": 295, "hub_loop": 290, "hub_queue": 230,
    "hub_run": 195, "hub_script": 170, "hub_trace": 140, "messagehub": 120, "hub_modes": 120,
    "hub_ports": 115, "hub_broadcast": 115, "hub_clients": 115, "hub_envelope": 75, "hub_gate": 55,
}
SECONDS_OF_ANOTHER = 30
# How many processors a crate can use at most, and how many of them do work that one alone would do.
MOST_JOBS = 4
MOST_SPEED = 2.6
# Which part of the longest chain another one has to take for its crates to be as urgent.
URGENT = 0.9
# A crate that is built beside the longest chain gets more than one job from this weight on: it runs
# at a lower priority, so that it takes the processors that nobody else uses.
HEAVY = 100
# Memory in kB: what a crate takes with one job, and what each further one adds.
ROOM, ROOM_OF_A_JOB = 3_000_000, 1_200_000
# How many seconds of the plan count beside those that passed, in how fast the build is.
TRUSTED = 240
# By what part the time that is left may rise above the least that was told.
RISE = 0.1


@dataclasses.dataclass
class Job:
    """A crate at work: since when, with how many jobs, and what is left of its processor time."""

    name: str
    jobs: int
    is_urgent: bool
    since: float
    left: float


class Plan:
    """A build of crates, each with those that it stands on, on so many processors and lanes.

    `pace` is how many times longer all takes, since the processors have other work too.
    """

    def __init__(self, crates, processors, lanes, memory=math.inf, pace=1.0):
        self.crates, self.processors, self.pace = crates, processors, pace
        self.lanes, self.memory = lanes, memory
        self.above = {name: [it for it in crates if name in crates[it]] for name in crates}
        self.done, self.at_work, self.now = set(), {}, 0.0
        self.chains = {}
        self.whole = self.foreseen()
        self.least = math.inf

    def weight(self, name):
        return SECONDS.get(name, SECONDS_OF_ANOTHER)

    def chain(self, name):
        """The work of the longest chain that begins with the crate."""
        if name not in self.chains:
            above = max(map(self.chain, self.above[name]), default=0)
            self.chains[name] = self.weight(name) + above
        return self.chains[name]

    def rest(self, name):
        """What is left of the longest chain that begins with the crate, which may be at work."""
        worked = self.weight(name) - self.at_work[name].left if name in self.at_work else 0
        return self.chain(name) - worked

    def is_urgent(self, name):
        """Whether the whole build waits for the crate."""
        left = [it for it in self.crates if it not in self.done]
        return self.rest(name) >= URGENT * max(map(self.rest, left))

    def ready(self):
        names = [
            name for name, deps in self.crates.items()
            if name not in self.done and name not in self.at_work and self.done.issuperset(deps)
        ]
        return sorted(names, key=lambda it: (-self.chain(it), it))

    def begin(self):
        """The jobs that are begun now. Where no crate is at work that the build waits for, the last
        lane is kept for such a one."""
        begun = []
        for name in self.ready():
            is_urgent = self.is_urgent(name)
            free = self.lanes - len(self.at_work)
            waits = any(it.is_urgent for it in self.at_work.values())
            if free == 0 or (free == 1 < self.lanes and not is_urgent and not waits):
                break
            job = Job(name, self.jobs_for(name, is_urgent), is_urgent, self.now, self.weight(name))
            self.at_work[name] = job
            begun.append(job)
        return begun

    def jobs_for(self, name, is_urgent):
        """How many jobs a crate gets: the urgent ones share the processors, and a heavy one beside
        them gets what memory has room for."""
        if is_urgent:
            others = sum(it.is_urgent for it in self.at_work.values())
            urgent = [it for it in self.ready() if self.is_urgent(it)]
            return min(MOST_JOBS, -(-self.processors // max(1, others + len(urgent))))
        if self.weight(name) < HEAVY:
            return 1
        taken = sum(ROOM + ROOM_OF_A_JOB * (it.jobs - 1) for it in self.at_work.values())
        # An urgent crate may come.
        taken += ROOM + ROOM_OF_A_JOB * (MOST_JOBS - 1)
        room = (self.memory - taken - ROOM) // ROOM_OF_A_JOB
        return int(max(1, min(MOST_JOBS, self.processors, 1 + room)))

    def end(self, name, is_new=True):
        """The crate is done. One that was proved before says nothing of how fast the build is."""
        before = 0 if is_new else self.foreseen()
        self.at_work.pop(name, None)
        self.done.add(name)
        if not is_new:
            self.whole -= before - self.foreseen()

    # What is foreseen

    def speeds(self):
        """How many seconds of work each crate at work gets done in a second."""
        free, found = self.processors, {}
        for is_urgent in (True, False):
            jobs = [it for it in self.at_work.values() if it.is_urgent == is_urgent]
            wanted = sum(it.jobs for it in jobs)
            share = min(1, free / wanted) if wanted else 0
            for it in jobs:
                found[it.name] = max(0.05, min(MOST_SPEED, it.jobs * share))
            free -= wanted * share
        return found

    def play(self, seconds):
        """Lets so much time pass for what is at work. No crate is done by that alone."""
        for name, speed in self.speeds().items():
            job = self.at_work[name]
            job.left = max(0.05 * self.weight(name), job.left - speed * seconds)
        self.now += seconds

    def copy(self):
        other = copy.copy(self)
        other.done = set(self.done)
        other.at_work = {name: dataclasses.replace(it) for name, it in self.at_work.items()}
        return other

    def foreseen(self):
        """How many seconds the rest takes by this plan."""
        other = self.copy()
        start = other.now
        while len(other.done) < len(other.crates):
            other.begin()
            speeds = other.speeds()
            job = min(other.at_work.values(), key=lambda it: it.left / speeds[it.name])
            other.play(job.left / speeds[job.name])
            other.end(job.name)
        return other.now - start

    def left(self):
        rest = self.foreseen()
        done = max(0.0, self.whole - rest)
        return rest * (self.now + self.pace * TRUSTED) / (done + TRUSTED)

    def told_left(self):
        """The same in words, or nothing at the end. No number is above the least by more than a
        tenth: of a build that takes longer than that it says so."""
        minutes = round(self.left() / 60)
        if len(self.done) == len(self.crates):
            return ""
        if minutes <= self.least:
            self.least = minutes
        elif minutes > int(self.least * (1 + RISE)):
            return f", more than {int(self.least * (1 + RISE))} min left"
        return f", about {minutes} min left" if minutes else ", less than a minute left"

"""Runs a script on simulated threads, one step at a time, in an order that is drawn from a seed."""

import random

import hublog
from simulator.agent import Agent
from simulator.hub import INSIDE, Hub


class Stuck(Exception):
    """All agents that haven't ended, `going`, wait for one another."""

    def __init__(self, going):
        where = (f"agent {it.number} at {it.action and it.action.word}" for it in going)
        super().__init__(", ".join(where))
        self.going = going


class Schedule:
    """Which agent goes on next. There are four ways, and the seed draws one.

    Evenly: any that can. In runs: the same one for a while. With pauses: any, but now and then one
    stands still for many steps, if others can go on, and most often inside a queue. By rank: always
    the first in rank that can, whose rank falls to the last now and then; so some agents are far
    behind the others.
    """

    def __init__(self, seed, agents):
        self.random = random.Random(seed)
        ways = ["evenly", "in runs", "with pauses", "with pauses", "by rank"]
        self.way = self.random.choice(ways)
        self.stay = self.random.choice([0.5, 0.9, 0.99])
        self.pause, self.pause_inside = self.random.choice([(0, 0.1), (0.02, 0.1), (0.02, 0.5)])
        self.fall = self.random.choice([0.0, 0.001, 0.02])
        self.ranks = list(range(agents))
        self.random.shuffle(self.ranks)
        self.last = None
        # How many steps there were, and before which one an agent doesn't go on.
        self.steps, self.paused = 0, [0] * agents

    def next_of(self, ready):
        if self.way == "by rank":
            self.last = min(ready, key=self.ranks.__getitem__)
            if self.random.random() < self.fall:
                self.ranks[self.last] = max(self.ranks) + 1
        elif self.way == "with pauses":
            going = [at for at in ready if self.paused[at] <= self.steps]
            self.last = self.random.choice(going or ready)
        elif self.way == "evenly" or self.last not in ready or self.random.random() > self.stay:
            self.last = self.random.choice(ready)
        return self.last

    def after_step(self, at, is_inside):
        self.steps += 1
        if self.random.random() < (self.pause_inside if is_inside else self.pause):
            self.paused[at] = self.steps + self.random.randint(1, 300)


def run_agents(agents, hub, seed):
    schedule = Schedule(seed, len(agents))
    threads = [agent.run() for agent in agents]
    # What an agent that waits has seen of changes; -1 where it doesn't wait.
    waits = [-1] * len(agents)
    going = list(range(len(agents)))
    while going:
        ready = [at for at in going if waits[at] != hub.changes]
        if not ready:
            raise Stuck([agents[at] for at in going])
        at = schedule.next_of(ready)
        try:
            seen = next(threads[at])
            waits[at] = -1 if seen in (None, INSIDE) else seen
            schedule.after_step(at, seen is INSIDE)
        except StopIteration:
            going.remove(at)


def logs_text(agents):
    lines = ["hublog 3"]
    for agent in agents:
        lines.append(f"agent {agent.number}")
        lines += agent.log
    return "".join(f"{line}\n" for line in lines)


def deliveries(logs):
    return hublog.deliveries(logs)


def verdict_of(logs):
    return hublog.judge(logs)


def hub_of(script):
    hub = Hub(script)
    return hub, [Agent(number, script, hub) for number in range(len(script.agents))]


def simulate(script, seed):
    hub, agents = hub_of(script)
    run_agents(agents, hub, seed)
    text = logs_text(agents)
    logs = hublog.read_logs(text.encode())
    verdict = verdict_of(logs)
    lines = ["deliveries", *deliveries(logs), verdict]
    return text + "".join(f"{line}\n" for line in lines), 0 if verdict == "clean" else 1


def check(data):
    verdict, status = hublog.answer(data)
    return f"{verdict}\n", status

#!/usr/bin/env python3
"""Random actions are done on the proved core first and then on a hub under test, and the answers
compared.

The core also says which actions may be done: one that it answers `not-now` isn't done on the
hub, so whoever draws the actions keeps no book of what is legal. A difference is cut down to a
few actions that still show it, and printed. The hub is a toy with or without a bug, or Node's
own MessageChannel; for a hub of your own, write a class with the methods of toy_hub.ToyHub.

The exit status is 0 where no difference was found, 1 where one was, or 2 for wrong arguments.
"""

import argparse
import random
import re
import sys

import node_hub
import toy_hub
import varukoni

AGENTS = 3
MOST_ENDS = 16
GOT = re.compile(r"got \d+:\d+ from \d+ (?:with ([\d,]+) )?(\d+)")
NOT_NOW = "not-now"


class Core:
    """The proved core, driven by the actions of a hub under test."""

    def __init__(self):
        self.hub = varukoni.Hub()
        for _ in range(AGENTS):
            self.hub("agent -")
        # The other port of each port, and where each port waits that was sent and not yet taken.
        self.peers, self.waiting_at = {}, {}

    def channel(self, agent):
        word, *ends = self.hub(f"channel {agent}").split()
        if word != "ends":
            return NOT_NOW
        first, second = map(int, ends)
        self.peers.update({first: second, second: first})
        return "made"

    def start(self, number):
        return self.hub(f"start {number}")

    def adopt(self, number, agent):
        return self.hub(f"adopt {number} {agent}").split()[0]

    def close(self, number):
        """Its poster first goes on to the newest queue, so that the notice arrives."""
        while self.hub(f"hop {number}").startswith("hopped "):
            pass
        answer = self.hub(f"close {number}")
        if answer == "done":
            self.sweep(number)
        return answer

    def sweep(self, number):
        """What waits at a closed port is given up, and at the ports that are named there."""
        self.hub(f"sweep {number}")
        for lost in [it for it, target in self.waiting_at.items() if target == number]:
            del self.waiting_at[lost]
            self.sweep(lost)

    def post(self, number, listed, body):
        line = f"post {number} {','.join(map(str, listed)) or '-'} {body}"
        while (answer := self.hub(line)) == "moving":
            self.hub(f"hop {number}")
        if answer.startswith("accepted "):
            self.waiting_at.update(dict.fromkeys(listed, self.peers[number]))
        if answer == "doomed":
            for each in listed:
                self.sweep(each)
        return answer.split()[0]

    def take(self, number):
        """Notices and queues that are left aren't compared."""
        while (answer := self.hub(f"take {number}")) == "again" or answer.startswith("notice "):
            pass
        got = GOT.fullmatch(answer)
        if got is None:
            return answer
        listed = [int(each) for each in got[1].split(",")] if got[1] else []
        for each in listed:
            del self.waiting_at[each]
        return listed, int(got[2])

    def end(self):
        self.hub.close()


def drawn(seed, length):
    """Random actions: name and arguments."""
    rng, ends, actions = random.Random(seed), 0, []
    for _ in range(length):
        end, kind = rng.randrange(max(ends, 1)), rng.random()
        if ends < 2 or (kind < 0.05 and ends < MOST_ENDS):
            actions.append(("channel", rng.randrange(AGENTS)))
            ends += 2
        elif kind < 0.2:
            actions.append(("start", end))
        elif kind < 0.6:
            listed = rng.sample(range(ends), min(ends, rng.choice([0, 0, 0, 1, 2])))
            actions.append(("post", end, listed, rng.randrange(1000)))
        elif kind < 0.85:
            actions.append(("take", end))
        elif kind < 0.98:
            actions.append(("adopt", end, rng.randrange(AGENTS)))
        else:
            actions.append(("close", end))
    return actions


def difference(actions, make):
    """The first difference, or None; and how many actions were done on both."""
    core, hub, done = Core(), make(), 0
    try:
        for name, *arguments in actions:
            if not hub.may(name, arguments):
                continue
            wanted = getattr(core, name)(*arguments)
            if wanted == NOT_NOW:
                continue
            found = getattr(hub, name)(*arguments)
            done += 1
            if found != wanted:
                return f"{name} {arguments}: the core answers {wanted}, the hub {found}", done
        return None, done
    finally:
        core.end()
        hub.end()


def cut_down(actions, make):
    """Fewer of these actions that still show a difference."""
    size = len(actions) // 2
    while size:
        at = 0
        while at < len(actions):
            fewer = actions[:at] + actions[at + size :]
            if difference(fewer, make)[0]:
                actions = fewer
            else:
                at += size
        size //= 2
    return actions


def compare(make, runs, length, seed):
    """The first run that differs, cut down, or None; and how many actions were done on both."""
    total = 0
    for run in range(runs):
        actions = drawn(seed + run, length)
        found, done = difference(actions, make)
        total += done
        if found:
            return cut_down(actions, make), total
    return None, total


def step_line(name, *arguments):
    words = [",".join(map(str, it)) or "-" if isinstance(it, list) else str(it) for it in arguments]
    return " ".join([name, *words])


def read_words():
    parser = argparse.ArgumentParser(
        prog="model_test.py", description=__doc__, allow_abbrev=False,
        formatter_class=argparse.RawDescriptionHelpFormatter,
    )
    parser.add_argument("--hub", choices=["toy", "node"], default="toy", help="the hub under test")
    parser.add_argument("--bug", choices=sorted(toy_hub.BUGS), help="a bug of the toy")
    parser.add_argument("--runs", metavar="N", type=int, default=300, help="how many runs (300)")
    parser.add_argument("--length", metavar="N", type=int, default=400,
                        help="actions in each (400)")
    parser.add_argument("--seed", metavar="N", type=int, default=0, help="what they are drawn from")
    words = parser.parse_args()
    if words.bug and words.hub != "toy":
        parser.error("only the toy has bugs")
    return words


def main():
    words = read_words()
    make = node_hub.NodeHub if words.hub == "node" else lambda: toy_hub.ToyHub(words.bug)
    try:
        actions, total = compare(make, words.runs, words.length, words.seed)
        if actions is None:
            print(f"{words.runs} runs, {total} actions done on both: no difference")
            return 0
        print(f"after {total} actions done on both: {difference(actions, make)[0]}")
        for action in actions:
            print(f"    {step_line(*action)}")
        return 1
    finally:
        node_hub.NodeHub.quit()


if __name__ == "__main__":
    sys.exit(main())

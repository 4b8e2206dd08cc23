#!/usr/bin/env python3
"""Runs the small hub of docs/YOUR_HUB.md, and records it.

Ada makes a channel, posts three messages at one of its ports, and sends that port to Ben. A broker
passes on what they post. With --bug it does wrong when the port moves: `lost` drops what waits
there, `owner` gives the first of it to Ada still, and `order` puts the first behind the others. The
folder for the logs has to be new.
"""

import argparse
import collections
import pathlib
import sys
import typing

# Nothing is to be written beside the programs of the repository.
sys.dont_write_bytecode = True
sys.path.append(str(pathlib.Path(__file__).resolve().parent.parent / "record"))

from hublog import Recorder

# The ends: a queue for each agent, under its own number, and the two ports of the channel.
ADA, BEN, KEPT, SENT = range(4)


class Message(typing.NamedTuple):
    end: int
    number: int
    body: str
    ports: tuple


class Broker:
    """Gives what waits at an end to the agent that owns it. What waits at a port moves with it."""

    def __init__(self, bug):
        self.bug, self.owners, self.moves = bug, {}, collections.Counter()
        self.waiting = collections.defaultdict(collections.deque)

    def accept(self, message):
        self.waiting[message.end].append(message)

    def deliver(self, end):
        message = self.waiting[end].popleft()
        for port in message.ports:
            self.move(port, self.owners[end])
        self.owners[end].receive(message)

    def deliver_all(self, end):
        while self.waiting[end]:
            self.deliver(end)

    def move(self, port, owner):
        if self.bug == "lost":
            self.waiting[port].clear()
        elif self.bug == "owner":
            self.deliver(port)
        elif self.bug == "order":
            self.waiting[port].rotate(-1)
        self.owners[port] = owner
        self.moves[port] += 1


class Agent:
    """One who posts and receives, and logs it."""

    def __init__(self, log, broker, *ends):
        self.log, self.broker, self.posted = log, broker, collections.Counter()
        broker.owners.update(dict.fromkeys(ends, self))

    def post(self, end, body, ports=()):
        number = self.posted[end]
        with self.log.putting(end, 0, 0, number, ports, body):
            self.broker.accept(Message(end, number, body, ports))
        self.posted[end] += 1

    def receive(self, message):
        self.log.got(message.end, 0, 0, message.number, message.ports, message.body)
        for port in message.ports:
            self.log.adopted(port, self.broker.moves[port])


def talk(ada_log, ben_log, bug):
    """What happens, by the logs of the two."""
    broker = Broker(bug)
    ada = Agent(ada_log, broker, ADA, KEPT, SENT)
    ben = Agent(ben_log, broker, BEN)
    for body in ("one", "two", "three"):
        ada.post(SENT, body)
    ada.post(BEN, "this port is yours", (SENT,))
    broker.deliver_all(BEN)
    broker.deliver_all(SENT)
    ben.post(KEPT, "thanks")
    broker.deliver_all(KEPT)
    ben_log.closed(SENT)
    ada_log.closed(KEPT)


def main():
    parser = argparse.ArgumentParser(
        prog="examples/relay.py", description=__doc__, allow_abbrev=False,
        formatter_class=argparse.RawDescriptionHelpFormatter,
    )
    parser.add_argument("--bug", choices=("lost", "owner", "order"), help="what the broker does")
    parser.add_argument("folder", type=pathlib.Path, help="a new folder for the logs")
    words = parser.parse_args()
    try:
        words.folder.mkdir()
    except OSError as error:
        parser.error(str(error))
    paths = [words.folder / name for name in ("ada.log", "ben.log")]
    with Recorder(paths[ADA], ADA) as ada, Recorder(paths[BEN], BEN) as ben:
        talk(ada, ben, words.bug)


if __name__ == "__main__":
    main()

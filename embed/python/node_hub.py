"""Node's own MessageChannel as a hub under test: node_hub.mjs does the actions."""

import json
import pathlib
import subprocess

PROGRAM = pathlib.Path(__file__).resolve().with_suffix(".mjs")


class NodeHub:
    """Actions that Node has no answer for aren't asked: see `may`."""

    process = None

    def __init__(self):
        if NodeHub.process is None or NodeHub.process.poll() is not None:
            NodeHub.process = subprocess.Popen(
                ["node", PROGRAM], stdin=subprocess.PIPE, stdout=subprocess.PIPE, text=True,
            )
        self.ask("begin", [])
        self.peers = []
        # Ports that are held, those that have arrived, and of the held ones those that are started.
        self.held, self.arrived, self.enabled = set(), set(), set()
        self.closed = set()
        # Of each port that was sent and not yet taken, where it waits.
        self.waiting_at = {}

    def ask(self, name, arguments):
        NodeHub.process.stdin.write(json.dumps([name, *arguments]) + "\n")
        NodeHub.process.stdin.flush()
        return json.loads(NodeHub.process.stdout.readline())

    def may(self, name, arguments):
        """Node takes from ports that aren't started too, and loses ports that are sent nowhere."""
        if name == "channel":
            return True
        number = arguments[0]
        if name == "adopt":
            return number in self.arrived
        if name == "close":
            return number in self.held or number in self.arrived
        if name == "take":
            return number in self.enabled
        if name == "post" and number in self.held:
            target, listed = self.peers[number], set(arguments[1])
            return target not in self.closed | listed and listed <= self.held
        return number in self.held

    def channel(self, agent):
        number = len(self.peers)
        self.peers += [number + 1, number]
        self.held |= {number, number + 1}
        return self.ask("channel", [])

    def start(self, number):
        self.enabled.add(number)
        return "started"

    def post(self, number, listed, body):
        self.held.difference_update(listed)
        self.enabled.difference_update(listed)
        self.waiting_at.update(dict.fromkeys(listed, self.peers[number]))
        return self.ask("post", [number, listed, body])

    def take(self, number):
        taken = self.ask("take", [number])
        if isinstance(taken, str):
            # Node closes a port once it has taken all that came before its peer was closed.
            if self.peers[number] in self.closed:
                self.leave(number)
            return taken
        self.arrived.update(taken[0])
        for arrived in taken[0]:
            del self.waiting_at[arrived]
        return taken[0], taken[1]

    def adopt(self, number, agent):
        self.arrived.discard(number)
        self.held.add(number)
        return self.ask("adopt", [number])

    def close(self, number):
        self.leave(number)
        return self.ask("close", [number])

    def leave(self, number):
        """The port is closed, and so are those that wait there."""
        self.closed.add(number)
        for ports in (self.held, self.arrived, self.enabled):
            ports.discard(number)
        for lost in [it for it, target in self.waiting_at.items() if target == number]:
            del self.waiting_at[lost]
            self.leave(lost)

    def end(self):
        pass

    @classmethod
    def quit(cls):
        if cls.process is not None:
            cls.process.stdin.close()
            cls.process.wait(timeout=10)
            cls.process.stdout.close()
            cls.process = None

"""A hub under test for model_test.py: for one of your own, write a class with these methods.

This one is the state machine in Python, asked by step lines, with a bug or with none.
"""

import varukoni

BUGS = {
    "overtakes": "the fourth message of a queue is put before the others",
    "swaps_ports": "the ports of a message come in another order",
    "stays_enabled": "a port that was sent is still enabled where it arrives",
    "drops_waiting": "what waits in a port is lost when that is sent",
    "posts_to_closed": "a post at a closed port is accepted",
    "sends_to_itself": "a post that lists its own target is accepted",
}
ACCEPTS = {("posts_to_closed", "closed"), ("sends_to_itself", "doomed")}


class ToyHub:
    """Each port has a number, in the order in which they are made."""

    def __init__(self, bug=None):
        self.bug, self.hub = bug, varukoni.machine()
        # As many as model_test.py draws from.
        for _ in range(3):
            self.ask("agent -")

    def ask(self, line):
        """The first word of the answer. What waits at the ports that it closed is given up."""
        word = self.hub.do(line).split()[0]
        for closed in [it.end for it in self.hub.happened if it.word == "closed"]:
            self.ask(f"sweep {closed}")
        return word

    def may(self, name, arguments):
        """Whether this hub can be asked that at all."""
        return True

    def channel(self, agent):
        self.ask(f"channel {agent}")
        return "made"

    def start(self, number):
        """`started` or `closed`."""
        return self.ask(f"start {number}")

    def post(self, number, listed, body):
        """`accepted`, `closed`, or `doomed` where its own target is listed."""
        line = f"post {number} {','.join(map(str, listed)) or '-'} {body}"
        while (answer := self.ask(line)) == "moving":
            pass
        waiting = self.hub.ends[self.hub.ends[number].peer].queues[-1].waiting
        if (self.bug, answer, len(waiting)) == ("overtakes", "accepted", 4):
            waiting.insert(0, waiting.pop())
        return "accepted" if (self.bug, answer) in ACCEPTS else answer

    def take(self, number):
        """The ports and the body of a message, or `closed`, `disabled` or `empty`."""
        while (answer := self.ask(f"take {number}")) in ("again", "notice"):
            pass
        if answer != "got":
            return answer
        got = self.hub.happened[0].envelope
        return list(got.ports[::-1] if self.bug == "swaps_ports" else got.ports), int(got.body)

    def adopt(self, number, agent):
        """`adopted` or `closed`."""
        port = self.hub.ends[number]
        was_enabled, answer = port.is_enabled, self.ask(f"adopt {number} {agent}")
        if self.bug == "stays_enabled":
            port.is_enabled = was_enabled
        if self.bug == "drops_waiting":
            for queue in port.queues:
                queue.waiting.clear()
        return answer

    def close(self, number):
        """`done` or `closed`."""
        return self.ask(f"close {number}")

    def end(self):
        pass

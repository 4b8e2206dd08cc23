"""Counts what the scripts and their runs had in them."""

import collections


class Coverage:
    """Counts over all runs. `longest` are the greatest of single runs."""

    def __init__(self):
        self.actions, self.counts = collections.Counter(), collections.Counter()
        self.longest = collections.Counter()

    def keep_longest(self, name, number):
        self.longest[name] = max(self.longest[name], number)

    def add(self, script, logs):
        self.counts["runs"] += 1
        self.counts["agents"] += len(script.agents)
        self.keep_longest("agents", len(script.agents))
        self.keep_longest("actions", sum(map(len, script.actions)))
        for action in (it for actions in script.actions for it in actions):
            self.actions[action.word] += 1
            self.counts["ports in lists"] += len(action.transfer)
        entries = [pair for log in logs for pair in log.entries]
        self.add_messages(entries)
        self.add_adoptions(script, entries)
        self.add_orders(script, logs)

    def add_messages(self, entries):
        for word, entry in entries:
            if word in ("put", "got"):
                kind = "notices" if entry.content is None else "messages"
                self.counts[f"{kind} {'accepted' if word == 'put' else 'delivered'}"] += 1

    def add_adoptions(self, script, entries):
        moves = collections.Counter(said[0] for word, said in entries if word == "adopted")
        ports = {end: count for end, count in moves.items() if end >= len(script.agents)}
        self.counts["ports adopted"] += sum(ports.values())
        self.counts["queues fetched"] += sum(moves.values()) - sum(ports.values())
        self.counts["ports adopted twice or more"] += sum(it > 1 for it in ports.values())
        self.counts["ports adopted more than four times"] += sum(it > 4 for it in ports.values())
        self.keep_longest("adoptions of a port", max(ports.values(), default=0))

    def add_orders(self, script, logs):
        """Of an order it shows that it was seen early where a wait or a `receive` wasn't met."""
        for log in logs:
            actions = script.actions[log.agent]
            got = sum(word == "got" and bool(entry.content) for word, entry in log.entries)
            self.counts["orders seen in a wait"] += got < sum(it.count for it in actions)

    def report(self):
        self.counts["messages discarded"] = (
            self.counts["messages accepted"] - self.counts["messages delivered"]
        )
        return [
            ", ".join(f"{count:,} {name}" for name, count in sorted(self.counts.items())),
            "actions: " + ", ".join(f"{word} {n:,}" for word, n in self.actions.most_common()),
            "greatest of one run: "
            + ", ".join(f"{name} {n:,}" for name, n in self.longest.items()),
        ]

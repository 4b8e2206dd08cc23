"""Plays a script on simulated threads beforehand, and says where and why it would wait for ever.

`Rehearsal` plays it in a number of schedules. A schedule in which agents wait for what nobody sends
comes to a rest; `Rest.told` says which agent waits at which line, for what, and why nothing comes.
"""

import collections

import hublog
from naming import plural
from scriptlines import shown
from simulator import simulation
from simulator.hub import End

SCHEDULES = 32


class Rehearsal:
    """What the schedules came to: how many there were, and the rests by where agents wait."""

    def __init__(self, script, schedules=SCHEDULES):
        self.script, self.schedules = script, schedules
        self.rests = collections.defaultdict(list)
        for seed in range(schedules):
            hub, agents = simulation.hub_of(script)
            try:
                simulation.run_agents(agents, hub, seed)
            except simulation.Stuck as stuck:
                rest = Rest(script, hub, agents, stuck.going)
                self.rests[rest.places()].append(rest)

    def stuck(self):
        return sum(map(len, self.rests.values()))

    def told(self):
        """Where most of the schedules that come to a rest do, and why."""
        most = max(self.rests.values(), key=len)
        count, stuck = len(most), self.stuck()
        yield from most[0].told(f"in {count} of {self.schedules} schedules tried")
        if stuck > count:
            yield f"in {stuck - count} more it waits for ever elsewhere"

    def left_to_do(self):
        if self.rests:
            return list(max(self.rests.values(), key=len)[0].left_to_do())
        lines = [f"none of {self.schedules} schedules tried waits for ever; lines that wait are"]
        for agent, actions in enumerate(self.script.actions):
            waits = [str(it.line) for it in actions if it.word in ("wait", "receive", "fetch")]
            if waits:
                lines.append(f"{called(self.script, agent)}: {', '.join(waits)}")
        return lines


def called(script, number):
    name = script.agents[number].name
    return f"agent {number if name is None else shown(name)}"


class Rest:
    """A hub at rest: agents that wait, and others that have ended."""

    def __init__(self, script, hub, agents, going):
        self.script, self.hub, self.agents, self.going = script, hub, agents, going
        entries = [
            (log.agent, word, said)
            for log in hublog.read_logs(simulation.logs_text(agents).encode())
            for word, said in log.entries
        ]
        is_message = {"put", "got"}
        messages = [it for it in entries if it[1] in is_message and it[2].content is not None]
        self.put = collections.Counter(said.end for _, word, said in messages if word == "put")
        self.got = [(agent, said) for agent, word, said in messages if word == "got"]
        self.closers = {said: agent for agent, word, said in entries if word == "closed"}

    def places(self):
        return tuple((it.number, it.action.line) for it in self.going)

    def told(self, where):
        for agent in self.going:
            action = agent.action
            name = called(self.script, agent.number)
            yield f"line {action.line}: {name} waits for ever for {self.awaited(agent)}, {where}"
            for reason in getattr(self, f"why_{action.word}")(agent):
                yield f"    {reason}"

    def left_to_do(self):
        for agent in self.agents:
            if agent not in self.going:
                yield f"{called(self.script, agent.number)} would have ended"
                continue
            behind = sum(it.line > agent.action.line for it in agent.actions)
            rest = f", and {plural(behind, 'line')} behind it" if behind else ""
            name = called(self.script, agent.number)
            yield f"{name} would stand at line {agent.action.line}{rest}"

    # What is waited for

    def name_of(self, end):
        if end < len(self.script.agents):
            return f"the queue of {called(self.script, end)}"
        return shown(self.script.declared_of(end).name)

    def awaited(self, agent):
        action = agent.action
        if action.word == "receive":
            return self.name_of(action.end)
        if action.word == "fetch":
            return self.name_of(action.to)
        came = agent.messages - agent.had
        return plural(action.count, 'message') + (f", of which {came:,} came" if came else "")

    def holder(self, end):
        found = self.hub.ends[end]
        return next((it for it in self.agents if found in it.held), None)

    def waiting(self, end):
        return sum(
            not envelope.is_notice
            for queue in self.hub.ends[end].queues for envelope in queue.waiting
        )

    # Why a message doesn't come

    def why_wait(self, agent):
        """Where messages wait comes first; where none is ever put comes alone."""
        ends = sorted(it.number for it in agent.held.slots if isinstance(it, End))
        ends.sort(key=lambda end: -self.waiting(end))
        if not ends:
            yield "it holds nothing at which a message could come"
        used = [end for end in ends if self.put[end] or self.putters(end)]
        for end in used or ends:
            yield self.why_nothing_comes(agent, end)

    def why_nothing_comes(self, agent, end):
        name = "its queue" if end == agent.number else self.name_of(end)
        if not self.hub.ends[end].is_enabled:
            return self.why_not_started(agent, end, name)
        put, here, before = self.put[end], *self.came(agent, end)
        count = plural(put, "message") if put else "nothing"
        said = f"at {name} {count} {'were' if put > 1 else 'was'} put"
        came = [f"{count:,} {word}" for count, word in [(before, "came before"), (here, "came")]
                if count]
        return f"{', '.join([said, *came])}; {self.why_no_more(agent, end)}"

    def why_not_started(self, agent, end, name):
        waiting = self.waiting(end)
        count = plural(waiting, "message")
        there = f"; {count} wait{'s' * (waiting == 1)} there" if waiting else ""
        later = [it.line for it in agent.actions
                 if it.end == end and it.word in ("start", "loaded") and
                 it.line > agent.action.line]
        if later:
            return f"{name} isn't started before line {later[0]}{there}"
        by = ': "loaded" or "start" does it' if end == agent.number else ""
        return f"{name} was never started{by}{there}"

    def came(self, agent, end):
        """How many messages came to an agent at an end in its wait, and before it."""
        got = [said.end == end for by, said in self.got if by == agent.number]
        before = len(got) - (agent.messages - agent.had)
        return sum(got[before:]), sum(got[:before])

    def putters(self, end):
        targets = self.script.targets
        return [it for it in self.agents if any(end in targets(act) for act in it.actions)]

    def why_no_more(self, agent, end):
        putters = self.putters(end)
        going = [it for it in putters if it in self.going]
        for other in going:
            for action in other.actions:
                if action.line > other.action.line and end in self.script.targets(action):
                    if other is agent:
                        return f"line {action.line} would put one there, behind this wait"
                    return f"{called(self.script, other.number)} would put one there at line " \
                           f"{action.line}, and waits at line {other.action.line}"
        if not putters:
            return "no line of the script puts there"
        return "no line behind puts more there" if going else "who would put more there has ended"

    # Why a port or a queue doesn't come

    def why_receive(self, agent):
        end = agent.action.end
        name, holder = self.name_of(end), self.holder(end)
        if self.hub.ends[end].is_closed:
            yield f"{name} is closed, by {called(self.script, self.closers.get(end, agent.number))}"
        elif holder is not None:
            yield self.why_not_sent(holder, end, name)
        else:
            yield from self.why_on_its_way(agent, end, name)

    def why_not_sent(self, holder, end, name):
        said = f"{called(self.script, holder.number)} has {name}"
        later = [it.line for it in holder.actions
                 if end in it.transfer and it.line > holder.action.line]
        stands = holder.action.line
        if later:
            return f"{said}, would send it at line {later[0]}, and waits at line {stands}"
        return f"{said}, and sends it nowhere from line {stands} on"

    def why_on_its_way(self, agent, end, name):
        for found in self.hub.ends:
            if any(end in envelope.ports for queue in found.queues for envelope in queue.waiting):
                holder = self.holder(found.number)
                where = self.name_of(found.number)
                if holder is not None and holder is not agent:
                    where += f", which {called(self.script, holder.number)} has"
                yield f"{name} waits at {where}"
                if holder is agent and not found.is_enabled:
                    yield self.why_nothing_comes(agent, found.number)
                return
        yield f"{name} is with nobody"

    def why_fetch(self, agent):
        owner = self.agents[agent.action.to]
        hands = [it for it in owner.actions if it.word == "hand"]
        name = called(self.script, owner.number)
        if not hands or hands[0].to != agent.number:
            to = f" to {called(self.script, hands[0].to)}, not to it" if hands else " to nobody"
            yield f"{name} hands its queue on{to}"
        elif owner in self.going:
            yield f"{name} would hand it on at line {hands[0].line}, and waits at line " \
                  f"{owner.action.line}"
        else:
            yield f"{name} has ended"

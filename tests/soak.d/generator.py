"""Makes scripts from seeds. plan.py says why none of them waits for ever."""

import json
import random

from plan import Plan

ORIGINS = ["https://a.test", "https://a.test:443/x", "https://b.test", "http://a.test"]
EVENTS = "install activate extend settle fail returned discard terminate".split()
# About how many lines a script has; one in eighty is as long as scripts may be.
LENGTHS = [10, 30, 60, 150, 400, 1_000]
MOST_LINES = 4_096
MOST_PORTS = 16
MORE_THAN_COME = 10_000
# How often an action is drawn; each script has these times a factor of its own.
WEIGHTS = {
    "post": 8, "post_ports": 4, "post_full": 0.1, "post_doomed": 0.15, "send": 5, "send_ports": 4,
    "cast": 3, "start": 8, "close": 0.6, "wait": 8, "receive": 12, "hand": 0.4, "fetch": 8,
    "event": 0.5, "order": 0.2, "ask_for_order": 0.3, "send_on": 2,
    "race": 2,
}
# What a long script has no more of than a short one, since little is left to do behind it.
ENDING_WORDS = "post_doomed close hand order ask_for_order".split()
UNSURE_WORDS = "post send send_ports post_ports cast close wait start receive".split()
TEXTS = ["", "a", "\u00e9\U0001f600", "\"\\/\n\u0001", "x" * 300]


class Generator:
    """One script: `declare`, `begin`, then `act` as often as there is room, then `finish`."""

    def __init__(self, seed):
        self.random = random.Random(seed)
        self.length = MOST_LINES if self.chance(1 / 80) else self.pick(LENGTHS)
        count = min(self.pick([1, 2, 2, 3, 4, 5, 8, 16]), max(2, self.length // 10))
        kinds = [self.pick(["window", "worker"]) for _ in range(count)]
        self.plan = Plan(kinds, [self.pick(ORIGINS) for _ in range(count)])
        self.weights = {
            word: weight * self.pick([0.1, 1, 1, 3]) for word, weight in WEIGHTS.items()
        }
        for word in ENDING_WORDS:
            self.weights[word] *= min(1, 150 / self.length)
        # By agent, the port that it sends to the one that orders it, and the orders that are due:
        # who gives it, who gets it, and the port by which it is known to be due.
        self.signals, self.due = {}, []
        self.all_ports = []
        self.bodies = 0

    def chance(self, share):
        return self.random.random() < share

    def pick(self, items):
        return self.random.choice(items) if items else None

    # Declarations

    def declare(self):
        agents = self.plan.agents
        channels = self.random.randint(0, max(2, min(60, self.length // 8)))
        moving_share = self.pick([0, 0.1, 0.4])
        for at in range(channels):
            names = [f"p{at}", f"q{at}"] if self.chance(0.9) else [f"p{at}\u00e9 \"", f"q{at}\\"]
            self.plan.channel(self.pick(agents), *names, self.chance(moving_share))
        for agent in agents:
            if self.chance(0.4):
                self.plan.channel(agent, f"signal{agent.number}", f"other{agent.number}")
                self.signals[agent.number] = agent.held[-2]
        for at in range(self.pick([0, 0, 3, 8, 20]) if channels else 0):
            self.plan.member(self.pick(agents), f"m{at}", self.pick(["news", "", "sport"]))
        self.all_ports = [port for agent in agents for port in agent.ports()]
        for agent in agents[1:]:
            if self.chance(0.15):
                agent.sure_count = 0

    def begin(self):
        """Some agents start their queues at once, and send ports while all are still there."""
        agents = [it for it in self.plan.agents if it.is_sure() and self.chance(0.5)]
        for agent in agents:
            if agent.queue.holding().start is None:
                self.plan.start(agent, agent.queue)
        for agent in agents * self.pick([0, 1, 3]):
            if len(self.plan.lines) < self.length / 2:
                self.race(agent)

    # Bodies

    def body(self):
        """Each has a number of its own in front, by which fates.py finds the action."""
        self.bodies += 1
        rest = self.pick([
            None,
            self.random.randint(-(2**63), 2**64 - 1),
            self.pick(TEXTS),
            {"b": [1, {"a": True}], "a": self.pick(TEXTS)},
            [[[self.chance(0.5)]], {}],
        ])
        return [self.bodies, rest]

    # Actions: each says whether it could be done

    def act(self):
        agent = self.pick(self.plan.agents)
        if not agent.is_sure() and self.chance(0.8):
            return
        words = list(self.weights)
        for word in self.random.choices(words, [self.weights[it] for it in words], k=6):
            if getattr(self, word)(agent):
                return

    def is_reserved(self, port):
        return port.name.startswith(("signal", "other"))

    def ports_for(self, agent, source, most):
        """Some ports that the agent may send; at `source`, if it is a port, without harm."""
        kept = (source, source.peer) if source else ()
        ports = [it for it in agent.ports() if it not in kept and self.plan.may_send(it)]
        ports = [it for it in ports if not self.is_reserved(it)]
        count = min(len(ports), self.pick([1, 1, 1, 2, 3, most]))
        return self.random.sample(ports, count)

    def post(self, agent):
        port = self.pick(agent.ports())
        for _ in range(self.pick([1, 1, 2, 5]) if port else 0):
            self.plan.post(agent, port, [], self.body())
        return port

    def post_ports(self, agent, most=3):
        taken = [it for it in agent.ports() if self.is_taken(it.peer)]
        port = self.pick(taken if taken and self.chance(0.8) else agent.ports())
        ports = self.ports_for(agent, port, most)
        if port and ports:
            self.plan.post(agent, port, ports, self.body())
        return port and ports

    def post_full(self, agent):
        return self.post_ports(agent, MOST_PORTS)

    def post_doomed(self, agent):
        port = self.pick([it for it in agent.ports() if it.peer in agent.held])
        if port is None or self.is_reserved(port):
            return False
        ports = self.ports_for(agent, port, 3)
        ports.insert(self.random.randint(0, len(ports)), port.peer)
        self.plan.post(agent, port, ports, self.body())
        return True

    def target(self, agent):
        """An agent to send to, mostly one that takes what is sent to it."""
        taking = self.taking_agents()
        return self.pick(taking if taking and self.chance(0.8) else self.plan.agents)

    def send(self, agent):
        to = self.target(agent)
        for _ in range(self.pick([1, 1, 2, 5])):
            self.plan.send(agent, to, [], self.body())
        return True

    def send_ports(self, agent):
        ports = self.ports_for(agent, None, 3)
        if ports:
            self.plan.send(agent, self.target(agent), ports, self.body())
        return ports

    def send_on(self, agent):
        """A port goes from agent to agent, while its peer is posted at."""
        ports = self.ports_for(agent, None, 1)
        port = self.pick([it for it in ports if it.moves_often] or ports)
        if port:
            self.move(agent, port, self.pick([2, 3, 12]))
        return port

    def move(self, agent, port, times):
        start_share = self.pick([0, 0.5])
        for _ in range(times):
            to = self.pick([it for it in self.taking_agents() if it is not agent])
            if to is None or not agent.is_sure() or not self.plan.may_send(port):
                break
            self.plan.send(agent, to, [port], self.body())
            self.post_towards(port)
            self.plan.receive(to, port)
            agent = to
            if self.chance(start_share):
                self.take_at(agent, port)
            self.post_towards(port)
        if port in agent.held:
            self.take_at(agent, port)

    def is_taken(self, end):
        """Whether a sure agent takes what comes to the end."""
        holder = end.holding().agent
        return holder.is_sure() and not end.moves_often and self.plan.has_started(holder, end)

    def taking_agents(self):
        """Those that take what is sent to them, at their own queues."""
        agents = [it for it in self.plan.agents if it.queue.holding().agent is it]
        return [it for it in agents if self.is_taken(it.queue)]

    def race(self, agent):
        """Posts at a port while that comes to another agent, and goes on from there."""
        pairs = [it for it in agent.ports() if it.peer in agent.held and self.plan.may_send(it)]
        port = self.pick([it for it in pairs if not self.is_reserved(it)])
        to = self.pick([it for it in self.taking_agents() if it is not agent])
        if not (port and to and agent.is_sure()):
            return False
        self.plan.send(agent, to, [port], self.body())
        for _ in range(self.pick([3, 10, 30])):
            self.plan.post(agent, port.peer, [], self.body())
        self.plan.receive(to, port)
        if self.chance(0.7):
            self.take_at(to, port)
        self.move(to, port, self.pick([0, 1, 4]))
        return True

    def take_at(self, agent, port):
        if port.holding().start is None:
            self.plan.start(agent, port)
        self.wait(agent)

    def post_towards(self, port):
        holder = next((it for it in self.plan.agents if port.peer in it.held), None)
        for _ in range(self.pick([0, 1, 3, 3, 30]) if holder else 0):
            self.plan.post(holder, port.peer, [], self.body())

    def cast(self, agent):
        member = self.pick(agent.members())
        if member:
            self.plan.cast(agent, member, self.body())
        return member

    def start(self, agent):
        ends = [it for it in agent.ports() if it.holding().start is None]
        queue = agent.queue
        if agent.kind == "window" and not agent.has_handed and queue.holding().start is None:
            ends += [queue] * 2
        end = self.pick(ends)
        if end:
            self.plan.start(agent, end, "loaded" if end is queue and self.chance(0.3) else "start")
        return end

    def close(self, agent):
        end = self.pick(agent.ports() + agent.members())
        if end is None or end.name.startswith("signal"):
            return False
        self.plan.close(agent, end)
        return True

    def wait(self, agent):
        most = self.plan.most_to_wait(agent)
        if not agent.is_sure() and self.chance(0.3):
            most = self.pick([1, 3, MORE_THAN_COME])
        if most:
            self.plan.wait(agent, most if self.chance(0.5) else self.random.randint(1, most))
        return most

    def receive(self, agent):
        port = self.pick([it for it in self.all_ports if self.plan.is_receivable(agent, it)])
        if port is None and not agent.is_sure() and self.chance(0.05):
            port = self.pick(self.all_ports)
        if port:
            self.plan.receive(agent, port)
        return port

    def hand(self, agent):
        other = self.pick([it for it in self.plan.agents if it is not agent])
        if other is None or agent.has_handed or agent.queue.state != "with":
            return False
        self.give_due_orders(agent)
        self.plan.hand(agent, other)
        return True

    def fetch(self, agent):
        other = self.pick([it for it in self.plan.agents if self.plan.is_fetchable(agent, it)])
        if other:
            self.plan.fetch(agent, other)
        return other

    def event(self, agent):
        if agent.kind == "worker":
            self.plan.event(agent, self.pick(EVENTS))
        return agent.kind == "worker"

    # Orders

    def order(self, agent):
        other = self.pick([it for it in self.plan.agents if self.plan.may_order(agent, it)])
        if other:
            self.plan.order(agent, other)
        return other

    def ask_for_order(self, agent):
        """The agent sends its signal to another one, which knows by it how far the agent has come.

        From then on what it does is unsure. The other one orders it to end later.
        """
        signal = self.signals.get(agent.number)
        others = [it for it in self.plan.agents if it is not agent and self.keeps_queue(it)]
        other = self.pick(others)
        if other is None or not agent.is_sure() or signal not in agent.held:
            return False
        self.give_due_orders(agent)
        if not self.plan.has_started(other, other.queue):
            self.plan.start(other, other.queue)
        self.plan.send(agent, other, [signal], self.body())
        agent.sure_count = agent.place()
        self.due.append((other, agent, signal))
        for _ in range(self.pick([0, 1, 5])):
            self.act_unsurely(agent)
        if self.chance(0.5):
            self.plan.wait(agent, MORE_THAN_COME)
        return True

    def keeps_queue(self, agent):
        queue = agent.queue
        return agent.is_sure() and queue.state == "with" and len(queue.holdings) == 1

    def give_due_orders(self, giver):
        for entry in [it for it in self.due if it[0] is giver]:
            _, agent, signal = entry
            self.due.remove(entry)
            self.plan.receive(giver, signal)
            self.plan.order(giver, agent)
            if self.chance(0.3):
                self.act_unsurely(agent)

    def act_unsurely(self, agent):
        getattr(self, self.pick(UNSURE_WORDS))(agent)

    # The end

    def finish(self):
        """Closes some ports, waits for what is still to come, and ends some agents by orders."""
        agents = self.plan.agents
        self.close_some()
        for agent in self.random.sample(agents, len(agents)):
            most = self.plan.most_to_wait(agent)
            if most and agent.is_sure() and self.chance(0.7):
                self.plan.wait(agent, most)
        for agent in self.random.sample(agents, len(agents)):
            if self.chance(0.2):
                self.ask_for_order(agent)
        for agent in agents:
            self.give_due_orders(agent)
        self.give_needed_orders()
        if self.chance(0.2):
            self.end_by_itself(self.pick(agents))

    def close_some(self):
        """What is sent behind a close makes that whoever gets it may get the notice too."""
        ports = [(agent, port) for agent in self.plan.agents for port in agent.ports()]
        for agent, port in self.random.sample(ports, min(len(ports), self.pick([0, 5, 30]))):
            if not self.is_reserved(port):
                self.plan.close(agent, port)
                self.plan.send(agent, self.target(agent), [], self.body())

    def give_needed_orders(self):
        """Each agent that may wait for ever gets an order by a sure action."""
        for other in self.plan.agents:
            givers = [it for it in self.plan.agents if it.is_sure()]
            able = [it for it in givers if self.plan.may_order(it, other)]
            if other.needs_order or (able and self.chance(0.3)):
                self.plan.order(self.pick(able), other)

    def end_by_itself(self, agent):
        if agent.is_sure():
            self.plan.order(agent, agent)
            for _ in range(3):
                self.act_unsurely(agent)


def make(seed):
    generator = Generator(seed)
    generator.declare()
    generator.begin()
    # What the end may add.
    room = min(generator.length // 4, 200 + 40 * len(generator.plan.agents))
    for _ in range(3 * generator.length):
        if len(generator.plan.lines) >= generator.length - room:
            break
        generator.act()
    generator.finish()
    return text_of(generator.plan.lines, generator.random)


def text_of(lines, draw):
    """The lines as JSON, some with spaces and with letters outside of ASCII as they are."""
    texts = []
    for line in lines:
        is_plain = draw.random() < 0.5
        separators = (",", ":") if is_plain else (", ", ": ")
        texts.append(json.dumps(line, ensure_ascii=is_plain, separators=separators) + "\n")
    return "".join(texts).encode()

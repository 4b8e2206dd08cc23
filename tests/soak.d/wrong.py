"""Faults of the simulated hub, one at a time: tests/soak has to find each of them."""

from simulator import agent, hub, simulation

Agent, End, Hub, Posted = agent.Agent, hub.End, hub.Hub, hub.Posted
# By name, what makes the fault.
FAULTS = {}


def fault(holder, name, of=None):
    """Puts a function in the place of one of the simulator. It gets the one replaced first.

    The fault has the name of the function, or the names `of` which it is a part.
    """

    def with_wrong(wrong):
        def make():
            right = getattr(holder, name)
            setattr(holder, name, lambda *words: wrong(right, *words))

        for its in of or [wrong.__name__]:
            FAULTS.setdefault(its, []).append(make)
        return wrong

    return with_wrong


def plant(name):
    """Makes a fault, which stays for good."""
    for make in FAULTS[name]:
        make()


def after_push(change, right, self, poster, queue, body, ports, is_notice):
    """Changes a queue after some pushes, but not after those of messages with ports."""
    posted = right(self, poster, queue, body, ports, is_notice)
    if posted.number % 5 == 3 and not ports:
        change(queue.waiting)
    return posted


@fault(Hub, "push")
def lose_message(*words):
    """Now and then an accepted message isn't queued."""
    return after_push(lambda waiting: waiting.pop(), *words)


# The second one is that a run says of such logs that they are clean.
@fault(Hub, "push", of=["double_message", "double_unseen"])
def double_message(*words):
    """Now and then a message is queued twice."""
    return after_push(lambda waiting: waiting.append(waiting[-1]), *words)


@fault(simulation, "verdict_of", of=["double_unseen"])
def call_clean(_right, _logs):
    return "clean"


@fault(Hub, "push")
def overtake(*words):
    """Now and then a message goes before those that wait."""
    return after_push(lambda waiting: waiting.rotate(1), *words)


@fault(Agent, "deliver")
def change_body(right, self, envelope):
    """Now and then another body is delivered."""
    if envelope.name.number % 5 == 3 and not envelope.is_notice:
        envelope = hub.Envelope(envelope.name, "0", envelope.ports, False)
    return right(self, envelope)


@fault(Hub, "push")
def refuse_open(right, self, poster, queue, *words):
    """Now and then a post at an open end is refused."""
    if queue.counts[poster.line] == 3:
        queue.counts[poster.line] += 1
        return hub.CLOSED
    return right(self, poster, queue, *words)


@fault(Hub, "take")
def take_newest_first(_right, _self, end):
    """An adopted end is asked at its newest queue first."""
    yield
    for queue in reversed(end.queues if end.is_enabled else []):
        if queue.waiting:
            return queue.waiting.popleft()
    return None


@fault(Hub, "take")
def leave_early(right, self, end):
    """A retired queue is left while a poster is inside."""
    answer = yield from right(self, end)
    if answer is hub.BUSY:
        end.stage += 1
    return answer


@fault(End, "adopt")
def stay_enabled(_right, self):
    """An adopted end stays enabled."""
    self.queues.append(hub.Queue())


@fault(Hub, "arrive")
def drop_ports(_right, _self, _number):
    """The ports of a message never come."""


@fault(Agent, "deliver")
def adopt_in_reverse(right, self, envelope):
    """The ports of a message are adopted from the last to the first."""
    count = len(self.log)
    yield from right(self, envelope)
    self.log[count + 1 :] = reversed(self.log[count + 1 :])


@fault(Agent, "post_over")
def lose_refused_ports(right, self, poster, action):
    """A refused post loses its ports."""
    count = len(self.log)
    yield from right(self, poster, action)
    for end in map(self.hub.ends.__getitem__, action.transfer):
        if len(self.log) == count and end in self.held:
            self.held.remove(end)


@fault(Agent, "post_over")
def queue_doomed(right, self, poster, action):
    """A message whose list holds its own target is queued."""
    ports = [self.hub.ends[number] for number in action.transfer]
    if poster.end not in ports or not all(port in self.held for port in ports):
        yield from right(self, poster, action)
        return
    for port in ports:
        self.held.remove(port)
    posted = yield from self.hub.post(poster, action.body, action.transfer)
    self.note_put(posted, action.transfer, action.body)


# A post is refused after one hop.
FAULTS["give_up_early"] = [lambda: setattr(hub, "MOST_HOPS", 1)]


@fault(Agent, "deliver")
def adopt_as_first(right, self, envelope):
    """Each adoption is logged as the first."""
    count = len(self.log)
    yield from right(self, envelope)
    for at, line in enumerate(self.log[count:], count):
        if line.startswith("adopted"):
            self.log[at] = line.rsplit(" ", 1)[0] + " 1"


@fault(Agent, "finish")
def leave_ports_open(right, self):
    """An agent that ends doesn't close its ports."""
    for it in self.held.slots:
        if isinstance(it, End) and it.kind == "port":
            self.held.remove(it)
    return right(self)


@fault(Agent, "note_closed")
def forget_notice(right, self, end, _notice, was_held=True):
    """A notice isn't logged where it was put."""
    right(self, end, None, was_held)


@fault(Agent, "note_closed")
def take_after_close(right, self, end, notice, was_held=True):
    """What waits at an end is taken once it is closed."""
    right(self, end, notice, was_held)
    if was_held and end.queues[-1].waiting:
        self.note("got", end.queues[-1].waiting.popleft())


@fault(Hub, "cast")
def cast_to_all(right, self, source, body):
    """A cast reaches the members of all origins."""
    keys = {end: end.key for end in self.roster}
    for end in keys:
        end.key = source.key
    answer = yield from right(self, source, body)
    for end, key in keys.items():
        end.key = key
    return answer


@fault(Hub, "cast")
def cast_to_fewer(right, self, source, body):
    """A cast passes over the member that was made first."""
    first, self.roster = self.roster[:1], self.roster[1:]
    answer = yield from right(self, source, body)
    self.roster = first + self.roster
    return answer


# An agent that parks isn't woken by what comes later.
@fault(Hub, "leave", of=["miss_wake_ups"])
def leave_quietly(_right, _self, queue):
    queue.inside -= 1


@fault(Hub, "push", of=["miss_wake_ups"])
def push_quietly(right, self, *words):
    count = self.changes
    posted = right(self, *words)
    if posted.number % 3:
        self.changes = count
    return posted


@fault(Agent, "deliver")
def count_notices(right, self, envelope):
    """A wait counts notices."""
    yield from right(self, envelope)
    self.messages += envelope.is_notice


@fault(Agent, "do_wait")
def wait_for_more(_right, self, action):
    """A wait takes one message more than it asks for."""
    wanted = self.messages + action.count + 1
    yield from self.turns_until(lambda: self.messages >= wanted)


@fault(Agent, "do_wait")
def skip_waits(_right, _self, _action):
    """A wait ends at once."""
    yield


@fault(Agent, "turn")
def ignore_orders(right, self):
    """An agent that waits doesn't look at the order to end."""
    self.is_ordered = lambda: False
    answer = yield from right(self)
    del self.is_ordered
    return answer


@fault(Agent, "do_order")
def order_another(right, self, action):
    """An order goes to the agent behind the one that is named."""
    yield from right(self, action)
    self.hub.orders.discard(action.to)
    self.hub.orders.add((action.to + 1) % len(self.hub.ends))


@fault(Agent, "do_fetch")
def forget_start(right, self, action):
    """A queue that was fetched isn't started."""
    yield from right(self, action)
    self.hub.ends[action.to].is_enabled = False


@fault(simulation, "deliveries")
def forget_delivery(right, logs):
    """The last of the lines behind the logs is missing."""
    return right(logs)[:-1]


@fault(simulation, "check")
def check_nothing(_right, _data):
    """A check says that all logs are clean."""
    return "clean\n", 0


@fault(simulation, "check")
def check_another_fault(right, data):
    """A check says Gap in the place of Foreign."""
    verdict, status = right(data)
    return verdict.replace("Foreign", "Gap"), status

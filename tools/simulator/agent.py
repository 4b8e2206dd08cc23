"""One agent of the simulator: its event loop, its actions and its log."""

from simulator.hub import BUSY, End, Envelope, Posted

ENDING = "ending"
DELIVERED = "delivered"
IDLE = "idle"


class Held:
    """What an agent holds, under keys that are used again, the one freed last first."""

    def __init__(self):
        self.slots, self.free = [], []

    def add(self, it):
        if self.free:
            self.slots[self.free.pop()] = it
        else:
            self.slots.append(it)

    def remove(self, it):
        key = self.slots.index(it)
        self.slots[key] = None
        self.free.append(key)

    def __contains__(self, it):
        return it in self.slots


class Agent:
    def __init__(self, number, script, hub):
        self.number, self.hub = number, hub
        self.actions = script.actions[number]
        self.held = Held()
        self.held.add(hub.ends[number])
        for declared in script.declared:
            if declared.agent == number:
                self.held.add(hub.ends[declared.end])
        self.next = 0
        # How many messages it got, and how many of them before its action began.
        self.messages = self.had = 0
        self.lines = {}
        self.log = []
        self.action = None

    def is_ordered(self):
        return self.number in self.hub.orders

    def run(self):
        for action in self.actions:
            yield
            if self.is_ordered():
                break
            self.action, self.had = action, self.messages
            yield from getattr(self, "do_" + action.word)(action)
        self.action = None
        yield from self.finish()

    # Turns

    def turn(self):
        """Gives ENDING, DELIVERED, IDLE or BUSY."""
        yield
        if self.is_ordered():
            return ENDING
        is_busy = False
        count = len(self.held.slots)
        for key in [*range(self.next, count), *range(min(self.next, count))]:
            end = self.held.slots[key]
            if not isinstance(end, End):
                continue
            took = yield from self.hub.take(end)
            if took is not None and took is not BUSY:
                self.next = key + 1
                yield from self.deliver(took)
                return DELIVERED
            is_busy = is_busy or took is BUSY
        return BUSY if is_busy else IDLE

    def deliver(self, envelope):
        yield
        found = [end for end in map(self.hub.arrive, envelope.ports) if end is not None]
        for end in found:
            yield
            end.adopt()
            self.held.add(end)
        self.note("got", envelope)
        for end in found:
            self.log.append(f"adopted {end.number} {end.newest()}")
        if not envelope.is_notice:
            self.messages += 1

    def turns_until(self, is_met):
        """Takes turns until that holds, or the order to end is seen."""
        while not is_met():
            seen = self.hub.changes
            answer = yield from self.turn()
            if answer == ENDING:
                return
            if answer != DELIVERED:
                yield seen

    # The log

    def note(self, word, envelope):
        ports = ",".join(map(str, envelope.ports)) or "-"
        content = "notice" if envelope.is_notice else f"{ports} {envelope.body}"
        name = envelope.name
        self.log.append(f"{word} {name.end} {name.line} {name.epoch}:{name.number} {content}")

    def note_put(self, name, ports, body):
        self.note("put", Envelope(name, body, ports, False))

    def note_closed(self, end, notice, was_held=True):
        if notice is not None:
            self.note("put", Envelope(notice, "null", (), True))
        if was_held:
            self.log.append(f"closed {end.number}")

    # Actions

    def do_post(self, action):
        source = self.hub.ends[action.end]
        if source in self.held:
            yield from self.post_over(source.poster, action)

    def do_send(self, action):
        if action.to not in self.lines:
            yield
            self.lines[action.to] = self.hub.line_to(action.to)
            self.held.add(self.lines[action.to])
        yield from self.post_over(self.lines[action.to], action)

    def post_over(self, poster, action):
        ports = [self.hub.ends[number] for number in action.transfer]
        if not all(port in self.held for port in ports):
            return
        for port in ports:
            self.held.remove(port)
        if poster.end in ports:
            for port in ports:
                notice = yield from self.hub.close(port)
                self.note_closed(port, notice)
            return
        self.hub.flight.update(action.transfer)
        answer = yield from self.hub.post(poster, action.body, action.transfer)
        if isinstance(answer, Posted):
            self.note_put(answer, action.transfer, action.body)
            return
        self.hub.flight.difference_update(action.transfer)
        for port in ports:
            self.held.add(port)

    def do_cast(self, action):
        source = self.hub.ends[action.end]
        if source in self.held:
            accepted = yield from self.hub.cast(source, action.body)
            for name in accepted:
                self.note_put(name, (), action.body)

    def do_start(self, action):
        yield
        end = self.hub.ends[action.end]
        if end in self.held:
            end.is_enabled = True

    do_loaded = do_start

    def do_close(self, action):
        end = self.hub.ends[action.end]
        if end not in self.held:
            return
        self.held.remove(end)
        if end.kind == "member":
            yield from self.hub.leave_roster(end)
        notice = yield from self.hub.close(end)
        self.note_closed(end, notice)

    def do_wait(self, action):
        wanted = self.messages + action.count
        yield from self.turns_until(lambda: self.messages >= wanted)

    def do_receive(self, action):
        yield from self.turns_until(lambda: self.hub.ends[action.end] in self.held)

    def do_order(self, action):
        yield
        self.hub.orders.add(action.to)
        self.hub.change()

    def do_event(self, _action):
        """The state of a worker's life shows nowhere."""
        yield

    def do_hand(self, action):
        yield
        queue = self.hub.ends[self.number]
        self.held.remove(queue)
        self.hub.handed.add((queue, action.to))
        self.hub.change()

    def do_fetch(self, action):
        queue = self.hub.ends[action.to]
        yield from self.turns_until(lambda: (queue, self.number) in self.hub.handed)
        if (queue, self.number) not in self.hub.handed:
            return
        self.hub.handed.discard((queue, self.number))
        yield
        queue.adopt()
        queue.is_enabled = True
        self.held.add(queue)
        self.log.append(f"adopted {queue.number} {queue.newest()}")

    # The end

    def finish(self):
        """Closes what it holds, and the ports that are named by what is discarded there."""
        held = [it for it in self.held.slots if isinstance(it, End)]
        held.sort(key=lambda end: end.number)
        swept, notices, discarded = list(held), [], []
        for end in held:
            if end.kind == "member":
                yield from self.hub.leave_roster(end)
            notices.append((yield from self.hub.close(end)))
        for end in held:
            discarded += yield from self.hub.sweep(end)
        self.hub.lines_out.difference_update(self.lines.values())
        while discarded:
            found = map(self.hub.arrive, discarded.pop(0).ports)
            for end in [end for end in found if end is not None]:
                notices.append((yield from self.hub.close(end)))
                swept.append(end)
                discarded += yield from self.hub.sweep(end)
        for end, notice in zip(swept, notices):
            self.note_closed(end, notice, end in held)

"""Says whether what `run` printed can be told from the script: what was put, held and closed.

It knows nothing of the schedule. A complaint is a text; `complaints` gives all it finds.
- Each message that an agent put is one of its own, in the order of its actions, at the right end,
  with the right ports and the right body, and of a cast once at each destination. The agent held
  the port or member that it came from.
- When it put a message, and at its end if nobody ordered that, an agent had got as many messages as
  its waits before ask for.
- A port and a client queue at which an agent got something were started since they came.
- In each queue the numbers of a line go up from 0 with none left out, and nothing is behind a
  notice.
- After a `got` that names ports come their adoptions, in the order of the list. The adoptions of an
  end are numbered from 1 with none left out.
- An agent closes what it holds, and nothing else. At the end of its log it holds nothing but,
  perhaps, a queue that it handed on.
- Each end is closed in one log; or it was in flight when the run ended: it stands in the list of a
  message that nobody got, and the hub closed it; or it was handed and nobody fetched it. So each
  message that was accepted and isn't got was discarded with its end.
- Of two ports one of which is closed in a log, the one that was closed first has put a notice at
  the other, but where the other has moved too often for the notice to follow.
"""

import collections
import itertools

import hublog

MOST_HOPS = 4


class Fates:
    def __init__(self, script, logs):
        self.script, self.logs = script, logs
        self.complaints = []
        # By body: the place of its action among those of the agent, and the action.
        self.sent = {
            action.body: (place, action)
            for actions in script.actions
            for place, action in enumerate(actions)
            if action.body is not None
        }
        # Of each agent, how many messages its waits before each place ask for, and all of them.
        self.asked = [
            [0, *itertools.accumulate(it.count for it in actions)] for actions in script.actions
        ]
        self.ordered = {it.to for actions in script.actions for it in actions if it.word == "order"}
        self.adoptions = collections.defaultdict(list)
        self.closed = set()
        # Of each end, the messages that name it in their lists, as they were put and got.
        self.named_put, self.named_got = collections.Counter(), collections.Counter()

    def complain(self, text):
        self.complaints.append(text)

    def has_action(self, agent, word):
        return any(it.word == word for it in self.script.actions[agent])

    # What an agent put, beside its actions

    def check_puts(self, log):
        last, ends, got = -1, set(), 0
        for word, entry in log.entries:
            got += word == "got" and entry.content is not None
            if word != "put" or entry.content is None:
                continue
            ports, body = entry.content
            place, action = self.sent.get(body, (None, None))
            if action is None or action.agent != log.agent:
                self.complain(f"agent {log.agent} put {body}, which it hasn't sent")
                continue
            ends = ends if place == last else set()
            if place < last or entry.end in ends or entry.end not in self.script.targets(action):
                self.complain(f"agent {log.agent} put {body} out of order or at another end")
            if ports != action.transfer:
                self.complain(f"agent {log.agent} put {body} with other ports")
            self.check_waits(log.agent, place, got)
            last = place
            ends.add(entry.end)
        if log.agent not in self.ordered:
            self.check_waits(log.agent, -1, got)

    def check_waits(self, agent, place, got):
        asked = self.asked[agent][place]
        if got < asked:
            self.complain(f"agent {agent} got {got} messages and has waited for {asked}")

    # What was started

    def check_started(self, log):
        """Looks for the start of an end before the next message that is put behind a `got`."""
        sent_at, got_at = collections.Counter(), {}
        for word, said in log.entries:
            if word == "got" and self.needs_start(log.agent, said.end):
                got_at[said.end] = sent_at[said.end]
            elif word == "put" and said.content:
                ports, body = said.content
                place = self.sent[body][0]
                self.find_starts(log.agent, got_at, place)
                got_at = {}
                sent_at.update({end: place - sent_at[end] for end in ports})
        self.find_starts(log.agent, got_at, None)

    def find_starts(self, agent, got_at, place):
        """Whether each end was started between the place where it was sent last and this one."""
        for end, since in got_at.items():
            actions = self.script.actions[agent][since:place]
            if not any(it.word in ("start", "loaded") and it.end == end for it in actions):
                self.complain(f"agent {agent} got at {end}, which it hasn't started")

    def needs_start(self, agent, end):
        agents = self.script.agents
        if end < len(agents):
            return end == agent and agents[end].kind == "window"
        return self.script.declared_of(end).kind == "port"

    # What an agent held

    def check_held(self, log):
        held = {log.agent} | {it.end for it in self.script.declared if it.agent == log.agent}
        to_adopt = collections.deque()
        for word, said in log.entries:
            if to_adopt and (word != "adopted" or said[0] != to_adopt.popleft()):
                self.complain(f"agent {log.agent}: a port that came isn't adopted next")
                to_adopt.clear()
            if word == "put" and said.content:
                self.check_put_from_held(log.agent, held, *said.content)
            elif word == "got":
                if said.end not in held:
                    self.complain(f"agent {log.agent} got at {said.end}, which it doesn't hold")
                ports = said.content[0] if said.content else ()
                self.named_got.update(ports)
                to_adopt.extend(ports)
            elif word == "adopted":
                self.adopt(log.agent, held, *said)
            elif word == "closed":
                if said not in held:
                    self.complain(f"agent {log.agent} closed {said}, which it doesn't hold")
                held.discard(said)
                self.closed.add(said)
        self.check_left(log.agent, held)

    def check_put_from_held(self, agent, held, ports, body):
        action = self.sent[body][1]
        if action.word != "send" and action.end not in held:
            self.complain(f"agent {agent} put from {action.end}, which it doesn't hold")
        if not held.issuperset(ports):
            self.complain(f"agent {agent} sent ports that it doesn't hold with {body}")
        self.named_put.update(ports)
        held.difference_update(ports)

    def adopt(self, agent, held, end, epoch):
        if end in held:
            self.complain(f"agent {agent} adopted {end}, which it held")
        held.add(end)
        self.adoptions[end].append(epoch)
        if end < len(self.script.agents):
            if not any(it.word == "fetch" and it.to == end for it in self.script.actions[agent]):
                self.complain(f"agent {agent} adopted queue {end}, which it doesn't fetch")

    def check_left(self, agent, held):
        """What an agent holds at the end of its log: its queue, if it handed that on."""
        may_stay = {agent} if self.has_action(agent, "hand") else set()
        if not held <= may_stay:
            self.complain(f"agent {agent} left {sorted(held - may_stay)} open")
        if agent not in self.ordered and not held >= may_stay:
            self.complain(f"agent {agent} closed the queue that it handed on")

    # All logs together

    def check_lists(self):
        for (end, line), entries in hublog.accepted_lists(self.logs).items():
            counts = collections.Counter()
            for place, entry in enumerate(entries):
                if entry.number != counts[entry.epoch]:
                    self.complain(f"end {end} line {line}: {entry.name()} is out of count")
                counts[entry.epoch] += 1
                if entry.content is None and place + 1 < len(entries):
                    self.complain(f"end {end} line {line}: something is behind the notice")

    def check_ends(self):
        for end, epochs in self.adoptions.items():
            if sorted(epochs) != list(range(1, len(epochs) + 1)):
                self.complain(f"end {end} was adopted as {epochs}")
        for end in range(self.script.end_count()):
            in_flight = self.named_put[end] - self.named_got[end]
            is_handed = end < len(self.script.agents) and self.has_action(end, "hand")
            is_handed = is_handed and not self.adoptions[end]
            if in_flight not in (0, 1) or (end in self.closed and in_flight):
                self.complain(f"end {end} was sent {in_flight} times more than received")
            elif not (end in self.closed or in_flight or is_handed):
                self.complain(f"end {end} is neither closed, nor in flight, nor handed on")

    def check_notices(self):
        notices = {
            said.end
            for log in self.logs
            for word, said in log.entries
            if word == "put" and said.content is None
        }
        for port in self.script.declared:
            if port.kind == "port" and port.end in self.closed:
                pair = {port.end, port.peer.end}
                is_far = any(len(self.adoptions[end]) > MOST_HOPS for end in pair)
                if not pair & notices and not is_far:
                    self.complain(f"port {port.end} is closed without a notice")


def complaints(script, logs):
    """What can't be told from the script, as texts; none where all is well."""
    fates = Fates(script, logs)
    numbers = [log.agent for log in logs]
    if numbers != list(range(len(script.agents))):
        return [f"logs of agents {numbers}"]
    for log in logs:
        fates.check_puts(log)
    # The rest takes each message that was put for one of the script.
    if not fates.complaints:
        for log in logs:
            fates.check_held(log)
            fates.check_started(log)
        fates.check_lists()
        fates.check_ends()
        fates.check_notices()
    return fates.complaints

"""Changes one entry in the logs of a run, so that they are clean no more."""

import hublog


class Logs:
    """The lines of an output, and its entries by their places among them."""

    def __init__(self, output, draw):
        self.lines = output.decode().split("\n")
        self.random = draw
        self.logs = hublog.read_logs(output)
        entries = [pair for log in self.logs for pair in log.entries]
        self.got = [said for word, said in entries if word == "got"]
        self.put = [said for word, said in entries if word == "put"]
        self.messages_got = [entry for entry in self.got if entry.content]

    def pick(self, entries):
        entries = list(entries)
        return self.random.choice(entries) if entries else None

    def text(self, entry):
        return self.lines[entry.at - 1]

    def replace(self, entry, content):
        """Other content of an entry: what stands behind its name."""
        self.lines[entry.at - 1] = " ".join([*self.text(entry).split(" ")[:4], content])

    def stretches(self):
        """What was got at one end by one line between two adoptions, where that is two or more."""
        found = []
        for log in self.logs:
            open_ones = {}
            for word, said in log.entries:
                if word == "got":
                    open_ones.setdefault((said.end, said.line), []).append(said)
                elif word == "adopted":
                    ended = [key for key in open_ones if key[0] == said[0]]
                    found += [open_ones.pop(key) for key in ended]
            found += open_ones.values()
        return [entries for entries in found if len(entries) > 1]


# Each change says whether it could be made.


def swap(logs):
    """Two entries of one line stand in the place of each other."""
    entries = logs.pick(logs.stretches())
    if entries is None:
        return False
    first, second = (entry.at - 1 for entry in logs.random.sample(entries, 2))
    logs.lines[first], logs.lines[second] = logs.lines[second], logs.lines[first]
    return True


def removed(logs, entries):
    """One of these entries is missing."""
    entry = logs.pick(entries)
    if entry:
        del logs.lines[entry.at - 1]
    return entry


def drop(logs):
    """A got entry behind which its line has another is missing."""
    last = {entries[-1][0].at for entries in hublog.got_lists(logs.logs).values()}
    return removed(logs, (it for it in logs.got if it.at not in last))


def doubled(logs, entries):
    """One of these entries stands twice."""
    entry = logs.pick(entries)
    if entry:
        logs.lines.insert(entry.at, logs.text(entry))
    return entry


def double(logs):
    return doubled(logs, logs.got)


def change_body(logs):
    entry = logs.pick(logs.messages_got)
    if entry:
        ports = ",".join(map(str, entry.content[0]))
        logs.replace(entry, f'{ports or "-"} ["changed"]')
    return entry


def change_ports(logs):
    entry = logs.pick(logs.messages_got)
    if entry:
        ports, body = entry.content
        logs.replace(entry, f"{'-' if ports else '65535'} {body}")
    return entry


def change_name(logs):
    entry = logs.pick(logs.messages_got)
    if entry:
        words = logs.text(entry).split(" ", 4)
        words[3] = f"{entry.epoch}:{entry.number + logs.random.randint(1, 3)}"
        logs.lines[entry.at - 1] = " ".join(words)
    return entry


def move_behind_close(logs):
    """A got entry stands behind the closing of its end."""
    found = []
    for log in logs.logs:
        closed = {said for word, said in log.entries if word == "closed"}
        found += [it for word, it in log.entries if word == "got" and it.end in closed]
    entry = logs.pick(found)
    if entry:
        line = logs.lines.pop(entry.at - 1)
        logs.lines.insert(logs.lines.index(f"closed {entry.end}") + 1, line)
    return entry


def drop_put(logs):
    """What was put of an entry that was got is missing."""
    names = {(it.end, it.line, it.name()) for it in logs.got}
    return removed(logs, (it for it in logs.put if (it.end, it.line, it.name()) in names))


def make_notice(logs):
    """A message is a notice where it was got."""
    entry = logs.pick(logs.messages_got)
    if entry:
        logs.replace(entry, "notice")
    return entry


def follow_notice(logs):
    """Something of a line stands behind its notice."""
    entry = logs.pick(it for it in logs.got if it.content is None)
    if entry:
        line = f"got {entry.end} {entry.line} {entry.epoch}:{entry.number + 1} - 0"
        logs.lines.insert(entry.at, line)
    return entry


CHANGES = [
    swap, drop, double, change_body, change_ports, change_name, move_behind_close, drop_put,
    make_notice, follow_notice,
]


# What tools/report alone finds.


def double_message(logs):
    return doubled(logs, logs.messages_got)


def end_line_early(logs):
    """A message behind which its line has another is a notice."""
    puts = {it.key(): it for it in logs.put}
    behind = {its[-1][0].at for its in hublog.got_lists(logs.logs).values()}
    entry = logs.pick(it for it in logs.messages_got if it.at not in behind and it.key() in puts)
    if entry:
        logs.replace(entry, "notice")
        logs.replace(puts[entry.key()], "notice")
    return entry


def close_sent(logs):
    """A port is closed by the agent that has sent it away."""
    entry = logs.pick(it for it in logs.put if it.content and it.content[0])
    if entry:
        line = f"closed {entry.content[0][0]}"
        logs.lines.insert(entry.at, line)
        others = [at for at, it in enumerate(logs.lines) if it == line and at != entry.at]
        for at in reversed(others):
            del logs.lines[at]
    return entry


def answer_early(logs):
    """An answer is got before the message is put that it answers."""
    puts = {it.key(): (log.agent, it.at) for log in logs.logs for word, it in log.entries
            if word == "put"}
    gots = {}
    for log in logs.logs:
        for word, it in log.entries:
            if word == "got" and it.key() in puts:
                gots.setdefault((log.agent, puts[it.key()][0]), []).append(it)
    found = [
        (puts[message.key()][1], answer) for (asked, asker), its in gots.items() for message in its
        for answer in gots.get((asker, asked), ())
        if message.at < puts[answer.key()][1] and puts[message.key()][1] < answer.at
    ]
    pair = logs.pick(found)
    if pair:
        logs.lines.insert(pair[0] - 1, logs.lines.pop(pair[1].at - 1))
    return pair


def put_twice(logs):
    return doubled(logs, logs.put)


def lose_last(logs):
    """The last that was got of a line is missing."""
    lasts = [its[-1][0] for its in hublog.got_lists(logs.logs).values()]
    return removed(logs, (it for it in lasts if it.content))


# By the kind that tools/report has to find.
PLANTS = {
    "AfterClose": move_behind_close, "AfterNotice": end_line_early, "Changed": change_body,
    "Twice": double_message, "Gap": drop, "Foreign": drop_put, "NotOwner": close_sent,
    "BeforePut": answer_early, "PutTwice": put_twice, "Lost": lose_last,
}


def plant(kind, output, draw):
    """The output with a fault of a kind, or None where there is no place for it."""
    logs = Logs(output, draw)
    return "\n".join(logs.lines).encode() if PLANTS[kind](logs) else None


def change(output, draw):
    """The output with a change that must be seen, and the change's name; None if none can be."""
    for make in draw.sample(CHANGES, len(CHANGES)):
        logs = Logs(output, draw)
        if make(logs):
            return "\n".join(logs.lines).encode(), make.__name__
    return None

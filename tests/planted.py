"""Plants a fault of each kind in right logs, and looks whether the report finds it."""

import collections
import random
import sys

from support import TESTS

sys.path.insert(0, str(TESTS / "soak.d"))

import changes
import generator
import hublog
import hubscript
import verdict
import wrong
from simulator import simulation

MOST_SEEDS, FEW_SEEDS = 80, 15
# The faults of a simulated hub of which the logs show something, with one kind that is found.
# The others leave agents waiting for ever, do what a right hub may do under another script, or
# change what a run prints behind its logs.
SHOWN = {
    "lose_message": "Gap", "double_message": "Twice", "double_unseen": "Twice", "overtake": "Gap",
    "change_body": "Changed", "take_newest_first": "Gap", "leave_early": "Gap",
    "drop_ports": "Lost", "lose_refused_ports": "Lost", "adopt_as_first": "NotOwner",
    "leave_ports_open": "Lost", "forget_notice": "Foreign", "take_after_close": "AfterClose",
}


def kinds_of(text, source=None):
    """The kinds of what is found in logs; of a run of a script, what may be left is allowed."""
    entries = verdict.Entries(hublog.read_logs(text))
    known = verdict.known_of(source) if source else None
    return {it.kind for it in verdict.verdict(entries, known, allow_left=source is not None)}


def kinds_of_simulated(fault):
    """What is found in simulated runs with a fault, up to the first finding. The fault stays for
    good, so this takes a process of its own."""
    wrong.plant(fault)
    for seed in range(MOST_SEEDS if fault in SHOWN else FEW_SEEDS):
        source = generator.make(seed)
        try:
            output, _ = simulation.simulate(hubscript.read(source), seed)
        except simulation.Stuck:
            continue
        found = kinds_of(output.encode(), source)
        if found:
            return found
    return set()


class Planted(collections.Counter):
    """How often a fault of each kind was planted, in all logs."""

    def check(self, case, text, seed):
        """Plants one of each kind for which the logs have a place."""
        for kind in changes.PLANTS:
            found = changes.plant(kind, text, random.Random(seed))
            if found is not None:
                case.assertIn(kind, kinds_of(found), found.decode()[:2_000])
                self[kind] += 1

    def says(self, case, floor):
        """Says how many were planted; of each kind there are so many."""
        missing = {kind: self[kind] for kind in changes.PLANTS if self[kind] < floor}
        case.assertEqual(missing, {}, "too few were planted")
        case.says(sum(self.values()), "planted faults", floor * len(changes.PLANTS))


if __name__ == "__main__":
    print(*sorted(kinds_of_simulated(sys.argv[1])))

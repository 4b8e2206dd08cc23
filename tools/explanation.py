"""Explains logs: looks for a schedule in which the state machine does what they say.

A schedule needs the ends of the run. A script tells them; without one they are guessed, and logs of
a hub that has no epochs, or no notices, are taken as such where they can't be explained else.
tools/steps-of prints the step lines, and tools/view and tools/draw take the order of the entries.
"""

import itertools

import ends
import hublog
import schedule
from naming import short

# How many states may be spent on the search for how far each log can be explained.
MOST_STATES_TO_SHOW = 50_000
MOST_LETTERS = 90
# How many guesses of the ends are tried before logs are read as those of a simpler hub.
MOST_STRICT_GUESSES = 50


class Explanation:
    """The search for logs: over what is taken for granted, and the schedules that it leaves."""

    def __init__(self, logs, known, most_states, is_close=False):
        self.logs, self.known, self.is_close = logs, known, is_close
        self.goal = schedule.Goal(logs)
        # Some logs have no schedule, whatever their ends are.
        is_doomed = any(item.end in item.ports for item in self.goal.all("put"))
        self.is_hopeless = is_doomed or hublog.judge(logs) != "clean"
        self.most_states = most_states
        self.budget = schedule.Budget(most_states)
        self.farthest = [0] * self.goal.agents
        # What has to be said of the step lines that were found, and the ends that they make.
        self.notes, self.found_ends = [], None

    def state(self):
        """The state to which a schedule of all entries leads, or None where there is none.

        May raise schedule.Undecided.
        """
        for options, most in self.readings():
            for found in itertools.islice(self.ends(options), most):
                search = schedule.Search(
                    self.goal, found, self.budget, is_close=self.is_close, **options
                )
                state = search.run()
                self.see(search)
                if state is not None:
                    self.notes, self.found_ends = list(notes_of(state)), found
                    return state
        return None

    def readings(self):
        """How the logs may be read, from the strictest way on, and how many guesses are worth it.

        Without a script they may be those of a hub that has no epochs, or no notices.
        """
        items = [item for items in self.goal.items for item in items]
        has_notices = any(item.is_notice for item in items)
        has_epochs = any(item.word in ("put", "got") and item.said.epoch for item in items)
        is_plain = self.known is not None or (has_epochs and has_notices)
        yield {}, None if is_plain else MOST_STRICT_GUESSES
        if not is_plain:
            yield {"has_notices": has_notices, "has_epochs": has_epochs}, None
        if has_notices:
            yield {"may_cross": True, "has_epochs": is_plain or has_epochs}, None

    def ends(self, options):
        if self.known is not None:
            return [self.known]
        found = ends.guesses(self.goal, options.get("has_epochs", True))
        found = self.counted(found)
        return itertools.islice(found, 1) if self.is_hopeless else found

    def counted(self, found):
        """The guesses that can be made. Each is a state that the search comes to."""
        for guess in found:
            self.budget.take()
            if guess is not None:
                yield guess

    def see(self, search):
        self.farthest = list(map(max, self.farthest, search.farthest))

    def look_farther(self):
        """Looks how far each log goes where others may stop, in the least strict reading."""
        self.budget = schedule.Budget(min(self.most_states, MOST_STATES_TO_SHOW))
        *_, (options, _) = self.readings()
        for found in itertools.islice(self.ends(options), 1):
            search = schedule.Search(self.goal, found, self.budget, is_relaxed=True, **options)
            try:
                search.run()
            except schedule.Undecided:
                pass
            self.see(search)

    def beginnings(self):
        """For each log, how far it can be explained."""
        for agent in sorted({log.agent for log in self.logs}):
            items, count = self.goal.items[agent], self.farthest[agent]
            text = f"agent {agent}: {count} of {len(items)} entries"
            if count < len(items):
                item = items[count]
                said = short(hublog.text_of(item.word, item.said), MOST_LETTERS)
                text += f", then line {item.at}: {said}"
            yield text


def notes_of(state):
    """What the step lines do otherwise than the logs say."""
    if state.is_noticed:
        yield "the logs have no notices, and the step lines put some"
    if state.is_renamed:
        yield "the logs have no epochs, so the step lines give other names"
    if state.left_out:
        places = ", ".join(str(item.at) for item in state.left_out)
        said = "a step line puts only the first of two notices that crossed; left out"
        yield f"{said}: line {places}"


def order_of(logs, known, most_states):
    """The lines of all entries in the order of a schedule, and its ends, or None."""
    explanation = Explanation(logs, known, most_states, is_close=True)
    try:
        state = None if explanation.is_hopeless else explanation.state()
    except schedule.Undecided:
        return None
    return state and ([item.at for item in state.items()], explanation.found_ends)

"""Which limit a run met.

The report is `limit` alone. So the program is asked again, by one worker and with the limits as high as they go, where that is quick; only of texts
without nd constructs, since with these another run may cost something else.
"""
import time

from asking import ask
from verdicts import limits_of_trace

KEYS = ("steps", "cells")
LIMITED = 4
DONE_OR_TRAPPED = (0, 3)

# How long all questions may take, and how many bytes each.
SECONDS = 3
MEMORY = 1 << 30


def table(text):
    """The greatest value and the default of each limit, from the launcher's table of keys."""
    rows = (row.split("|") for row in text.splitlines())
    return {row[0]: (int(row[2]), int(row[3])) for row in rows if row[0] in KEYS}


def in_force(options, text):
    """The limits of the run, by key."""
    if options.words[0] == "replay":
        return limits_of_trace(text)
    given = dict(word.split("=", 1) for word in options.words[1:])
    return {key: int(given.get(key, default)) for key, (_, default) in table(options.keys).items()}


class Questions:
    """Asks how a run ends within other limits, as long as there is time."""

    def __init__(self, options, text):
        self.program, self.text, self.until = options.program, text, time.monotonic() + SECONDS
        self.argument = [word for word in options.words[1:] if word.startswith("arg=")]

    def status(self, limits):
        """The status of the run within these limits; None where it isn't known."""
        left = self.until - time.monotonic()
        words = ["run", "workers=1", *self.argument, *(f"{key}={value}" for key, value in limits.items())]
        answer = ask(self.program, words, self.text, left, MEMORY) if left > 0 else None
        return answer and answer.status


def met(options, text, limits, greatest):
    """The limits that a run met, as the words with which it ends; none where it ends with none, and None where that isn't known."""
    questions = Questions(options, text)
    status = questions.status(greatest)
    if status == LIMITED:
        return []
    if status not in DONE_OR_TRAPPED:
        return None
    for key in KEYS:
        if questions.status({**limits, key: greatest[key]}) in DONE_OR_TRAPPED:
            return [key]
    return list(KEYS)


def explained(options, text):
    """The names of the limits that a run met, None where that isn't known; and a sentence that says it."""
    limits = in_force(options, text)
    if options.words[0] == "replay":
        words = " ".join(f"{key}={value}" for key, value in limits.items())
        return None, f"The replayed run costs more than its trace allows, {words}; these are set where the trace is made."
    greatest = {key: most for key, (most, _) in table(options.keys).items()}
    costs = f"The run costs more than steps={limits['steps']} or cells={limits['cells']} allows"
    at_most = f"steps={greatest['steps']} and cells={greatest['cells']}"
    if limits == greatest:
        return None, f"{costs}, and no higher limits can be set."
    found = None
    if options.words[0] != "demo" and b"_nd" not in text:
        found = met(options, text, limits, greatest)
    if found is None:
        return None, f"{costs}; they can be set up to {at_most}."
    if not found:
        return None, f"{costs}, and more than {at_most} too: perhaps it does not end."
    words = " ".join(f"{key}={greatest[key]}" for key in found)
    return " ".join(found), f"It was the limit of {' and '.join(found)}: with {words} it ends."

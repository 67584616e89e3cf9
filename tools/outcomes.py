#!/usr/bin/env python3
"""The outcomes of a program in orders that seeds draw, each with how often it came and a seed that gives it.

usage: tools/outcomes.py PROGRAM FILE [N] [NAME=VALUE..] [--json]

PROGRAM is the path of the program dpj, FILE the text or `-` for standard input. PROGRAM makes N runs, `run seed=1` to `run seed=N`, as many
side by side as there are processors; N is 1 to 10000, and 100 where it is left out. The settings steps, cells and arg are those of `run`. An
outcome is what a run writes, with its status. Runs that ended without one are counted by themselves: those that took more than 10 seconds, wrote
more than 16 MiB, or had more than 2 GiB of memory too little. Where the outcomes together are greater than 128 MiB, no more runs are made.
An interrupt (Ctrl-C) ends the runs, and what was found so far is written.

A long outcome is shown by its beginning, its end, and the lines in which it differs from others. --json writes one object, with all of it:
{"file", "refused": {"name", "line", "column"} or null, "nd": whether the text has nd constructs, "seeds": N, "runs": how many ended,
"stopped": null, "interrupt" or "size", "outcomes": [{"status", "output", "count", "seed"}], "without": [{"why", "count", "seed"}]}.
Outcomes that came more often stand first; "seed" is the least. "why" is "time", "output", "memory" or "signal".

Status: 0 the runs were made, 1 usage, 2 the text is refused, 5 FILE can't be read, 6 nobody reads what is written, 126 PROGRAM gives no
answer, 130 it was interrupted.
"""
import json
import os
import re
import shlex
import signal
import sys
import tempfile

import partings
import sections
from asking import MAX_TEXT, ask
from places import Place
from reasons.source import tokens_of
from screen import columns_of, keep_closed, printable, tell, wrapped, write_all
from side_by_side import KILLED, Bounds, Runs, processors
from verdicts import Verdict

DONE, USAGE, REFUSED, READ_FAULT, WRITE_FAULT, NO_ANSWER, INTERRUPTED = 0, 1, 2, 5, 6, 126, 130
NO_MEMORY = 7
ACCEPTED = b"accepted\n"
OUTCOMES = (0, 3, 4)

BOUNDS = Bounds(seconds=10, memory=2 << 30, output=16 << 20)
KEPT_AT_MOST = 128 << 20
CHECK_SECONDS = 60
SEEDS, SEEDS_AT_MOST = 100, 10000
SHOWN_AT_MOST = 20
WIDEST = 100

SETTINGS = ("steps", "cells", "arg")
ND = ("cobegin_nd", "foreach_nd")

LACKS = {
    "time": f"took more than {BOUNDS.seconds} seconds",
    "output": f"wrote more than {BOUNDS.output >> 20} MiB",
    "memory": f"had too little in {BOUNDS.memory >> 30} GiB of memory",
    "signal": "ended by a signal",
}


class Fault(Exception):
    """A call that can't be answered, with its status."""

    def __init__(self, status, text):
        super().__init__(text)
        self.status = status


class Call:
    """The words of a call."""

    def __init__(self, words):
        self.as_json = "--json" in words
        rest = [word for word in words if word != "--json"]
        self.program, *rest = rest or [None]
        self.settings = [word for word in rest if "=" in word.partition("/")[0]]
        self.file, self.seeds, *others = [*(word for word in rest if word not in self.settings), None, None][:3]
        if self.file is None or any(others):
            raise Fault(USAGE, __doc__.splitlines()[2])
        self.seeds = SEEDS if self.seeds is None else seeds_of(self.seeds)
        names = [word.partition("=")[0] for word in self.settings]
        for name, word in zip(names, self.settings):
            if name not in SETTINGS:
                raise Fault(USAGE, f"dpj: `{word}`: the settings of outcomes are {', '.join(SETTINGS)}")
            if names.count(name) > 1:
                raise Fault(USAGE, f"dpj: {name} is set twice")

    def jobs(self):
        """Each seed with the words of its run."""
        return ((seed, ["run", f"seed={seed}", *self.settings]) for seed in range(1, self.seeds + 1))

    def again(self, seed):
        """The call that shows a run again."""
        words = ["./dpj", "trace", f"seed={seed}", *self.settings, *([] if self.file == "-" else [self.file])]
        return printable(shlex.join(words)) + (" <TEXT" if self.file == "-" else "")


def seeds_of(word):
    """How many seeds a word asks for."""
    if not re.fullmatch("[1-9][0-9]{0,4}", word) or int(word) > SEEDS_AT_MOST:
        raise Fault(USAGE, f"dpj: `{word}` is no number of seeds; there may be 1 to {SEEDS_AT_MOST}")
    return int(word)


class Found:
    """The outcomes so far."""

    def __init__(self):
        self.outcomes, self.without = {}, {}
        self.runs = self.size = 0

    def add(self, ended):
        """Counts the end of a run."""
        lack = ended.over or self.lack_of(ended.status)
        table, key = (self.without, lack) if lack else (self.outcomes, (ended.status, ended.report))
        if key not in table and not lack:
            self.size += len(ended.report)
        count, seed = table.get(key, (0, ended.key))
        table[key] = (count + 1, min(seed, ended.key))
        self.runs += 1

    @staticmethod
    def lack_of(status):
        """Why a status is none of an outcome; None where it is."""
        if status == NO_MEMORY:
            return "memory"
        if status > KILLED:
            return "signal"
        if status == USAGE:
            raise Fault(USAGE, "dpj: the program doesn't take these settings; ./dpj help run says what they may be")
        if status not in OUTCOMES:
            raise Fault(NO_ANSWER, f"dpj: the program ended with status {status}")
        return None

    def ordered(self):
        """The outcomes as status, report, count and seed, the most frequent ones first."""
        rows = [(*key, *value) for key, value in self.outcomes.items()]
        return sorted(rows, key=lambda row: (-row[2], row[3]))


def text_of(call):
    """The bytes of the text, as many as the program would take."""
    try:
        with open(0 if call.file == "-" else call.file, "rb") as file:
            return file.read(MAX_TEXT + 1)
    except OSError as error:
        name = "standard input" if call.file == "-" else call.file
        raise Fault(READ_FAULT, f"dpj: {name} can't be read: {error.strerror}") from None


def refusal(call, text):
    """The refusal of the text; None where it is accepted."""
    try:
        answer = ask(call.program, ["check"], text, CHECK_SECONDS)
    except OSError as error:
        raise Fault(NO_ANSWER, f"dpj: {call.program} can't be run: {error.strerror}") from None
    verdict = answer and Verdict("check", answer)
    if answer == (ACCEPTED, DONE):
        return None
    if not verdict or verdict.line is None:
        raise Fault(NO_ANSWER, f"dpj: {call.program} check gave no answer")
    return verdict


def has_nd(text):
    """Whether a text has nd constructs."""
    return any(token.kind == "name" and token.text in ND for token in tokens_of(text.decode("latin-1")))


def made(call, text):
    """Makes the runs: what was found, and why no more were made, or None."""
    found, stopped = Found(), None
    with tempfile.TemporaryDirectory() as room:
        path = os.path.join(room, "text")
        with open(path, "wb") as file:
            file.write(text)
        runs = Runs(call.program, path, BOUNDS)

        def interrupt(*_):
            nonlocal stopped
            stopped = "interrupt"
            runs.stop()
            signal.signal(signal.SIGINT, signal.SIG_DFL)

        signal.signal(signal.SIGINT, interrupt)
        for ended in runs.all(call.jobs(), min(processors(), call.seeds)):
            found.add(ended)
            if found.size > KEPT_AT_MOST:
                stopped = "size"
                runs.stop()
        signal.signal(signal.SIGINT, signal.SIG_DFL)
    return found, stopped


def refused_lines(call, text, verdict):
    """What is said of a refusal, under its line."""
    columns = columns_of(2) - 1
    section = sections.load()[0].get(verdict.name)
    sentence = f"{verdict.name}: {section.sentence()}" if section else verdict.name
    lines = Place(text, verdict.line, verdict.column).screen(columns) if verdict.name != "too-long" else []
    return [*lines, *wrapped(sentence, columns), "No run is made of a text that is refused."]


def many(number, what):
    return f"{number} {what}{'' if number == 1 else 's'}"


def lines_of(call, found, stopped, is_nd):
    """What was found, for people."""
    columns, rows = min(WIDEST, columns_of(1)), found.ordered()
    seeds = "seed=1" if call.seeds == 1 else f"the seeds 1 to {call.seeds}"
    yield f"{printable(call.file)}: {many(len(rows), 'outcome')} in {many(found.runs, 'run')}, with {seeds}{end_of(stopped, call, found)}"
    yield from outcome_lines(rows, columns)
    for why, (count, seed) in sorted(found.without.items()):
        yield f"{count} without an outcome, the first with seed={seed}: {LACKS[why]}"
    if rows:
        yield f"To see one again: {call.again(rows[min(1, len(rows) - 1)][3])}"
    yield from wrapped(promise(len(rows), is_nd), columns)


def end_of(stopped, call, found):
    """How the runs ended, where not all were made."""
    if stopped == "size":
        return f"; the outcomes are greater than {KEPT_AT_MOST >> 20} MiB, so no more runs were made"
    return f"; interrupted, so {many(call.seeds - found.runs, 'seed')} had no run" if stopped else ""


def outcome_lines(rows, columns):
    """Each outcome with its counts, and as much of its text as is needed to tell it from the others."""
    texts = list({row[1] for row in rows})
    own = dict(zip(texts, partings.partings(texts)))
    first = [partings.first_parting(texts)] if len(texts) > 1 else []
    width = len(str(rows[0][2])) if rows else 0
    for status, report, count, seed in rows[:SHOWN_AT_MOST]:
        yield f"{count:{width}}  seed={seed}  status {status}"
        places = [*first, own[report]] if first else []
        yield from (f"    {line}" for line in partings.excerpt(report, places, columns - 4))
    if len(rows) > SHOWN_AT_MOST:
        yield f"{many(len(rows) - SHOWN_AT_MOST, 'outcome')} more, not shown here; --json writes all"


def promise(count, is_nd):
    """What more or less than this is promised."""
    if is_nd:
        return "The text has nd constructs: other seeds may show other outcomes."
    if count > 1:
        return "The text has no nd constructs, so one outcome is promised, and not these: this is a defect of dpj."
    return "The text has no nd constructs: one outcome is what is promised, in whatever order its branches come."


def as_object(call, found, stopped, is_nd):
    """What was found, as the bytes of one object."""
    outcomes = [
        {"status": status, "output": report.decode("utf-8", errors="replace"), "count": count, "seed": seed}
        for status, report, count, seed in found.ordered()
    ]
    without = [{"why": why, "count": count, "seed": seed} for why, (count, seed) in sorted(found.without.items())]
    return object_of(call, nd=is_nd, runs=found.runs, stopped=stopped, outcomes=outcomes, without=without)


def object_of(call, **known):
    """An object with all fields."""
    fields = {"file": printable(call.file), "refused": None, "nd": None, "seeds": call.seeds, "runs": 0, "stopped": None, "outcomes": [], "without": []}
    return (json.dumps({**fields, **known}) + "\n").encode("ascii")


def answered(call):
    """Answers a call: the bytes, the lines for standard error, and the status."""
    text = text_of(call)
    verdict = refusal(call, text)
    if verdict:
        place = {"name": verdict.name, "line": verdict.line, "column": verdict.column}
        if call.as_json:
            return object_of(call, refused=place), [], REFUSED
        return f"refused {verdict.line}:{verdict.column} {verdict.name}\n".encode(), refused_lines(call, text, verdict), REFUSED
    found, stopped = made(call, text)
    is_nd, status = has_nd(text), INTERRUPTED if stopped == "interrupt" else DONE
    if call.as_json:
        return as_object(call, found, stopped, is_nd), [], status
    return "".join(f"{line}\n" for line in lines_of(call, found, stopped, is_nd)).encode("utf-8"), [], status


def main(words):
    """Answers one call; gives its status."""
    keep_closed()
    if "--help" in words or "-h" in words:
        data, lines, status = __doc__.encode(), [], DONE
    else:
        # Until there are runs, an interrupt ends this at once.
        signal.signal(signal.SIGINT, signal.SIG_DFL)
        try:
            data, lines, status = answered(Call(words))
        except Fault as fault:
            tell([printable(str(fault))])
            return fault.status
    try:
        write_all(1, data)
    except OSError:
        return WRITE_FAULT
    tell(lines)
    return status


if __name__ == "__main__":
    sys.exit(main(sys.argv[1:]))

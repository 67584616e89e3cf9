#!/usr/bin/env python3
"""Every fault of a text, not the first one alone.

usage: tools/faults.py PROGRAM FILE [--json | --editor]

PROGRAM is the path of the program dpj, FILE the text or `-` for standard input. The first fault is what `PROGRAM check` says. Then the
text is changed so that it is gone (by a mend, by a statement that does nothing, by a body that returns a default), and PROGRAM is asked
again: what it says then is written with the changes after which it was found, and may be due to them. At most 200 questions are asked,
within 10 seconds.

--json writes one object: {"file", "faults": [{"name", "line", "column", "text", "statements", "says", "mend", "after"}], "changes": [text],
"complete"}. The first four are a fault's name and place, and its line; the next three as why writes them; "after" is the last change before
the fault was found, or null; "changes" are all of them; "complete" says whether the text was accepted in the end. Places are those of FILE,
but for a mend's "edits", whose places are those of the text with the changes before it. --editor writes each fault as
FILE:LINE:COLUMN: refused: NAME, and `accepted` where there is none.

Status: 0 the text is accepted, 1 usage, 2 it is refused, 5 FILE can't be read, 6 nobody reads what is written, 126 PROGRAM gives no answer.
"""

import json

from reasons.asking import Asker, Spent
from reasons.calls import general, paper, run
from reasons.explain import explain
from reasons.leaving import applied
from reasons.onward import next_step
from reasons.report import change_of, place_of
from reasons.source import Source, marked, shown
from screen import printable

QUESTIONS, SECONDS, FAULTS_AT_MOST = 200, 10.0, 60
PLAIN_ROLES = ("here", "here, though it's noticed only at what follows", "the statement with the value")


class Faults:
    """The faults of a text in the order in which they are found."""

    def __init__(self, source, asker):
        self.source = source
        self.asker = asker
        self.found = []
        self.steps = []
        self.changes = []
        self.complete = False

    def search(self):
        """Finds faults as long as there are any, and questions and time."""
        now = self.source
        try:
            while len(self.found) < FAULTS_AT_MOST:
                report = explain(now, self.asker, brief=True)
                if report.answer.accepted:
                    self.complete = True
                    return
                self.note(report)
                step = next_step(report)
                if step is None:
                    return
                self.changes.append(f"{step.what.what} {self.shown_place(now, step.what.at)}")
                self.steps.append((now.text, step))
                now = Source(now.name, applied(now.text, step.edits)[0])
        except Spent:
            return

    def note(self, report):
        """Keeps a fault, at its place in the text as it was given."""
        line, column = self.back(report.source, report.answer.line, report.answer.column)
        statements = [{**entry, **self.place(report.source, entry)} for entry in report.statements]
        mend = {**report.mend, **self.place(report.source, report.mend)} if report.mend else None
        after = self.changes[-1] if self.changes else None
        self.found.append(
            {"name": report.answer.name, "line": line, "column": column, "text": shown(self.source.line(line)), "statements": statements,
             "says": report.says, "mend": mend, "after": after}
        )  # fmt: skip

    def shown_place(self, now, offset):
        """An offset of the text as it is now, as a place of the text as it was given."""
        return "{}:{}".format(*self.back(now, *now.place(offset)))

    def place(self, now, entry):
        """The place of an entry in the text as it was given."""
        line, column = self.back(now, entry["line"], entry["column"])
        return {"line": line, "column": column}

    def back(self, now, line, column):
        """A place of the text as it is now in the text as it was given."""
        if not self.steps:
            return line, column
        offset = now.offset(line, column)
        for text, step in reversed(self.steps):
            offset = step.back(text, offset)
        return self.source.place(offset)

    def as_json(self):
        found = {"file": printable(self.source.name), "faults": self.found, "changes": self.changes, "complete": self.complete}
        return json.dumps(found, ensure_ascii=True) + "\n"

    def as_lines(self):
        """The faults as editors read them."""
        return "".join(f"{self.title(fault)}\n" for fault in self.found) or "accepted\n"

    def title(self, fault):
        return f"{printable(self.source.name)}:{place_of(fault)}: refused: {fault['name']}"

    def as_text(self, paper):
        """The faults for people."""
        if not self.found:
            return f"{printable(self.source.name)}: accepted\n"
        lines = [line for fault in self.found for line in self.fault_lines(fault, paper)]
        count = len(self.found)
        lines.append(f"{count} fault{'s' * (count != 1)}; {self.end()}")
        return "".join(f"{line}\n" for line in lines)

    def fault_lines(self, fault, paper):
        """A fault with its line, the first of its reason, and what it was found after."""
        lines = [paper.bold(self.title(fault))]
        lines += ["  " + line for line in marked(self.source, fault["line"], fault["column"], paper.columns - 2)]
        named = [entry for entry in fault["statements"] if entry["role"] not in PLAIN_ROLES and fault["name"] != "unknown"]
        for entry in named[:3]:
            lines += paper.wrapped(f"{place_of(entry)}  {entry['text']}  ({entry['role']})", "  ", "        ")
        says = fault["says"][:1] or ([] if named or fault["mend"] else [general(fault["name"])[0]])
        for text in says:
            lines += paper.wrapped(text, "  ")
        if fault["mend"]:
            lines += paper.wrapped(mend_line(fault["mend"]), "  ")
        if fault["after"]:
            lines += paper.wrapped(f"(found after {fault['after']})", "  ")
        return lines

    def end(self):
        """How the search ended."""
        if self.complete:
            return "without them the text is accepted."
        if len(self.found) >= FAULTS_AT_MOST:
            return "no more were looked for."
        if self.asker.left <= 0 or self.asker.is_late():
            return "the questions or the time were used up, so there may be more."
        return "there may be more, which can't be told apart from the last one."


def mend_line(mend):
    """A mend and what it puts."""
    changes = "; ".join(change_of(edit) for edit in mend["edits"][:3])
    return f"Mend: {mend['text']} {changes}" + (" .." if len(mend["edits"]) > 3 else "")


def form(write):
    """What a form of the report makes of a program and a text."""

    def made(program, source):
        faults = Faults(source, Asker(program, QUESTIONS, SECONDS))
        faults.search()
        return write(faults), not faults.found

    return made


if __name__ == "__main__":
    forms = {"": lambda faults: faults.as_text(paper()), "--json": Faults.as_json, "--editor": Faults.as_lines}
    run("faults", __doc__, {option: form(write) for option, write in forms.items()})

#!/usr/bin/env python3
"""Why a text is refused.

usage: tools/why.py PROGRAM FILE [--json | --brief]

PROGRAM is the path of the program dpj, FILE the text or `-` for standard input. Statements are left out of the text, names and
tokens are tried, and `PROGRAM check` is asked again: what is said of a change is its answer. With --brief at most eight lines,
mostly fewer, are written within half a second, without the place and the line of the refusal, which the caller shows. COLUMNS in the
environment says how wide they may be.

--json writes one object: {"file", "refused": {"name", "line", "column"} or null where the text is accepted,
"statements": [{"line", "column", "text", "role", and where an expression of the statement is meant "access": {"line", "column", "text"}}],
"says": [text], "mend": {"text", "line", "column", "old", "new", "answer"} or null,
"tried": [{"change", "answer", "edits": [{"line", "column", "old", "new"}]}]}.
An edit replaces `old`, which stands at its place, by `new`; the edits of one change go together. Columns count bytes, as those of dpj do.

Status: 0 the text is accepted, 1 usage, 2 it is refused, 5 FILE can't be read, 6 nobody reads what is written, 126 PROGRAM gives no answer.
"""

import shutil

from reasons.asking import Asker
from reasons.calls import general, paper, run
from reasons.explain import explain
from reasons.report import BRIEF_WIDTH
from screen import Paper

QUESTIONS = 400
SECONDS = 10.0
BRIEF_QUESTIONS = 60
BRIEF_SECONDS = 0.25
BRIEF_SPARE = 0.5


def as_text(program, source):
    report = explain(source, Asker(program, QUESTIONS, SECONDS))
    return report.as_text(general, paper()), report.answer.accepted


def as_json(program, source):
    report = explain(source, Asker(program, QUESTIONS, SECONDS))
    return report.as_json() + "\n", report.answer.accepted


def as_brief(program, source):
    report = explain(source, Asker(program, BRIEF_QUESTIONS, BRIEF_SECONDS, BRIEF_SPARE), brief=True)
    columns = shutil.get_terminal_size((BRIEF_WIDTH, 0)).columns
    return report.as_brief(Paper(columns)), report.answer.accepted


if __name__ == "__main__":
    run("why", __doc__, {"": as_text, "--json": as_json, "--brief": as_brief})

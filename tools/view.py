#!/usr/bin/env python3
"""A page that shows a run.

usage: tools/view.py PROGRAM FILE [NAME=VALUE..] [--output=NAME]

PROGRAM is the path of the program dpj, FILE the text or `-` for standard input. PROGRAM makes a run, `events`, with the settings workers, steps,
cells, arg and seed, which are those of `trace`. What it writes is put into one HTML file, with the text: the program on the left, the tasks as
lanes with their events from top to bottom, and beside them what was printed and the cells that have changed, at each step of the run. The page
takes nothing from a network.

The page is written as NAME, or else beside FILE with the ending .html in place of .dpj, and one line says so; a file of that name that is no such
page is left alone. To standard output it goes where NAME is `-`, or where the text comes from standard input and no NAME is given.

No page is made of a run that takes more than 60 seconds, or of which more than 64 MiB would be written, some 1500000 events: a smaller arg makes
a shorter run, and steps cuts one off.

Status: 0 the page is written, 1 usage, 2 the text is refused, 3 the page is written of a run that trapped, 4 it is written of one that went over
a limit, or none is written as the run is too long for it, 5 FILE can't be read, 6 the page can't be written, 7 memory ran out, 126 PROGRAM gives
no answer, 127 a part of this tool is missing.
"""
import html
import json
import os
import pathlib
import re
import signal
import sys
import tempfile

from outcomes import Fault, refused_lines, text_of
from screen import keep_closed, printable, tell, write_all
from side_by_side import Bounds, Runs
from verdicts import Verdict

DONE, USAGE, REFUSED, TRAPPED, LIMITED, READ_FAULT, WRITE_FAULT, NO_MEMORY, NO_ANSWER, NO_PART = 0, 1, 2, 3, 4, 5, 6, 7, 126, 127
SHOWN = (DONE, TRAPPED, LIMITED)

BOUNDS = Bounds(seconds=60, memory=4 << 30, output=64 << 20)
# After so many seconds it is told that a run is being made.
PATIENCE = 1

SETTINGS = ("workers", "steps", "cells", "arg", "seed")
PARTS = pathlib.Path(__file__).resolve().parent / "page"
SCRIPTS = ("run.js", "relations.js", "lanes.js", "source.js", "page.js")
# By which a page is known.
BEGINNING = "<!doctype html>\n<!-- A run, as dpj view shows it. -->\n"

COUNTED = re.compile(rb"dpj-events 1\narg -?\d+ steps \d+ cells \d+\nevents (\d+)\n")


class Call:
    """The words of a call."""

    def __init__(self, words):
        output = [word.removeprefix("--output=") for word in words if word.startswith("--output=")]
        self.program, *rest = [word for word in words if not word.startswith("--output=")] or [None]
        self.settings = [word for word in rest if "=" in word.partition("/")[0]]
        files = [word for word in rest if word not in self.settings]
        if len(files) != 1 or len(output) > 1 or "" in output or files[0].startswith("--"):
            raise Fault(USAGE, __doc__.splitlines()[2])
        self.file = files[0]
        names = [word.partition("=")[0] for word in self.settings]
        for name, word in zip(names, self.settings):
            if name not in SETTINGS:
                raise Fault(USAGE, f"dpj: `{word}`: the settings of view are {', '.join(SETTINGS)}")
            if names.count(name) > 1:
                raise Fault(USAGE, f"dpj: {name} is set twice")
        self.is_named = bool(output)
        self.output = output[0] if output else "-" if self.file == "-" else beside(self.file)
        if self.output == "-" and not self.is_named and os.isatty(1):
            raise Fault(USAGE, "dpj: the page is long; --output=NAME writes it to a file")

    def see_output(self):
        """Sees that the page can go where it is to go."""
        if self.output == "-":
            return
        folder = os.path.dirname(self.output) or "."
        way = "" if self.is_named else "; --output=NAME writes it elsewhere"
        if not os.path.isdir(folder):
            raise Fault(WRITE_FAULT, f"dpj: {self.output} can't be written: there is no folder {folder}{way}")
        if os.path.isdir(self.output):
            raise Fault(WRITE_FAULT, f"dpj: {self.output} can't be written: it is a folder{way}")
        if not os.access(folder, os.W_OK):
            raise Fault(WRITE_FAULT, f"dpj: {self.output} can't be written: nothing may be written in {folder}{way}")
        if os.path.exists(self.output) and not is_page(self.output):
            raise Fault(WRITE_FAULT, f"dpj: {self.output} is there already, and is no page of view, so it is left alone{way}")


def beside(file):
    """The name of the page of a text."""
    return file.removesuffix(".dpj") + ".html"


def is_page(name):
    """Whether a file may be replaced: it is a page, or empty."""
    try:
        with open(name, "rb") as file:
            first = file.read(len(BEGINNING))
    except OSError:
        return False
    return first in (b"", BEGINNING.encode())


def asked(call, text):
    """What the program writes of a run, and its status."""
    def remind(*_):
        tell(["dpj: the run is being made"])

    signal.signal(signal.SIGALRM, remind)
    signal.setitimer(signal.ITIMER_REAL, PATIENCE)
    with tempfile.TemporaryDirectory() as room:
        path = os.path.join(room, "text")
        with open(path, "wb") as file:
            file.write(text)
        try:
            ended, = Runs(call.program, path, BOUNDS).all([(0, ["events", *call.settings])], 1)
        except OSError as error:
            raise Fault(NO_ANSWER, f"dpj: {call.program} can't be run: {error.strerror}") from None
    signal.setitimer(signal.ITIMER_REAL, 0)
    if ended.over == "time":
        raise Fault(LIMITED, f"dpj: the run took more than {BOUNDS.seconds} seconds, so no page is made; a smaller arg or steps makes a shorter run")
    if ended.over:
        raise Fault(LIMITED, "dpj: the run is too long for a page; a smaller arg makes a shorter run, and steps=10000 shows the beginning of it")
    return ended.report, ended.status


def part(name):
    """The text of a part of the page."""
    try:
        return (PARTS / name).read_text(encoding="utf-8")
    except OSError:
        raise Fault(NO_PART, f"dpj: view needs tools/page/{name}, which is not there") from None


def page_of(call, text, report):
    """The page of a run."""
    name = "standard input" if call.file == "-" else printable(os.path.basename(call.file))
    data = {
        "name": name,
        "settings": call.settings,
        "source": text.decode("utf-8", errors="replace"),
        "events": report.decode("utf-8", errors="replace"),
    }
    # What stands in the page is to end neither its script nor a line of it.
    filled = json.dumps(data, ensure_ascii=False).replace("<", "\\u003c").replace("\u2028", "\\u2028").replace("\u2029", "\\u2029")
    fills = {
        "TITLE": f"{html.escape(name)}: a run",
        "STYLE": part("page.css"),
        "DATA": filled,
        "SCRIPT": "".join(part(script).replace('"use strict";\n', "") for script in SCRIPTS),
    }
    fills["SCRIPT"] = '"use strict";\n' + fills["SCRIPT"]
    return re.sub(r"\{\{([A-Z]+)\}\}", lambda found: fills[found[1]], part("page.html"))


def write_page(call, page):
    """Writes the page in one go: whoever reads it meanwhile finds the old one."""
    data = page.encode("utf-8", errors="replace")
    if call.output == "-":
        return write_all(1, data)
    mark = f"{call.output}.{os.getpid()}"
    try:
        with open(mark, "xb") as file:
            file.write(data)
        os.replace(mark, call.output)
    except OSError as error:
        if os.path.exists(mark):
            os.unlink(mark)
        raise Fault(WRITE_FAULT, f"dpj: {call.output} can't be written: {error.strerror}") from None


def summary(call, report):
    """One line on the page."""
    events = int(COUNTED.match(report)[1])
    tasks = 1 + len(re.findall(rb"\n\d+ \d+ begin ", report))
    ending = report.rstrip(b"\n").rpartition(b"\n")[2].decode("ascii", errors="replace")
    return f"{printable(call.output)}: {many(events, 'event')} of {many(tasks, 'task')}, {ending}\n"


def many(number, what):
    return f"{number} {what}{'' if number == 1 else 's'}"


def answered(call):
    """Answers a call: the bytes, the lines for standard error, and the status."""
    text = text_of(call)
    call.see_output()
    report, status = asked(call, text)
    if status == REFUSED:
        verdict = Verdict("check", (report, status))
        if verdict.line is not None:
            return report, refused_lines(call, text, verdict), REFUSED
    if status == USAGE:
        raise Fault(USAGE, "dpj: the program doesn't take these settings; ./dpj help view says what they may be")
    if status == NO_MEMORY:
        raise Fault(NO_MEMORY, "dpj: memory ran out")
    if status not in SHOWN or not COUNTED.match(report):
        raise Fault(NO_ANSWER, f"dpj: {call.program} events gave no answer")
    write_page(call, page_of(call, text, report))
    return (b"" if call.output == "-" else summary(call, report).encode()), [], status


def main(words):
    """Answers one call; gives its status."""
    keep_closed()
    signal.signal(signal.SIGINT, signal.SIG_DFL)
    if "--help" in words or "-h" in words:
        data, lines, status = __doc__.encode(), [], DONE
    else:
        try:
            data, lines, status = answered(Call(words))
        except Fault as fault:
            tell([printable(str(fault))])
            return fault.status
        except OSError:
            return WRITE_FAULT
    try:
        write_all(1, data)
    except OSError:
        return WRITE_FAULT
    tell(lines)
    return status


if __name__ == "__main__":
    sys.exit(main(sys.argv[1:]))

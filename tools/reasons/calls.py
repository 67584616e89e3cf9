"""What the tools on refusals have in common as commands: their words, the text, what they write and their status."""

import contextlib
import os
import signal
import sys

import sections
from screen import Paper, columns_of, has_colours, keep_closed, printable, tell, write_all

from .asking import NoAnswer
from .report import WIDEST
from .source import read

ACCEPTED, USAGE, REFUSED, READ_FAULT, WRITE_FAULT, NO_ANSWER = 0, 1, 2, 5, 6, 126


def end_by(number, _):
    """Ends what the tool has started, and then the tool, by the signal that it got."""
    for child in children():
        with contextlib.suppress(ProcessLookupError):
            os.kill(child, signal.SIGKILL)
    signal.signal(number, signal.SIG_DFL)
    os.kill(os.getpid(), number)


def children():
    """The processes that the tool has started; none where the kernel doesn't say."""
    try:
        with open(f"/proc/self/task/{os.getpid()}/children", encoding="ascii") as file:
            return [int(child) for child in file.read().split()]
    except OSError:
        return []


def run(name, document, forms):
    """Ends with the status of a call of a tool; see `called`."""
    for number in (signal.SIGINT, signal.SIGTERM, signal.SIGHUP):
        # (nohup has one ignored.)
        if signal.getsignal(number) is not signal.SIG_IGN:
            signal.signal(number, end_by)
    sys.exit(called(name, document, forms, sys.argv[1:]))


def called(name, document, forms, words):
    """A call of a tool; gives its status. A form is an option with what it makes of a program and a text: a report, and whether the text is accepted.
    The form without an option is the one of the empty text."""
    keep_closed()
    if "--help" in words or "-h" in words:
        return written(document.strip() + "\n", ACCEPTED)
    asked = [word for word in words if word in forms]
    rest = [word for word in words if word not in forms]
    if len(rest) != 2 or len(asked) > 1:
        tell([document.strip().splitlines()[2]])
        return USAGE
    try:
        source = read(rest[1])
    except OSError as fault:
        tell([f"{name}: {printable(rest[1])} can't be read: {fault.strerror}"])
        return READ_FAULT
    try:
        report, accepted = forms["".join(asked)](rest[0], source)
    except NoAnswer as fault:
        tell([f"{name}: {fault}"])
        return NO_ANSWER
    return written(report, ACCEPTED if accepted else REFUSED)


def written(text, status):
    """Writes a report, and gives the status that this leads to."""
    try:
        write_all(1, text.encode())
    except OSError:
        return WRITE_FAULT
    return status


def paper():
    """What is written to standard output is laid out for."""
    return Paper(min(WIDEST, columns_of(1) - 1) if sys.stdout and sys.stdout.isatty() else WIDEST, has_colours(1))


def general(name):
    """The meaning and the mend of a refusal as docs/REFUSALS.md tells them."""
    section = sections.load()[0].get(name)
    return (section.sentence(), section.mend()) if section else ("", "")
